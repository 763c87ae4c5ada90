package proxy

import (
	"errors"
	"fmt"

	"fle"

	"fled/bson"
	"fled/refusal"
	"fled/wire"
)

// send sends what is sent in a message's place: nil where no reply will come.
func (session *session) send(message wire.Message) (*request, error) {
	switch message.Opcode {
	case wire.OpQuery:
		return session.sendQuery(message)
	case wire.OpMsg:
		return session.sendMsg(message)
	}
	return nil, refusal.Opcode(message.Opcode)
}

// sendQuery sends a hello that comes as an OP_QUERY, and nothing else that does.
func (session *session) sendQuery(message wire.Message) (*request, error) {
	query, err := wire.ReadQuery(message)
	if err != nil {
		return nil, err
	}
	first, has := bson.Over(query.Document).Next()
	if !has || !wire.IsHello(first.Name) {
		return nil, refusal.ErrLegacy
	}
	if query.Document, err = helloRequest(query.Document); err != nil {
		return nil, err
	}
	return &request{id: message.ID, opcode: wire.OpReply, isHello: true},
		session.write(session.server, query.Message(message.ID, message.To))
}

// sendMsg sends a command, or refuses it.
func (session *session) sendMsg(message wire.Message) (*request, error) {
	msg, err := wire.ReadMsg(message)
	if err != nil {
		return nil, err
	}
	rules := *session.proxy.rules.Load()
	read, err := readCommand(msg.Body)
	sent := msg
	if err == nil {
		sent, err = session.proxy.judged(rules, read, msg)
	}
	if err == nil && sent.Size() > wire.MaxMessage {
		err = &fle.Error{Status: fle.Limit, Number: 2, Reason: "Output"}
	}
	if errors.Is(err, errHeld) {
		return nil, err
	}
	if err != nil {
		return nil, session.refuse(message.ID, read.name, msg.MoreToCome, err)
	}
	if err := sent.SendTo(session.server, message.ID, message.To); err != nil || msg.MoreToCome {
		return nil, err
	}
	return &request{message.ID, wire.OpMsg, wire.IsHello(read.name), rules.engine(read.db)}, nil
}

// judged is what is sent of a command.
func (proxy *Proxy) judged(rules Rules, read command, msg wire.Msg) (wire.Msg, error) {
	database, isHello := rules[read.db], wire.IsHello(read.name)
	passes := isHello || database == nil && passing[read.name]
	switch {
	case read.name == renaming && database != nil:
		return msg, errReach
	case passes && len(msg.Sequences) > 0:
		return msg, errSequences
	case isHello:
		body, err := helloRequest(msg.Body)
		msg.Body = body
		return msg, err
	case database != nil:
		whole, err := sealed(database.engine(), read.db, msg)
		if err != nil {
			return whole, err
		}
		return whole, read.wantListed(database)
	case passes:
		return msg, rules.wantOwnNames(msg.Body)
	case !proxy.OthersPass:
		return msg, read.notPassing(rules)
	}
	return msg, rules.wantNoReach(read, msg)
}

// refuse says why a command isn't sent: in the log, and to a client that waits for a reply.
func (session *session) refuse(id int32, name string, moreToCome bool, why error) error {
	told := refusal.Said(why)
	session.refused++
	session.say("refused", "command", name, "why", told)
	if moreToCome {
		return nil
	}
	return session.answer(id, refusal.Reply(told))
}

// say writes a line about this client.
func (session *session) say(event string, pairs ...string) {
	pairs = append([]string{"client", session.client.RemoteAddr().String()}, pairs...)
	session.proxy.Log.Say(event, pairs...)
}

// hand hands a reply to the client: a hello as the proxy's own, any other one opened.
func (session *session) hand(asked *request, reply wire.Message) error {
	if reply.Opcode == wire.OpReply {
		return session.handLegacy(reply)
	}
	msg, err := wire.ReadMsg(reply)
	switch {
	case err != nil:
		return from("server", err)
	case msg.MoreToCome:
		return errMore
	case len(msg.Sequences) > 0:
		return errors.New("the server sent a reply with a document sequence")
	case asked.isHello:
		msg.Body, err = helloReply(msg.Body, session.address)
	default:
		sealed := msg.Body
		msg.Body, err = opened(asked.engine, sealed)
		if told := (*fle.Error)(nil); errors.As(err, &told) {
			return session.refuseReply(asked.id, sealed, err)
		}
	}
	if err != nil {
		return from("server", err)
	}
	return msg.SendTo(session.client, reply.ID, reply.To)
}

// refuseReply answers in the place of a reply that can't be opened, whose cursor ends.
func (session *session) refuseReply(id int32, reply []byte, why error) error {
	told := refusal.Said(fmt.Errorf("the reply: %w", why))
	session.refused++
	session.say("refused", "why", told)
	if err := session.kill(reply); err != nil {
		return err
	}
	return session.answer(id, refusal.Reply(told))
}

// handLegacy hands on the reply to a hello that came as an OP_QUERY.
func (session *session) handLegacy(reply wire.Message) error {
	legacy, err := wire.ReadReply(reply)
	if err != nil {
		return from("server", err)
	}
	if legacy.Document, err = helloReply(legacy.Document, session.address); err != nil {
		return from("server", err)
	}
	return session.write(session.client, legacy.Message(reply.ID, reply.To))
}
