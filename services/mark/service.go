// Package mark answers drivers in mongocryptd's place: which values of a command are to be sealed, by the schema that
// stands beside it.
//
// A driver with MongoDB's own encryption has a library, libmongocrypt, that sends each command with its collection's
// schema, and seals what the reply marks. What is marked, or refused, the library libfle says, which is proved; this
// package moves bytes, and is tested. It has no keys. What it can't read ends the connection; a command that can't be
// marked comes to an error reply, never to one without marks.
package mark

import (
	"bufio"
	"errors"
	"net"
	"sync/atomic"
	"time"

	"fle"

	"fled/bson"
	"fled/door"
	"fled/journal"
	"fled/refusal"
	"fled/wire"
)

// mostHeld is how many bytes a message and its reply may have together.
const mostHeld = 64_000_000

var (
	errHeld = errors.New("a message and its reply above 64000000 bytes")
	errForm = errors.New("Unsupported: a reply of the library that is no document")
)

// Service serves connections.
type Service struct {
	log     *journal.Log
	door    *door.Door
	engines *engines
	last    int64 // when the last message came or was answered, in nanoseconds since 1970
	replies int32 // requestID of the last reply
}

// New is a service that nobody has asked yet.
func New(log *journal.Log) *Service {
	service := &Service{log: log, door: door.New(log), engines: newEngines(open)}
	service.came()
	return service
}

// open starts an engine by rules alone, of all commands that the library takes, which marks no command for another collection than that of these infos, or for
// any where there are none.
func open(db string, infos []byte) (Engine, error) {
	engine, err := fle.Start(nil, fle.CommandsMore)
	if err == nil && infos != nil {
		err = engine.PutInfo(db, infos)
	}
	if err != nil {
		return nil, err
	}
	return engine, nil
}

// Serve serves clients until the listeners are closed, and then waits, not for ever, until they have been answered.
func (service *Service) Serve(listeners ...net.Listener) {
	service.door.Serve(service.serve, listeners...)
}

// Idle is how long no message has come, or been answered.
func (service *Service) Idle() time.Duration {
	return time.Since(time.Unix(0, atomic.LoadInt64(&service.last)))
}

// came tells that somebody is there.
func (service *Service) came() {
	atomic.StoreInt64(&service.last, time.Now().UnixNano())
}

// serve answers one client's messages, one by one, until it ends, or the service does.
func (service *Service) serve(client net.Conn) error {
	served := make(chan struct{})
	defer close(served)
	go service.endReading(client, served)
	for from := bufio.NewReader(client); ; {
		message, err := wire.Read(from, wire.MaxMessage)
		if err != nil {
			return service.unlessEnded(err)
		}
		service.came()
		reply, err := service.answer(client, message)
		if err == nil && reply != nil {
			_, err = reply.WriteTo(client)
		}
		service.came()
		if err != nil {
			return err
		}
	}
}

// endReading has nothing more be read of a client once the service ends.
func (service *Service) endReading(client net.Conn, served <-chan struct{}) {
	select {
	case <-service.door.Ended():
		client.SetReadDeadline(time.Now())
	case <-served:
	}
}

// unlessEnded is an error of reading, and none where the service ends.
func (service *Service) unlessEnded(err error) error {
	select {
	case <-service.door.Ended():
		return nil
	default:
		return err
	}
}

// answer is the reply to a message; nil where none is wanted.
func (service *Service) answer(client net.Conn, message wire.Message) (*wire.Message, error) {
	id := atomic.AddInt32(&service.replies, 1)
	switch message.Opcode {
	case wire.OpQuery:
		reply, err := helloByQuery(message)
		if err != nil {
			return nil, err
		}
		spelled := reply.Message(id, message.ID)
		return &spelled, nil
	case wire.OpMsg:
		msg, err := wire.ReadMsg(message)
		if err != nil {
			return nil, err
		}
		reply := service.reply(client, msg)
		if msg.MoreToCome {
			return nil, nil
		}
		if len(message.Contents)+reply.Size() > mostHeld {
			return nil, errHeld
		}
		spelled := reply.Message(id, message.ID)
		return &spelled, nil
	}
	return nil, refusal.Opcode(message.Opcode)
}

// reply is the reply to a command.
func (service *Service) reply(client net.Conn, msg wire.Msg) wire.Msg {
	taken, err := takeApart(msg)
	if err == nil && taken.schema == nil {
		return ownReply(taken.first.Name)
	}
	if err == nil {
		var reply wire.Msg
		if reply, err = service.marked(taken); err == nil {
			return reply
		}
	}
	said := refusal.Said(err)
	service.log.Say("refused", "client", client.RemoteAddr().String(), "db", taken.db, "command", taken.first.Name,
		"why", said)
	return refusal.Reply(said)
}

// marked is the library's marking reply to a command, which has the ok of a server.
func (service *Service) marked(taken command) (wire.Msg, error) {
	marks, err := service.engines.mark(taken.db, taken.infos(), bson.Wrap(taken.own))
	if err != nil {
		return wire.Msg{}, err
	}
	if length, err := bson.Length(marks); err != nil || length != len(marks) {
		return wire.Msg{}, errForm
	}
	reply := wire.Msg{Body: marks}
	if reply.Size() > wire.MaxMessage {
		return wire.Msg{}, &fle.Error{Status: fle.Limit, Number: 2, Reason: "Output"}
	}
	return reply, nil
}
