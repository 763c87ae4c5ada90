package proxy

import (
	"bufio"
	"errors"
	"fmt"
	"io"
	"net"
	"strconv"

	"fled/wire"
)

// session is one connection of a client, and the one to the server that stands for it. As servers do, it takes one
// message, and the next one once that is answered.
type session struct {
	proxy          *Proxy
	client, server net.Conn
	address        string // of the proxy, as this client knows it
	last           int32  // requestID of the last message of its own

	fromClient, fromServer <-chan arrival
	wanted                 chan struct{} // to which the client's next message is read

	commands, refused int // how many came, and weren't sent or handed on
}

// arrival is a message, or why there is none.
type arrival struct {
	message wire.Message
	err     error
}

// request is a client's message that waits for its reply.
type request struct {
	id      int32
	opcode  int32 // of the reply
	isHello bool
	engine  Engine // of the rules that the request was judged by
}

var (
	errUnasked = errors.New("the server sent a reply that nothing asked for")
	errMore    = errors.New("the server sent a reply that has more to come")
)

// arrivals reads one message after the other, each once it is wanted, until one is an error. That there will be none is
// told whether one is wanted or not.
func arrivals(from io.Reader, most int, wanted, ended <-chan struct{}) <-chan arrival {
	came := make(chan arrival)
	go func() {
		for buffered := bufio.NewReader(from); ; {
			_, err := buffered.Peek(1)
			one := arrival{err: err}
			if err == nil {
				select {
				case <-wanted:
				case <-ended:
					return
				}
				one.message, one.err = wire.Read(buffered, most)
			}
			select {
			case came <- one:
			case <-ended:
				return
			}
			if one.err != nil {
				return
			}
		}
	}()
	return came
}

// run serves the client until either side ends, or the proxy does; the error says what was at fault, if something was.
func (session *session) run() error {
	ended, always := make(chan struct{}), make(chan struct{})
	defer close(ended)
	close(always)
	session.wanted = make(chan struct{})
	session.fromClient = arrivals(session.client, wire.MaxMessage, session.wanted, ended)
	session.fromServer = arrivals(session.server, wire.MaxReply, always, ended)
	for {
		came, err := session.next()
		if err == nil && came != nil {
			err = session.take(came.message)
		}
		if came == nil || err != nil {
			return err
		}
	}
}

// next is the client's next message; none where the proxy ends.
func (session *session) next() (*arrival, error) {
	select {
	case <-session.proxy.door.Ended():
		return nil, nil
	default:
	}
	for wanted := session.wanted; ; {
		select {
		case wanted <- struct{}{}:
			wanted = nil
		case came := <-session.fromClient:
			return &came, from("client", came.err)
		case came := <-session.fromServer:
			if came.err != nil {
				return nil, from("server", came.err)
			}
			return nil, errUnasked
		case <-session.proxy.door.Ended():
			return nil, nil
		}
	}
}

// take sends what is sent in a message's place, and hands on the reply, where one comes.
func (session *session) take(message wire.Message) error {
	session.commands++
	asked, err := session.send(message)
	if err != nil || asked == nil {
		return err
	}
	reply, err := session.reply(asked.isHello)
	if err != nil {
		return err
	}
	if reply.To != asked.id || reply.Opcode != asked.opcode {
		return errUnasked
	}
	return session.hand(asked, reply)
}

// reply waits for the server's next message. A message that the client sends meanwhile isn't read; that it has gone ends
// the wait, as does the proxy's end that for a hello, which a server may answer late.
func (session *session) reply(toHello bool) (wire.Message, error) {
	ended := (<-chan struct{})(nil)
	if toHello {
		ended = session.proxy.door.Ended()
	}
	select {
	case <-ended:
		return wire.Message{}, net.ErrClosed
	case came := <-session.fromServer:
		return came.message, from("server", came.err)
	case came := <-session.fromClient:
		return wire.Message{}, from("client", came.err)
	}
}

// answer sends a reply of the proxy's own.
func (session *session) answer(to int32, reply wire.Msg) error {
	session.last++
	return reply.SendTo(session.client, session.last, to)
}

func (session *session) write(to net.Conn, message wire.Message) error {
	_, err := message.WriteTo(to)
	return err
}

// sayServed tells of the connection at its end.
func (session *session) sayServed() {
	session.say("served", "commands", strconv.Itoa(session.commands), "refused", strconv.Itoa(session.refused))
}

// from says whose message an error is of. That a side ended between two messages stays io.EOF.
func from(side string, err error) error {
	if err == nil || err == io.EOF {
		return err
	}
	return fmt.Errorf("%s: %w", side, err)
}
