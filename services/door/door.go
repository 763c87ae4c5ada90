// Package door lets clients in: so many connections at once, each served by a goroutine of its own. At the end it waits
// for those that are at work.
package door

import (
	"errors"
	"io"
	"net"
	"strconv"
	"sync"
	"time"

	"fled/journal"
)

const (
	// Patience is how long the last replies are waited for at the end, and a connection that is being made.
	Patience = 10 * time.Second
	// Most is how many connections are served at once.
	Most = 1000

	pause = 10 * time.Millisecond // where no connection can be accepted, as without a descriptor
)

// Door serves connections.
type Door struct {
	log   *journal.Log
	ended chan struct{}
	free  chan struct{} // a place for each connection that may be served
	open  sync.WaitGroup
}

// New is a door that nobody has come by yet.
func New(log *journal.Log) *Door {
	return newDoor(log, Most)
}

func newDoor(log *journal.Log, most int) *Door {
	return &Door{log: log, ended: make(chan struct{}), free: make(chan struct{}, most)}
}

// Ended is closed once no more clients are let in: those that are there ask nothing more.
func (door *Door) Ended() <-chan struct{} {
	return door.ended
}

// Serve serves each connection that the listeners accept until all of these are closed, and then waits, not for ever,
// until the connections have ended. Why one ended goes to the log, unless it ended as it may.
func (door *Door) Serve(serve func(net.Conn) error, listeners ...net.Listener) {
	var accepting sync.WaitGroup
	for _, listener := range listeners {
		accepting.Add(1)
		go func(listener net.Listener) {
			defer accepting.Done()
			door.accept(serve, listener)
		}(listener)
	}
	accepting.Wait()
	close(door.ended)
	all := make(chan struct{})
	go func() { door.open.Wait(); close(all) }()
	select {
	case <-all:
	case <-time.After(Patience):
	}
}

// accept lets clients in until the listener is closed.
func (door *Door) accept(serve func(net.Conn) error, listener net.Listener) {
	for {
		client, err := listener.Accept()
		if errors.Is(err, net.ErrClosed) {
			return
		}
		if err != nil {
			door.log.Say("closed", "why", "no connection is accepted: "+err.Error())
			time.Sleep(pause)
			continue
		}
		select {
		case door.free <- struct{}{}:
			door.open.Add(1)
			go door.connect(serve, client)
		default:
			client.Close()
			door.say(client, "above "+strconv.Itoa(cap(door.free))+" connections")
		}
	}
}

// connect serves one connection to its end.
func (door *Door) connect(serve func(net.Conn) error, client net.Conn) {
	defer func() { client.Close(); <-door.free; door.open.Done() }()
	if err := serve(client); err != nil && err != io.EOF && !errors.Is(err, net.ErrClosed) {
		door.say(client, err.Error())
	}
}

// say tells that a connection was ended, and why.
func (door *Door) say(client net.Conn, why string) {
	door.log.Say("closed", "client", client.RemoteAddr().String(), "why", why)
}
