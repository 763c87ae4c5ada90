package door

import (
	"errors"
	"io"
	"net"
	"strings"
	"testing"
	"time"

	"fled/journal"
	"fled/mock"
)

func dial(t *testing.T, listener net.Listener) net.Conn {
	t.Helper()
	return mock.Dial(t, listener.Addr().String())
}

// echo sends back a byte for a byte, until the client ends.
func echo(client net.Conn) error {
	for one := make([]byte, 1); ; {
		if _, err := client.Read(one); err != nil {
			return err
		}
		client.Write(one)
	}
}

func asks(conn net.Conn) error {
	if _, err := conn.Write([]byte{1}); err != nil {
		return err
	}
	_, err := io.ReadFull(conn, make([]byte, 1))
	return err
}

// One connection above the most is closed, with a line; once another one has gone, a new one is served.
func TestTheMost(t *testing.T) {
	said, front := &mock.Lines{}, mock.Door(t)
	door := newDoor(journal.New(said), 8)
	go door.Serve(echo, front)
	var all []net.Conn
	for len(all) < 8 {
		all = append(all, dial(t, front))
		if err := asks(all[len(all)-1]); err != nil {
			t.Fatal(len(all), err)
		}
	}
	if err := asks(dial(t, front)); err == nil {
		t.Error("one above the most is served")
	}
	mock.Within10s(t, func() bool { return strings.Contains(said.String(), `"why":"above 8 connections"`) })
	if strings.Count(said.String(), "\n") != 1 {
		t.Error(said)
	}
	all[0].Close()
	for turn := 0; asks(dial(t, front)) != nil; turn++ {
		if turn == 1000 {
			t.Fatal("no new one is served")
		}
		time.Sleep(10 * time.Millisecond)
	}
}

// At the end of all listeners, what is at work is waited for.
func TestTheEnd(t *testing.T) {
	said, one, other := &mock.Lines{}, mock.Door(t), mock.Door(t)
	door, served, at := New(journal.New(said)), make(chan struct{}), make(chan struct{})
	serve := func(net.Conn) error {
		close(at)
		<-door.Ended()
		time.Sleep(100 * time.Millisecond)
		close(served)
		return errors.New("a fault")
	}
	dial(t, other)
	go func() {
		<-at
		one.Close()
		other.Close()
	}()
	door.Serve(serve, one, other)
	select {
	case <-served:
	default:
		t.Error("the last one isn't waited for")
	}
	if !strings.Contains(said.String(), `"event":"closed"`) || !strings.Contains(said.String(), `"why":"a fault"`) {
		t.Error(said)
	}
}
