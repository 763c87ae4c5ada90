package mock

import (
	"bytes"
	"io"
	"net"
	"strings"
	"sync"
	"syscall"
	"testing"
	"time"

	"fled/bson"
	"fled/wire"
)

// Client is a connection that speaks the wire protocol.
type Client struct {
	testing.TB
	net.Conn
}

// Dial connects to an address, for the time of a test.
func Dial(t testing.TB, address string) Client {
	t.Helper()
	conn, err := net.Dial(network(address), strings.TrimPrefix(address, "unix:"))
	if err != nil {
		t.Fatal(err)
	}
	t.Cleanup(func() { conn.Close() })
	conn.SetDeadline(time.Now().Add(2 * time.Minute))
	return Client{t, conn}
}

// Send sends a message; a connection that was ended takes it or doesn't.
func (client Client) Send(message wire.Message) {
	message.WriteTo(client.Conn)
}

// Ask sends a message and reads the reply, with its error.
func (client Client) Ask(message wire.Message) (wire.Message, error) {
	client.Send(message)
	return wire.Read(client.Conn, wire.MaxMessage)
}

// Command asks by OP_MSG, and reads the fields of the reply.
func (client Client) Command(msg wire.Msg) []bson.Element {
	client.Helper()
	reply, err := client.Ask(msg.Message(7, 0))
	if err != nil {
		client.Fatal(err)
	}
	answered, err := wire.ReadMsg(reply)
	if err != nil || reply.To != 7 {
		client.Fatalf("%v to %d", err, reply.To)
	}
	return Fields(answered.Body)
}

// WantEnd fails unless the service ends the connection with no byte more.
func (client Client) WantEnd(why string) {
	client.Helper()
	rest, err := io.ReadAll(client.Conn)
	if timeout, is := err.(net.Error); len(rest) > 0 || is && timeout.Timeout() {
		client.Errorf("%s: %d bytes and %v in place of an end", why, len(rest), err)
	}
}

// network is that of an address, which begins with unix: for a socket of this machine.
func network(address string) string {
	if strings.HasPrefix(address, "unix:") {
		return "unix"
	}
	return "tcp"
}

// Lines is a log that a test reads.
type Lines struct {
	lock sync.Mutex
	text bytes.Buffer
}

// Write keeps a line.
func (all *Lines) Write(line []byte) (int, error) {
	all.lock.Lock()
	defer all.lock.Unlock()
	return all.text.Write(line)
}

// String is all that was written.
func (all *Lines) String() string {
	all.lock.Lock()
	defer all.lock.Unlock()
	return all.text.String()
}

// Processed is the processor time of this process, in nanoseconds: of clients, servers and what stands between them.
func Processed() int64 {
	var used syscall.Rusage
	syscall.Getrusage(syscall.RUSAGE_SELF, &used)
	return used.Utime.Nano() + used.Stime.Nano()
}

// Within10s waits until something is so.
func Within10s(t testing.TB, is func() bool) {
	t.Helper()
	for turn := 0; !is(); turn++ {
		if turn == 1000 {
			t.Fatal("it isn't so after ten seconds")
		}
		time.Sleep(10 * time.Millisecond)
	}
}
