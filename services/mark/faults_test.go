package mark

import (
	"encoding/binary"
	"net"
	"runtime"
	"sync"
	"testing"
	"time"

	"fled/bson"
	"fled/door"
	"fled/mock"
	"fled/wire"
)

// raw is an OP_MSG of these contents.
func raw(contents ...[]byte) wire.Message {
	message := wire.Message{ID: 7, Opcode: wire.OpMsg}
	for _, part := range contents {
		message.Contents = append(message.Contents, part...)
	}
	return message
}

// What a client may send that isn't a message ends its connection, with a line.
func TestWhatEndsAConnection(t *testing.T) {
	insert, none := beside("insert", "people", schema(t), documents(1, secret)).Body, make([]byte, 4)
	for why, message := range map[string]wire.Message{
		"a compressed message":    {ID: 7, Opcode: 2012, Contents: append([]byte{221, 7, 0, 0, 0, 0, 0, 0, 2}, insert...)},
		"a command by a query":    query("hr.$cmd", insert),
		"an insert by a query":    query("admin.$cmd", insert),
		"a flag that isn't known": raw([]byte{4, 0, 0, 0}, []byte{0}, insert),
		"a wrong checksum":        raw([]byte{1, 0, 0, 0}, []byte{0}, insert, []byte{1, 2, 3, 4}),
		"no section":              raw(none),
		"two bodies":              raw(none, []byte{0}, insert, []byte{0}, insert),
		"a section of length 0":   raw(none, []byte{0}, insert, []byte{1, 0, 0, 0, 0, 'a', 0}),
		"a document of length 0":  raw(none, []byte{0}, insert, []byte{1, 10, 0, 0, 0, 'a', 0, 0, 0, 0, 0}),
		"a body that is cut":      raw(none, []byte{0}, insert[:len(insert)-1]),
	} {
		rig := startRig(t, faked)
		client := mock.Dial(t, rig.address)
		client.Send(message)
		client.WantEnd(why)
		rig.wantLine(t, `"event":"closed"`)
	}
}

func TestLengthsThatNoMessageHas(t *testing.T) {
	rig := startRig(t, faked)
	for _, length := range []uint32{0, 15, wire.MaxMessage + 1, 1<<31 - 1, 1 << 31, 1<<32 - 1} {
		client := mock.Dial(t, rig.address)
		client.Write(append(binary.LittleEndian.AppendUint32(nil, length), make([]byte, 40)...))
		client.WantEnd("a length")
	}
}

func TestHalfAMessage(t *testing.T) {
	rig := startRig(t, faked)
	message := mock.Spelled(beside("insert", "people", bson.Wrap(), documents(1, "x")).Message(7, 0))
	for length := 1; length < len(message); length += 7 {
		client := mock.Dial(t, rig.address)
		client.Write(message[:length])
		client.Conn.(*net.TCPConn).CloseWrite()
		client.WantEnd("half a message")
	}
}

// heap is how many bytes are held, once what isn't has been freed.
func heap() int64 {
	var now runtime.MemStats
	runtime.GC()
	runtime.ReadMemStats(&now)
	return int64(now.HeapAlloc)
}

// A thousand clients that state the longest message and send little of it hold little, and one more is refused.
func TestAThousandConnections(t *testing.T) {
	rig, before := startRig(t, faked), heap()
	front := append(binary.LittleEndian.AppendUint32(nil, wire.MaxMessage), make([]byte, 60)...)
	for count := 0; count < door.Most; count++ {
		mock.Dial(t, rig.address).Write(front)
	}
	mock.Dial(t, rig.address).WantEnd("one more")
	rig.wantLine(t, "above 1000 connections")
	if held := heap() - before; held > 64<<20 {
		t.Errorf("%d bytes are held", held)
	}
}

// A client that reads no reply is waited for, holds what one message has, and keeps nobody else waiting.
func TestASlowReader(t *testing.T) {
	rig, before := startRig(t, faked), heap()
	slow := mock.Dial(t, rig.address)
	one := mock.Spelled(beside("insert", "people", bson.Wrap(), documents(1, string(make([]byte, 1<<16)))).Message(7, 0))
	slow.SetWriteDeadline(time.Now().Add(time.Second))
	for err := error(nil); err == nil; {
		_, err = slow.Write(one)
	}
	if held := heap() - before; held > 16<<20 {
		t.Errorf("%d bytes are held", held)
	}
	if fields := mock.Dial(t, rig.address).Command(beside("insert", "people", bson.Wrap())); !isOK(fields) {
		t.Error(fields)
	}
}

// A client that goes in the middle of a message or of its reply leaves nothing behind.
func TestAClientThatGoes(t *testing.T) {
	rig := startRig(t, faked)
	mock.Dial(t, rig.address).Command(wire.Msg{Body: bson.Wrap(bson.AppendInt32(nil, "ping", 1))})
	before := runtime.NumGoroutine() // with those of a client that stays
	long := mock.Spelled(beside("insert", "people", bson.Wrap(), documents(1, string(make([]byte, 1<<23)))).Message(7, 0))
	for _, sent := range [][]byte{long[:len(long)/2], long} {
		client := mock.Dial(t, rig.address)
		client.Write(sent)
		client.Close()
	}
	mock.Within10s(t, func() bool { return runtime.NumGoroutine() <= before })
}

// marksMuch answers a reply of so many bytes.
type marksMuch int

func (size marksMuch) Mark(string, []byte) ([]byte, error) {
	return mock.OK(bson.AppendText(nil, "a", string(make([]byte, size)))), nil
}

func (marksMuch) Close() error { return nil }

// A reply above what a message may have is refused; a message and its reply above 64 MB end the connection.
func TestLongReplies(t *testing.T) {
	size := marksMuch(47_900_000)
	rig := startRig(t, func(string, []byte) (Engine, error) { return size, nil })
	client := mock.Dial(t, rig.address)
	if fields := client.Command(beside("insert", "people", bson.Wrap())); !isOK(fields) {
		t.Error("a long reply isn't sent")
	}
	client.Send(beside("insert", "people", bson.Wrap(), documents(1, string(make([]byte, 16_700_000)))).Message(7, 0))
	client.WantEnd("more than 64 MB")
	rig.wantLine(t, errHeld.Error())
	size = wire.MaxMessage
	rig = startRig(t, func(string, []byte) (Engine, error) { return size, nil })
	wantRefused(t, mock.Dial(t, rig.address).Command(beside("insert", "people", bson.Wrap())), "Limit: Output")
}

// notADocument answers what is none.
type notADocument struct{ marksMuch }

func (notADocument) Mark(string, []byte) ([]byte, error) { return []byte{1, 2, 3}, nil }

func TestAReplyOfAnotherForm(t *testing.T) {
	rig := startRig(t, func(string, []byte) (Engine, error) { return notADocument{}, nil })
	wantRefused(t, mock.Dial(t, rig.address).Command(beside("insert", "people", bson.Wrap())), "no document")
}

// slowly marks once it is told to.
type slowly struct {
	fake
	begun, go_ chan struct{}
}

func (engine slowly) Mark(db string, command []byte) ([]byte, error) {
	engine.begun <- struct{}{}
	<-engine.go_
	return engine.fake.Mark(db, command)
}

// At the end a command at hand is answered, and a client that asks nothing is let go.
func TestTheEnd(t *testing.T) {
	engine := slowly{begun: make(chan struct{}), go_: make(chan struct{})}
	rig := startRig(t, func(string, []byte) (Engine, error) { return engine, nil })
	idle, waits, answered := mock.Dial(t, rig.address), mock.Dial(t, rig.address), sync.WaitGroup{}
	idle.Command(wire.Msg{Body: bson.Wrap(bson.AppendInt32(nil, "ping", 1))})
	answered.Add(1)
	go func() {
		defer answered.Done()
		if fields := waits.Command(beside("insert", "people", bson.Wrap())); !isOK(fields) {
			t.Error(fields)
		}
	}()
	<-engine.begun
	rig.front.Close()
	idle.WantEnd("a client that asks nothing")
	close(engine.go_)
	answered.Wait()
	waits.WantEnd("a client that was answered")
	rig.served.Wait()
	if rig.said.String() != "" {
		t.Error(rig.said)
	}
}

// Any message tells that somebody is there.
func TestIdle(t *testing.T) {
	rig := startRig(t, faked)
	time.Sleep(50 * time.Millisecond)
	if rig.Idle() < 50*time.Millisecond {
		t.Error(rig.Idle())
	}
	mock.Dial(t, rig.address).Command(wire.Msg{Body: bson.Wrap(bson.AppendInt32(nil, "hello", 1))})
	if idle := rig.Idle(); idle > 40*time.Millisecond {
		t.Error(idle)
	}
}
