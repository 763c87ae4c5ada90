package proxy

import (
	"bytes"
	"encoding/binary"
	"runtime"
	"testing"
	"time"

	"fled/bson"
	"fled/door"
	"fled/mock"
	"fled/wire"
)

// heap is how many bytes are held, once what isn't has been freed.
func heap() int64 {
	var now runtime.MemStats
	runtime.GC()
	runtime.ReadMemStats(&now)
	return int64(now.HeapAlloc)
}

// A thousand clients, each of which states the longest message and sends little of it, hold little; one more is ended,
// with a line. Each has its connection to the server.
func TestAThousandConnections(t *testing.T) {
	rig, before := startRig(t, faked(nil)), heap()
	front := append(binary.LittleEndian.AppendUint32(nil, wire.MaxMessage), make([]byte, 60)...)
	for count := 0; count < door.Most; count++ {
		mock.Dial(t, rig.address).Write(front)
	}
	mock.Within10s(t, func() bool { return rig.Connections() == door.Most })
	mock.Dial(t, rig.address).WantEnd("one more")
	rig.wantLine(t, "above 1000 connections")
	held := heap() - before
	t.Logf("%d bytes are held", held)
	if held > 128<<20 {
		t.Errorf("%d bytes are held", held)
	}
}

// A client that reads no reply is waited for, and so is its server; nobody else is, and little is held.
func TestASlowReader(t *testing.T) {
	long := mock.OK(bson.AppendText(nil, "a", string(make([]byte, 1<<20))))
	rig := startRig(t, faked(nil), func(rig *rig) {
		rig.Answer = func(name string, _ wire.Msg, id int32) []byte {
			if name != "find" {
				return nil
			}
			return mock.Spelled(wire.Msg{Body: long}.Message(1, id))
		}
	})
	before, slow := heap(), mock.Dial(t, rig.address)
	find := mock.Spelled(wire.Msg{Body: body("find", "people", "hr", bson.AppendText(nil, "comment",
		string(make([]byte, 1<<16))))}.Message(7, 0))
	slow.SetWriteDeadline(time.Now().Add(time.Second))
	for err := error(nil); err == nil; {
		_, err = slow.Write(find)
	}
	rig.Server.Lock.Lock()
	came, asked := len(rig.Got), len(rig.Commands)
	rig.Server.Lock.Unlock()
	held := heap() - before - 3*int64(came) // what the mock server and the rig keep
	t.Logf("%d bytes are held, %d commands were asked", held, asked)
	if held > 32<<20 || asked > 64 {
		t.Errorf("%d bytes are held, %d commands were asked", held, asked)
	}
	if fields := mock.Dial(t, rig.address).Command(wire.Msg{Body: body("ping", "1", "hr")}); mock.Number(
		mock.Field(fields, "ok")) != 1 {
		t.Error(fields)
	}
}

// A message that comes while another one is answered isn't read before: what a connection holds is of one message.
func TestMessagesThatWait(t *testing.T) {
	waits, came := make(chan struct{}), make(chan struct{}, 3)
	rig := startRig(t, faked(nil), func(rig *rig) {
		rig.Answer = func(string, wire.Msg, int32) []byte {
			came <- struct{}{}
			<-waits
			return nil
		}
	})
	client := mock.Dial(t, rig.address)
	go func() {
		client.Send(wire.Msg{Body: body("ping", "1", "hr")}.Message(1, 0))
		client.Send(inserts(8, 1<<20).Message(2, 0))
		client.Send(inserts(8, 1<<20).Message(3, 0))
	}()
	<-came
	time.Sleep(100 * time.Millisecond)
	rig.lock.Lock()
	if read := len(rig.sent[0]); read > 1<<16 {
		t.Errorf("%d bytes were read before the reply", read)
	}
	rig.lock.Unlock()
	close(waits)
	for count := 0; count < 3; count++ {
		if _, err := wire.Read(client.Conn, wire.MaxMessage); err != nil {
			t.Fatal(err)
		}
	}
}

// Documents of nearly 16 MiB pass both ways, as all else that is as long as it may be; what is longer ends with a
// refusal, or the connection with a line, and nothing of it is sent.
func TestLongDocuments(t *testing.T) {
	text := string(bytes.Repeat([]byte{'a'}, 16<<20-200))
	reply := mock.OK(bson.AppendText(bson.AppendText(nil, "a", text), "b", "sealed"))
	rig := startRig(t, faked(nil), func(rig *rig) {
		rig.Answer = func(_ string, _ wire.Msg, id int32) []byte {
			return mock.Spelled(wire.Msg{Body: reply}.Message(1, id))
		}
	})
	one := bson.Wrap(bson.AppendText(nil, "a", text), bson.AppendText(nil, "ssn", secret))
	insert := wire.Msg{Body: body("insert", "people", "hr"), Sequences: []wire.Sequence{{Name: "documents", Documents: one}}}
	fields := mock.Dial(t, rig.address).Command(insert)
	if back, _ := mock.Field(fields, "a").Text(); back != text || rig.Saw(secret) || !rig.Saw("sealed") {
		t.Error("a long document comes back otherwise")
	}
}

// A message of 31 MB is sealed in portions and passes; of nearly 48 MB what is sealed doesn't fit beside it, so it ends
// the connection, with a line, and nothing of it is sent.
func TestTheLongestMessages(t *testing.T) {
	rig := startRig(t, faked(nil))
	fields := mock.Dial(t, rig.address).Command(inserts(2, 15_600_000))
	if mock.Number(mock.Field(fields, "ok")) != 1 || rig.Saw(secret) || !rig.Saw("sealed") {
		t.Error(fields)
	}
	client, longest, count := mock.Dial(t, rig.address), inserts(3, 15_990_000), len(rig.Names())
	if size := longest.Size(); size < 47_900_000 || size > wire.MaxMessage {
		t.Fatalf("%d bytes", size)
	}
	client.Send(longest.Message(7, 0))
	client.WantEnd("48 MB")
	rig.wantLine(t, errHeld.Error())
	if len(rig.Names()) != count {
		t.Error(rig.Names())
	}
}

// What is sealed of a message beside it, above what a connection may hold, ends the connection, with a line.
func TestWhatIsHeldTogether(t *testing.T) {
	rig := startRig(t, faked(func(command []byte) ([]byte, error) {
		return bson.Wrap(command[4:len(command)-1], bson.AppendText(nil, "a", string(make([]byte, mostHeld)))), nil
	}))
	client := mock.Dial(t, rig.address)
	client.Send(wire.Msg{Body: body("insert", "people", "hr")}.Message(7, 0))
	client.WantEnd("more than 64 MB")
	rig.wantLine(t, errHeld.Error())
	msg := inserts(4, 10)
	if _, err := sealedSequence(fake{}, "hr", msg.Body, msg.Sequences[0], 20); err != errHeld || len(rig.Names()) > 0 {
		t.Error(err, rig.Names())
	}
}

// The server gone in the middle of a command, or of its reply, ends the client's connection, with a line.
func TestAServerThatGoes(t *testing.T) {
	for _, part := range []string{"", "half"} {
		door := mock.Door(t)
		rig := startRig(t, faked(nil), func(rig *rig) { rig.proxy.Server = door.Addr().String() })
		go func() {
			conn, err := door.Accept()
			if err != nil {
				return
			}
			wire.Read(conn, wire.MaxMessage)
			conn.Write([]byte(part))
			conn.Close()
		}()
		client := mock.Dial(t, rig.address)
		client.Send(wire.Msg{Body: body("find", "people", "hr")}.Message(7, 0))
		client.WantEnd("a server that goes")
		rig.wantLine(t, `"event":"served"`)
		if part != "" {
			rig.wantLine(t, `"why":"server: unexpected EOF"`)
		}
	}
}
