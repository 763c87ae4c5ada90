package proxy

import (
	"encoding/binary"
	"hash/crc32"
	"net"
	"testing"

	"fled/bson"
	"fled/mock"
	"fled/wire"
)

// raw is an OP_MSG of these contents.
func raw(contents ...[]byte) wire.Message {
	message := wire.Message{ID: 7, Opcode: wire.OpMsg}
	for _, part := range contents {
		message.Contents = append(message.Contents, part...)
	}
	return message
}

// query is an OP_QUERY on a collection.
func query(collection string, document []byte) wire.Message {
	contents := append(append([]byte{4, 0, 0, 0}, collection...), 0)
	contents = append(append(contents, 0, 0, 0, 0, 255, 255, 255, 255), document...)
	return wire.Message{ID: 7, Opcode: wire.OpQuery, Contents: contents}
}

// What a client may send that isn't a message: the connection ends, and the server gets none of it.
func TestWhatEndsAConnection(t *testing.T) {
	insert, none := body("insert", "people", "hr", documents(1, secret)), make([]byte, 4)
	zlib, legacy := []byte{221, 7, 0, 0, 0, 0, 0, 0, 2}, []byte("\x00\x00\x00\x00hr.people\x00")
	flags := func(number uint32) []byte { return binary.LittleEndian.AppendUint32(nil, number) }
	for why, message := range map[string]wire.Message{
		"a compressed message":      {ID: 7, Opcode: 2012, Contents: append(zlib, insert...)},
		"a legacy insert":           {ID: 7, Opcode: 2002, Contents: append(legacy, insert...)},
		"an OP_REPLY":               {ID: 7, Opcode: 1, Contents: append(make([]byte, 20), insert...)},
		"a query":                   query("hr.people", insert),
		"a command by a query":      query("hr.$cmd", insert),
		"an insert by a query":      query("admin.$cmd", insert),
		"a flag that isn't known":   raw(flags(4), []byte{0}, insert),
		"a wrong checksum":          raw(flags(1), []byte{0}, insert, []byte{1, 2, 3, 4}),
		"a checksum alone":          raw(flags(1), []byte{1, 2, 3}),
		"no section":                raw(none),
		"two bodies":                raw(none, []byte{0}, insert, []byte{0}, insert),
		"a section of another kind": raw(none, []byte{0}, insert, []byte{2}, insert),
		"a section of length 0":     raw(none, []byte{0}, insert, []byte{1, 0, 0, 0, 0, 'a', 0}),
		"a section of length 3":     raw(none, []byte{0}, insert, []byte{1, 3, 0, 0, 0, 'a', 0}),
		"a section of length -1":    raw(none, []byte{0}, insert, []byte{1, 255, 255, 255, 255, 'a', 0}),
		"a section without a name":  raw(none, []byte{0}, insert, []byte{1, 5, 0, 0, 0, 'a'}),
		"a document of length 0":    raw(none, []byte{0}, insert, []byte{1, 10, 0, 0, 0, 'a', 0, 0, 0, 0, 0}),
		"a body of length 0":        raw(none, []byte{0, 0, 0, 0, 0}),
		"a body that is cut":        raw(none, []byte{0}, insert[:len(insert)-1]),
	} {
		rig := startRig(t, faked(nil))
		client := mock.Dial(t, rig.address)
		client.Send(message)
		client.WantEnd(why)
		if rig.Saw(secret) || len(rig.Names()) > 0 {
			t.Errorf("%s: the server got it", why)
		}
		rig.wantLine(t, `"event":"closed"`)
	}
}

func TestLengthsThatNoMessageHas(t *testing.T) {
	rig := startRig(t, faked(nil))
	for _, length := range []uint32{0, 15, wire.MaxMessage + 1, 1<<31 - 1, 1 << 31, 1<<32 - 1} {
		client := mock.Dial(t, rig.address)
		client.Write(append(binary.LittleEndian.AppendUint32(nil, length), make([]byte, 40)...))
		client.WantEnd("a length")
	}
}

func TestHalfAMessage(t *testing.T) {
	rig := startRig(t, faked(nil))
	message := mock.Spelled(wire.Msg{Body: body("insert", "people", "hr", documents(1, "x"))}.Message(7, 0))
	for length := 1; length < len(message); length += 7 {
		client := mock.Dial(t, rig.address)
		client.Write(message[:length])
		client.Conn.(*net.TCPConn).CloseWrite()
		client.WantEnd("half a message")
	}
	if names := rig.Names(); len(names) > 0 {
		t.Error("the server got", names)
	}
}

func TestAChecksumOfAClient(t *testing.T) {
	rig := startRig(t, faked(nil))
	message := raw([]byte{1, 0, 0, 0}, []byte{0}, body("insert", "people", "hr", documents(1, secret)), make([]byte, 4))
	all := mock.Spelled(message)
	sum := crc32.Checksum(all[:len(all)-4], crc32.MakeTable(crc32.Castagnoli))
	binary.LittleEndian.PutUint32(message.Contents[len(message.Contents)-4:], sum)
	reply, err := mock.Dial(t, rig.address).Ask(message)
	if err != nil || reply.To != 7 || rig.Saw(secret) || !rig.Saw("sealed") {
		t.Error(reply.To, err)
	}
}

// What a server may send that isn't the reply: the connection ends, and the client gets none of it.
func TestWhatAServerMayNotSend(t *testing.T) {
	hidden := mock.OK(bson.AppendText(nil, "a", "hidden"))
	msg := wire.Msg{Body: hidden}
	sequence := wire.Msg{Body: hidden, Sequences: []wire.Sequence{{Name: "a", Documents: hidden}}}
	cut, legacy := mock.Spelled(msg.Message(1, 7)), append(append(make([]byte, 16), 1, 0, 0, 0), hidden...)
	long := binary.LittleEndian.AppendUint32(nil, wire.MaxReply+1)
	for why, reply := range map[string][]byte{
		"a compressed reply":      mock.Spelled(wire.Message{ID: 1, To: 7, Opcode: 2012, Contents: hidden}),
		"an OP_REPLY to OP_MSG":   mock.Spelled(wire.Message{ID: 1, To: 7, Opcode: 1, Contents: legacy}),
		"a reply to another":      mock.Spelled(msg.Message(1, 8)),
		"a reply with more":       mock.Spelled(wire.Msg{MoreToCome: true, Body: hidden}.Message(1, 7)),
		"a reply with a sequence": mock.Spelled(sequence.Message(1, 7)),
		"half a reply":            cut[:len(cut)-1],
		"a reply of length 0":     make([]byte, 16),
		"a long reply":            append(long, make([]byte, 40)...),
	} {
		rig := startRig(t, faked(nil), func(rig *rig) {
			rig.Answer = func(string, wire.Msg, int32) []byte { return reply }
		})
		client := mock.Dial(t, rig.address)
		client.Send(wire.Msg{Body: body("find", "people", "hr")}.Message(7, 0))
		if why == "half a reply" {
			rig.wantCommands(t, 1)
			client.Conn.(*net.TCPConn).CloseWrite()
		}
		client.WantEnd(why)
	}
}

func TestAReplyThatNothingAskedFor(t *testing.T) {
	rig := startRig(t, faked(nil), func(rig *rig) {
		rig.Answer = func(_ string, msg wire.Msg, id int32) []byte {
			return mock.Spelled(wire.Msg{Body: mock.OK(nil)}.Message(1, id))
		}
	})
	client := mock.Dial(t, rig.address)
	client.Send(wire.Msg{MoreToCome: true, Body: body("insert", "people", "hr", documents(1, secret))}.Message(7, 0))
	client.WantEnd("a reply to a write that wants none")
	rig.wantLine(t, errUnasked.Error())
}

func TestNoServer(t *testing.T) {
	rig := startRig(t, faked(nil))
	rig.Server.Door.Close()
	client := mock.Dial(t, rig.address)
	client.WantEnd("no server")
	rig.wantLine(t, "server "+rig.Server.Address())
}

// A client that goes while it waits takes its connection to the server with it.
func TestAClientThatGoes(t *testing.T) {
	rig := startRig(t, faked(nil), func(rig *rig) {
		rig.Answer = func(string, wire.Msg, int32) []byte { return []byte{} }
	})
	client := mock.Dial(t, rig.address)
	client.Send(wire.Msg{Body: body("find", "people", "hr")}.Message(7, 0))
	rig.wantCommands(t, 1)
	client.Close()
	mock.Within10s(t, func() bool { return rig.Connections() == 0 })
}

// wantCommands waits until the server has so many commands.
func (rig *rig) wantCommands(t testing.TB, count int) {
	t.Helper()
	mock.Within10s(t, func() bool { return len(rig.Names()) == count })
}
