package proxy

import (
	"bytes"
	"strings"
	"testing"

	"fled/bson"
	"fled/mock"
	"fled/wire"
)

const elsewhere = "elsewhere.example:27017"

// hello is a client's hello, which would compress.
func hello(name string) []byte {
	compression := bson.Append(nil, bson.Array, "compression", mock.Texts("zlib", "snappy"))
	return bson.Wrap(bson.AppendInt32(nil, name, 1), compression, bson.AppendText(nil, "$db", "admin"))
}

// wantOwnHello fails where a hello's reply would lead a client past the proxy, or to what that can't read.
func (rig *rig) wantOwnHello(t testing.TB, reply []byte) {
	t.Helper()
	fields := mock.Fields(reply)
	if bytes.Contains(reply, []byte("elsewhere")) || bytes.Contains(reply, []byte("compression")) {
		t.Errorf("%q", reply)
	}
	for _, name := range []string{"passives", "arbiters", "compression"} {
		if mock.Field(fields, name).Whole != nil {
			t.Errorf("there is %s", name)
		}
	}
	for _, name := range []string{"me", "primary"} {
		if text, _ := mock.Field(fields, name).Text(); text != rig.address {
			t.Errorf("%s is %q", name, text)
		}
	}
	hosts := mock.Fields(mock.Field(fields, "hosts").Value)
	if len(hosts) != 1 || !strings.Contains(string(hosts[0].Value), rig.address) {
		t.Error(hosts)
	}
	if most := mock.Number(mock.Field(fields, "maxMessageSizeBytes")); most != messageMost || most < wire.MaxReply {
		t.Error(most)
	}
	if text, _ := mock.Field(fields, "setName").Text(); text != "rs0" {
		t.Error("what else a hello says has gone")
	}
}

func TestHellos(t *testing.T) {
	for _, name := range []string{"hello", "isMaster", "ismaster"} {
		rig := startRig(t, faked(nil), func(rig *rig) { rig.Hosts = []string{elsewhere, "elsewhere.example:27018"} })
		client := mock.Dial(t, rig.address)
		reply, err := client.Ask(query("admin.$cmd", hello(name)))
		if err != nil {
			t.Fatal(err)
		}
		legacy, err := wire.ReadReply(reply)
		if err != nil {
			t.Fatal(err)
		}
		rig.wantOwnHello(t, legacy.Document)
		reply, err = client.Ask(wire.Msg{Body: hello(name)}.Message(8, 0))
		if err != nil {
			t.Fatal(err)
		}
		msg, err := wire.ReadMsg(reply)
		if err != nil {
			t.Fatal(err)
		}
		rig.wantOwnHello(t, msg.Body)
		if rig.Saw("compression") || rig.Saw("zlib") {
			t.Error("the server was asked to compress")
		}
	}
}

// An awaited hello by exhaust is sent without the flag that allows it, and its reply is the only one.
func TestExhaustIsNotOffered(t *testing.T) {
	rig := startRig(t, faked(nil), func(rig *rig) { rig.Hosts = []string{elsewhere} })
	message := wire.Msg{Body: hello("hello")}.Message(8, 0)
	message.Contents[2] = 1 // exhaustAllowed
	if _, err := mock.Dial(t, rig.address).Ask(message); err != nil {
		t.Fatal(err)
	}
	rig.Server.Lock.Lock()
	defer rig.Server.Lock.Unlock()
	if sent := rig.Commands[0].Contents; !bytes.Equal(sent[:4], make([]byte, 4)) {
		t.Error("the server was sent the flags", sent[:4])
	}
}

func TestANameOfTheProxy(t *testing.T) {
	rig := startRig(t, faked(nil), func(rig *rig) {
		rig.Hosts, rig.proxy.Name = []string{elsewhere}, "proxy.example:27018"
	})
	fields := mock.Dial(t, rig.address).Command(wire.Msg{Body: hello("hello")})
	if me, _ := mock.Field(fields, "me").Text(); me != rig.proxy.Name {
		t.Error(me)
	}
}

// Authentication passes, in a hello too, by whichever database a client authenticates.
func TestAuthenticationPasses(t *testing.T) {
	rig := startRig(t, examples(t))
	for _, db := range []string{"admin", "$external", "hr"} {
		for _, name := range []string{"saslStart", "saslContinue"} {
			more := bson.Append(nil, 0x05, "payload", []byte("\x05\x00\x00\x00\x00n,,n="))
			if name == "saslStart" {
				skips := bson.Wrap(bson.AppendBool(nil, "skipEmptyExchange", true))
				more = bson.Append(bson.AppendText(more, "mechanism", "PLAIN"), bson.Document, "options", skips)
			}
			command := bson.Wrap(bson.AppendInt32(nil, name, 1), more, bson.AppendText(nil, "$db", db))
			if fields := mock.Dial(t, rig.address).Command(wire.Msg{Body: command}); mock.Number(mock.Field(fields, "ok")) != 1 {
				t.Error(name, db, fields)
			}
			rig.Server.Lock.Lock()
			if last, _ := wire.ReadMsg(rig.Commands[len(rig.Commands)-1]); !bytes.Equal(last.Body, command) {
				t.Error(name, "is sent otherwise")
			}
			rig.Server.Lock.Unlock()
		}
	}
}
