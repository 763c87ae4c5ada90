package proxy

import (
	"testing"
	"time"

	"fled/bson"
	"fled/mock"
	"fled/wire"
)

// Once the listener is closed, a command that waits is answered, a client that asks nothing is let go, and so is one
// that waits for a hello.
func TestTheEnd(t *testing.T) {
	rig := startRig(t, faked(nil), func(rig *rig) {
		rig.Answer = func(name string, _ wire.Msg, _ int32) []byte {
			if name == "hello" {
				return []byte{}
			}
			rig.front.Close()
			time.Sleep(200 * time.Millisecond)
			return nil
		}
	})
	idle, waits, hellos := mock.Dial(t, rig.address), mock.Dial(t, rig.address), mock.Dial(t, rig.address)
	hellos.Send(wire.Msg{Body: hello("hello")}.Message(7, 0))
	rig.wantCommands(t, 1)
	mock.Within10s(t, func() bool { return rig.Connections() == 3 })
	if fields := waits.Command(wire.Msg{Body: body("ping", "1", "hr")}); mock.Number(mock.Field(fields, "ok")) != 1 {
		t.Error(fields)
	}
	idle.WantEnd("a client that asks nothing")
	hellos.WantEnd("a client that waits for a hello")
	waits.WantEnd("a client that was answered")
	rig.served.Wait()
}

// Other rules count from the next command on, over a connection that is there.
func TestOtherRules(t *testing.T) {
	rig := startRig(t, faked(nil))
	client, insert := mock.Dial(t, rig.address), wire.Msg{Body: body("insert", "people", "hr", documents(1, secret))}
	if fields := client.Command(insert); mock.Number(mock.Field(fields, "ok")) != 1 {
		t.Error(fields)
	}
	rules := faked(nil)
	rules["hr"].Collections = map[string]bool{}
	rig.proxy.Use(rules)
	wantRefused(t, client.Command(insert), `no collection "people"`)
	rig.proxy.Use(faked(func([]byte) ([]byte, error) { return bson.Wrap(bson.AppendInt32(nil, "ping", 2)), nil }))
	if client.Command(insert); !rig.Saw("ping") {
		t.Error("the old engine sealed it")
	}
}
