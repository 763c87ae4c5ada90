package proxy

import (
	"bytes"
	"net"
	"strings"
	"sync"
	"testing"

	"fle"

	"fled/bson"
	"fled/journal"
	"fled/mock"
)

// secret stands in each value that the tests protect, so that no byte of it may come to the server.
const secret = "SEKRET"

// rig is a mock server, a proxy before it, and what clients sent to that.
type rig struct {
	*mock.Server
	proxy   *Proxy
	front   net.Listener
	address string
	log     *mock.Lines
	served  sync.WaitGroup // until the proxy has ended

	lock sync.Mutex
	sent [][]byte // what each connection sent
}

// Accept keeps what each client sends.
type recorder struct {
	net.Listener
	rig *rig
}

func (door recorder) Accept() (net.Conn, error) {
	conn, err := door.Listener.Accept()
	if err != nil {
		return nil, err
	}
	door.rig.lock.Lock()
	defer door.rig.lock.Unlock()
	number := len(door.rig.sent)
	door.rig.sent = append(door.rig.sent, nil)
	return mock.Kept{Conn: conn, Keep: func(part []byte) {
		door.rig.lock.Lock()
		defer door.rig.lock.Unlock()
		door.rig.sent[number] = append(door.rig.sent[number], part...)
	}}, nil
}

// startRig starts a mock server and a proxy by these rules, each changed first as is asked for.
func startRig(t testing.TB, rules Rules, changes ...func(*rig)) *rig {
	t.Helper()
	rig := &rig{Server: mock.New(t), log: &mock.Lines{}}
	rig.front = mock.Door(t)
	rig.proxy, rig.address = New(rules, journal.New(rig.log)), rig.front.Addr().String()
	rig.proxy.Server = rig.Server.Address()
	for _, change := range changes {
		change(rig)
	}
	go rig.Server.Listen()
	rig.served.Add(1)
	go func() {
		defer rig.served.Done()
		rig.proxy.Serve(recorder{rig.front, rig})
	}()
	return rig
}

// examples are the rules of examples/, by the library.
func examples(t testing.TB) Rules {
	t.Helper()
	const folder = "../../examples/"
	rules, err := Files{folder + "keys.bson", folder + "EXAMPLE-ONLY.master",
		map[string]string{"hr": folder + "people.schemas.json"}, 2}.Read()
	if err != nil {
		t.Fatal(err)
	}
	return rules
}

// fake seals by writing other letters in the secret's place, and opens by undoing that: it stands for the library where
// a test is of what is around it.
type fake struct {
	seal func([]byte) ([]byte, error)
}

func (engine fake) Seal(db string, command []byte) ([]byte, error) {
	if db != "hr" {
		return nil, &fle.Error{Status: fle.Refused, Reason: "WrongDb", Number: 3}
	}
	if engine.seal != nil {
		return engine.seal(command)
	}
	if bytes.Contains(command, []byte("refuse")) {
		return nil, &fle.Error{Status: fle.Refused, Reason: "TypeNotAllowed", Number: 5,
			Fields: []string{"documents", "0", "ssn"}}
	}
	return bytes.ReplaceAll(command, []byte(secret), []byte("sealed")), nil
}

func (engine fake) Unseal(document []byte) ([]byte, error) {
	if bytes.Contains(document, []byte("damaged")) {
		return nil, &fle.Error{Status: fle.Refused, Reason: "TagMismatch", Number: 20, Fields: []string{"a"}}
	}
	return bytes.ReplaceAll(document, []byte("sealed"), []byte(secret)), nil
}

// faked are rules of the database hr by a fake.
func faked(seal func([]byte) ([]byte, error)) Rules {
	return Rules{"hr": {Engines: []Engine{fake{seal}}, Collections: map[string]bool{"people": true}}}
}

// body is a command {name: value, ..} to a database.
func body(name, value, db string, more ...[]byte) []byte {
	parts := append([][]byte{bson.AppendText(nil, name, value)}, more...)
	return bson.Wrap(append(parts, bson.AppendText(nil, "$db", db))...)
}

// documents is the field of an insert with so many documents, each with this value.
func documents(count int, ssn string) []byte {
	var all [][]byte
	for len(all) < count {
		all = append(all, bson.Wrap(bson.AppendText(nil, "ssn", ssn)))
	}
	return bson.Append(nil, bson.Array, "documents", mock.Array(all))
}

// wantLine waits for a line in the log.
func (rig *rig) wantLine(t testing.TB, part string) {
	t.Helper()
	mock.Within10s(t, func() bool { return strings.Contains(rig.log.String(), part) })
}
