package mark

import (
	"bytes"
	"net"
	"os"
	"strings"
	"sync"
	"testing"

	"fle"

	"fled/bson"
	"fled/journal"
	"fled/mock"
	"fled/refusal"
	"fled/wire"
)

// secret stands in each value that the tests protect, so that no line of a log and no refusal may have it.
const secret = "SEKRET"

// rig is a service that listens.
type rig struct {
	*Service
	front   net.Listener
	address string
	said    *mock.Lines
	served  sync.WaitGroup // until the service has ended
}

// startRig starts a service, over the library or over what opens engines in its place.
func startRig(t testing.TB, opens func(db string, infos []byte) (Engine, error)) *rig {
	t.Helper()
	rig := &rig{front: mock.Door(t), said: &mock.Lines{}}
	rig.Service, rig.address = New(journal.New(rig.said)), rig.front.Addr().String()
	if opens != nil {
		rig.engines = newEngines(opens)
	}
	rig.served.Add(1)
	go func() { defer rig.served.Done(); rig.Serve(rig.front) }()
	return rig
}

// fake marks by handing back the command, or refuses one that says so: it stands for the library where a test is of
// what is around it.
type fake struct {
	db     string
	infos  []byte
	closed *int
}

func (engine fake) Mark(db string, command []byte) ([]byte, error) {
	if bytes.Contains(command, []byte("refuse")) {
		return nil, &fle.Error{Status: fle.Refused, Reason: "TypeNotAllowed", Number: 5,
			Fields: []string{"documents", "0", "ssn"}}
	}
	said := bson.AppendBool(nil, "hasEncryptionPlaceholders", false)
	return mock.OK(bson.Append(said, bson.Document, "result", command)), nil
}

func (engine fake) Close() error {
	if engine.closed != nil {
		*engine.closed++
	}
	return nil
}

func faked(db string, infos []byte) (Engine, error) {
	return fake{db: db, infos: infos}, nil
}

// schema is that of the collection people in examples/.
func schema(t testing.TB) []byte {
	t.Helper()
	infos, err := os.ReadFile("../../examples/people.schemas.bson")
	if err != nil {
		t.Fatal(err)
	}
	found := infos
	for _, name := range []string{"options", "validator", "$jsonSchema"} {
		found = mock.Field(mock.Fields(found), name).Value
	}
	return found
}

// beside is a command with a schema beside it, as libmongocrypt sends it: {name: collection, .., jsonSchema, .., $db}.
func beside(name, collection string, schema []byte, more ...[]byte) wire.Msg {
	parts := append([][]byte{bson.AppendText(nil, name, collection)}, more...)
	parts = append(parts, bson.Append(nil, bson.Document, "jsonSchema", schema),
		bson.AppendBool(nil, "isRemoteSchema", false), bson.AppendText(nil, "$db", "hr"))
	return wire.Msg{Body: bson.Wrap(parts...)}
}

// documents are those of an insert, each with this value of ssn.
func documents(count int, ssn string) []byte {
	var all [][]byte
	for len(all) < count {
		all = append(all, bson.Wrap(bson.AppendText(nil, "ssn", ssn)))
	}
	return bson.Append(nil, bson.Array, "documents", mock.Array(all))
}

// wantRefused fails unless a reply is an error reply that says these, and no value is in it.
func wantRefused(t testing.TB, fields []bson.Element, parts ...string) {
	t.Helper()
	said, _ := mock.Field(fields, "errmsg").Text()
	name, _ := mock.Field(fields, "codeName").Text()
	code := mock.Number(mock.Field(fields, "code"))
	if len(fields) != 4 || mock.Number(mock.Field(fields, "ok")) != 0 || code != refusal.Code || name != refusal.Name {
		t.Errorf("%v", fields)
	}
	for _, part := range append(parts, "fle: ") {
		if !strings.Contains(said, part) || strings.Contains(said, secret) {
			t.Errorf("%q doesn't say %s", said, part)
		}
	}
}

// wantLine waits for a line in the log.
func (rig *rig) wantLine(t testing.TB, part string) {
	t.Helper()
	mock.Within10s(t, func() bool { return strings.Contains(rig.said.String(), part) })
}

// isOK is whether a reply says so.
func isOK(fields []bson.Element) bool {
	return mock.Number(mock.Field(fields, "ok")) == 1
}
