package proxy

import (
	"fmt"
	"strings"
	"testing"

	"fled/bson"
	"fled/mock"
	"fled/refusal"
	"fled/wire"
)

// wantRefused fails unless a reply is that error reply, and no value is in it.
func wantRefused(t testing.TB, fields []bson.Element, parts ...string) {
	t.Helper()
	said, _ := mock.Field(fields, "errmsg").Text()
	name, _ := mock.Field(fields, "codeName").Text()
	code := mock.Number(mock.Field(fields, "code"))
	if len(fields) != 4 || mock.Number(mock.Field(fields, "ok")) != 0 || code != refusal.Code || name != refusal.Name {
		t.Errorf("%v", fields)
	}
	for _, part := range append(parts, "fle: ") {
		if !strings.Contains(said, part) || strings.Contains(said, secret) {
			t.Errorf("%q doesn't say %s", said, part)
		}
	}
}

// Which commands may be sent to which database, by the rule of contrib/python.
func TestScope(t *testing.T) {
	rig := startRig(t, faked(nil))
	for _, one := range []struct{ name, value, db, refused string }{
		{"insert", "people", "hr", ""},
		{"insert", "others", "hr", `no collection "others"`},
		{"insert", "people", "other", `"insert" of the database "other"`},
		{"insert", "people", "", "rules of \"hr\""},
		{"find", "people", "admin", "Unsupported"},
		{"aggregate", "people", "other", "Unsupported"},
		{"bulkWrite", "people", "admin", "Unsupported"},
		{"applyOps", "people", "admin", "Unsupported"},
		{"mapReduce", "people", "other", "Unsupported"},
		{"explain", "people", "other", "Unsupported"},
		{"PING", "1", "admin", "Unsupported"},
		{"ping", "1", "admin", ""},
		{"commitTransaction", "1", "other", ""},
		{"ping", "1", "hr", ""},
		{"endSessions", "1", "admin", ""},
		{"buildInfo", "1", "admin", ""},
		{"killCursors", "others", "hr", ""},
		{"renameCollection", "other.people", "admin", "Unsupported"},
		{"renameCollection", "people", "hr", "past these"},
		{"listDatabases", "1", "admin", "Unsupported"},
		{"serverStatus", "1", "admin", "Unsupported"},
	} {
		before, more := len(rig.Names()), documents(1, secret)
		if one.refused == "" && one.db != "hr" {
			more = nil // which no command that passes has
		}
		fields := mock.Dial(t, rig.address).Command(wire.Msg{Body: body(one.name, one.value, one.db, more)})
		if one.refused == "" {
			if mock.Number(mock.Field(fields, "ok")) != 1 || len(rig.Names()) != before+1 {
				t.Errorf("%s to %s: %v", one.name, one.db, fields)
			}
			continue
		}
		wantRefused(t, fields, one.refused)
		if len(rig.Names()) != before {
			t.Errorf("%s of %s was sent", one.name, one.db)
		}
	}
}

func TestDatabasesThatCannotBeTold(t *testing.T) {
	rig := startRig(t, faked(nil))
	ssn, name := bson.AppendText(nil, "ssn", secret), bson.AppendText(nil, "ping", "a")
	for why, command := range map[string][]byte{
		"no $db":          bson.Wrap(name, ssn),
		"two":             bson.Wrap(name, ssn, bson.AppendText(nil, "$db", "hr"), bson.AppendText(nil, "$db", "admin")),
		"a number":        bson.Wrap(name, ssn, bson.AppendInt32(nil, "$db", 1)),
		"nothing":         bson.Wrap(),
		"a name unended":  bson.Wrap(name, []byte{2, 'a'}),
		"a long text":     bson.Wrap(name, []byte{2, 'a', 0, 255, 0, 0, 0, 0}),
		"a type unknown":  bson.Wrap(name, []byte{0x42, 'a', 0}),
		"text of 0 bytes": bson.Wrap(name, []byte{2, 'a', 0, 0, 0, 0, 0}),
	} {
		fields := mock.Dial(t, rig.address).Command(wire.Msg{Body: command})
		wantRefused(t, fields)
		if len(rig.Names()) > 0 {
			t.Errorf("%s: it was sent", why)
		}
	}
}

func TestSequencesOfCommandsThatPass(t *testing.T) {
	rig := startRig(t, faked(nil))
	documents := bson.Wrap(bson.AppendText(nil, "ssn", secret))
	one, two := wire.Sequence{Name: "documents", Documents: documents}, wire.Sequence{Name: "a", Documents: documents}
	for name, sequences := range map[string][]wire.Sequence{"ping": {one}, "hello": {one}, "saslStart": {one}} {
		fields := mock.Dial(t, rig.address).Command(wire.Msg{Body: body(name, "people", "admin"), Sequences: sequences})
		wantRefused(t, fields, "document sequence")
	}
	both := wire.Msg{Body: body("insert", "people", "hr"), Sequences: []wire.Sequence{two, one}}
	fields := mock.Dial(t, rig.address).Command(both)
	wantRefused(t, fields, "document sequence")
	if len(rig.Names()) > 0 {
		t.Error(rig.Names())
	}
}

// A refused write that wants no reply is one line in the log, and the next command is answered.
func TestARefusalWithoutAReply(t *testing.T) {
	rig := startRig(t, faked(nil))
	client := mock.Dial(t, rig.address)
	client.Send(wire.Msg{MoreToCome: true, Body: body("insert", "refuse", "hr", documents(1, secret))}.Message(6, 0))
	if fields := client.Command(wire.Msg{Body: body("ping", "1", "hr")}); mock.Number(mock.Field(fields, "ok")) != 1 {
		t.Error(fields)
	}
	said := rig.log.String()
	names := fmt.Sprint(rig.Names())
	if names != "[ping]" || strings.Count(said, "\n") != 1 || strings.Contains(said, secret) {
		t.Error(names, said)
	}
	rig.wantLine(t, `"event":"refused"`)
	rig.wantLine(t, `"command":"insert","why":"fle: Refused: TypeNotAllowed at \"documents.0.ssn\""}`)
}

func TestAWriteWithoutAReply(t *testing.T) {
	rig := startRig(t, faked(nil))
	client := mock.Dial(t, rig.address)
	client.Send(wire.Msg{MoreToCome: true, Body: body("insert", "people", "hr", documents(1, secret))}.Message(6, 0))
	client.Command(wire.Msg{Body: body("ping", "1", "hr")})
	if names := fmt.Sprint(rig.Names()); names != "[insert ping]" || rig.Saw(secret) {
		t.Error(names)
	}
}

func TestAReplyThatIsRefused(t *testing.T) {
	rig := startRig(t, faked(nil), func(rig *rig) {
		rig.Answer = func(_ string, _ wire.Msg, id int32) []byte {
			damaged := bson.Append(nil, 0x05, "a", append([]byte{8, 0, 0, 0, 6, 2}, "damaged"...))
			return mock.Spelled(wire.Msg{Body: mock.OK(damaged)}.Message(1, id))
		}
	})
	client := mock.Dial(t, rig.address)
	wantRefused(t, client.Command(wire.Msg{Body: body("find", "people", "hr")}), "the reply: ", "TagMismatch", `"a"`)
	wantRefused(t, client.Command(wire.Msg{Body: body("ping", "people", "other")}), "TagMismatch")
}

// A cursor whose reply can't be opened is ended, by the name of its own collection.
func TestACursorThatIsRefused(t *testing.T) {
	rig := startRig(t, faked(nil), func(rig *rig) {
		rig.Answer = func(name string, _ wire.Msg, id int32) []byte {
			if name == "killCursors" {
				return []byte{}
			}
			damaged := bson.Append(nil, 0x05, "a", append([]byte{8, 0, 0, 0, 6, 2}, "damaged"...))
			batch := bson.Append(nil, bson.Array, "firstBatch", mock.Array([][]byte{bson.Wrap(damaged)}))
			cursor := bson.Wrap(batch, mock.Int64("id", 1<<40+5), bson.AppendText(nil, "ns", "hr.a.people"))
			return mock.Spelled(wire.Msg{Body: mock.OK(bson.Append(nil, bson.Document, "cursor", cursor))}.Message(1, id))
		}
	})
	client := mock.Dial(t, rig.address)
	wantRefused(t, client.Command(wire.Msg{Body: body("find", "people", "hr")}), "the reply: ", `"a"`)
	rig.wantCommands(t, 2)
	rig.Server.Lock.Lock()
	last, err := wire.ReadMsg(rig.Commands[1])
	rig.Server.Lock.Unlock()
	if err != nil {
		t.Fatal(err)
	}
	fields := mock.Fields(last.Body)
	ids := mock.Fields(mock.Field(fields, "cursors").Value)
	name, _ := mock.Field(fields, "killCursors").Text()
	if db, _ := mock.Field(fields, "$db").Text(); name != "a.people" || db != "hr" || len(ids) != 1 ||
		mock.Number(ids[0]) != 1<<40+5 || !last.MoreToCome {
		t.Errorf("%q", last.Body)
	}
	wantRefused(t, client.Command(wire.Msg{Body: body("find", "people", "hr")}), "the reply: ")
	client.Close()
	rig.wantLine(t, `"event":"served"`)
	rig.wantLine(t, `"commands":"2","refused":"2"}`)
}

const mostTold = 1000

// Of a name of any length, so much is told.
func TestLongNamesAreCut(t *testing.T) {
	rig := startRig(t, faked(nil))
	fields := mock.Dial(t, rig.address).Command(wire.Msg{Body: body(strings.Repeat("a\xff\n", 100_000), "people", "hr2")})
	wantRefused(t, fields, `\n`, "Unsupported")
	said, _ := mock.Field(fields, "errmsg").Text()
	if len(said) > mostTold+10 || len(rig.log.String()) > 4*mostTold || strings.Count(rig.log.String(), "\n") != 1 {
		t.Error(len(said), len(rig.log.String()))
	}
}
