package proxy

import (
	"bytes"
	"testing"

	"fled/bson"
	"fled/mock"
	"fled/wire"
)

// named is an element of one document.
func named(name string, parts ...[]byte) []byte {
	return bson.Append(nil, bson.Document, name, bson.Wrap(parts...))
}

// A command that holds no value passes to another database with its own names alone, whatever is in them.
func TestOwnNames(t *testing.T) {
	rig := startRig(t, examples(t))
	value := bson.AppendText(nil, "ssn", secret)
	lsid := named("lsid", bson.Append(nil, 0x05, "id", append([]byte{16, 0, 0, 0, 4}, make([]byte, 16)...)))
	for _, one := range []struct {
		name, refused string
		more          []byte
	}{
		{"ping", "", nil}, {"ping", "", lsid}, {"buildInfo", "", nil}, {"commitTransaction", "", lsid},
		{"ping", `FieldNotAllowed at "ssn"`, value},
		{"ping", `"documents"`, documents(1, secret)},
		{"commitTransaction", `"lsid.ssn"`, named("lsid", value)},
		{"saslStart", `"ssn"`, value},
		{"hello", "FieldNotAllowed", value},
		{"ismaster", "FieldNotAllowed", documents(1, secret)},
		{"hello", "", named("client", bson.AppendText(nil, "name", "a driver"))},
	} {
		for _, db := range []string{"admin", "hr"} {
			before := len(rig.Names())
			body := bson.Wrap(bson.AppendInt32(nil, one.name, 1), one.more, bson.AppendText(nil, "$db", db))
			fields := mock.Dial(t, rig.address).Command(wire.Msg{Body: body})
			if one.refused != "" {
				wantRefused(t, fields, one.refused)
			} else if mock.Number(mock.Field(fields, "ok")) != 1 || len(rig.Names()) != before+1 {
				t.Errorf("%s to %s: %v", one.name, db, fields)
			}
		}
	}
	if rig.Saw(secret) {
		t.Error("a value came to the server")
	}
}

// Where others pass, so does each command that can't write into a database with rules.
func TestOthersPass(t *testing.T) {
	rig := startRig(t, faked(nil), func(rig *rig) { rig.proxy.OthersPass = true })
	stage := func(parts ...[]byte) []byte {
		return bson.Append(nil, bson.Array, "pipeline", mock.Array([][]byte{bson.Wrap(parts...)}))
	}
	text := func(name, value string) []byte { return bson.AppendText(nil, name, value) }
	space := func(name string) []byte {
		return bson.Append(nil, bson.Array, "nsInfo", mock.Array([][]byte{bson.Wrap(text("ns", name))}))
	}
	for _, one := range []struct {
		name, db string
		more     []byte
		passes   bool
	}{
		{"insert", "other", documents(1, "plain"), true},
		{"serverStatus", "admin", nil, true},
		{"insert", "hr", documents(1, "refuse"), false},
		{"aggregate", "other", stage(named("$match")), true},
		{"aggregate", "other", stage(text("$out", "people")), true},
		{"aggregate", "other", stage(named("$out", text("db", "hr"))), false},
		{"aggregate", "other", stage(named("$out", text("db", "hrs"))), true},
		{"aggregate", "other", stage(named("$out", bson.AppendInt32(nil, "db", 1))), false},
		{"aggregate", "other", stage(named("$merge", named("into", text("db", "hr")))), false},
		{"aggregate", "other", stage(named("$merge", text("into", "people"))), true},
		{"aggregate", "other", stage(bson.AppendInt32(nil, "$merge", 1)), false},
		{"aggregate", "other", text("pipeline", "a"), false},
		{"mapReduce", "other", named("out", text("replace", "a"), text("db", "hr")), false},
		{"mapReduce", "other", text("out", "a"), true},
		{"mapreduce", "other", named("out", text("merge", "a"), text("db", "hr")), false},
		{"bulkWrite", "admin", space("hr.people"), false},
		{"bulkWrite", "admin", space("other.people"), true},
		{"applyOps", "admin", nil, false},
		{"eval", "other", nil, false},
		{"renameCollection", "admin", text("to", "hr.people"), false},
		{"renameCollection", "admin", text("to", "other.people"), true},
	} {
		before := len(rig.Names())
		fields := mock.Dial(t, rig.address).Command(wire.Msg{Body: body(one.name, "some", one.db, one.more)})
		if passed := len(rig.Names()) > before; passed != one.passes {
			t.Errorf("%s to %s: %v", one.name, one.db, fields)
		}
	}
	explained := named("explain", text("aggregate", "a"), stage(named("$out", text("db", "hr"))))
	wantRefused(t, mock.Dial(t, rig.address).Command(wire.Msg{Body: bson.Wrap(explained, text("$db", "other"))}), "past")
	explained = named("explain", text("find", "a"))
	if mock.Dial(t, rig.address).Command(wire.Msg{Body: bson.Wrap(explained, text("$db", "other"))}); !rig.Saw("explain") {
		t.Error("an explain that reaches nowhere isn't sent")
	}
	sequence := wire.Sequence{Name: "nsInfo", Documents: bson.Wrap(text("ns", "hr.people"))}
	split := wire.Msg{Body: body("bulkWrite", "1", "admin"), Sequences: []wire.Sequence{sequence}}
	wantRefused(t, mock.Dial(t, rig.address).Command(split), "past these")
}

// Without a cursor that is open there is nothing to end.
func TestCursors(t *testing.T) {
	ns := bson.AppendText(nil, "ns", "hr.people")
	for why, reply := range map[string][]byte{
		"no cursor":      mock.OK(nil),
		"one that ended": mock.OK(named("cursor", mock.Int64("id", 0), ns)),
		"no name":        mock.OK(named("cursor", mock.Int64("id", 1))),
		"no database":    mock.OK(named("cursor", mock.Int64("id", 1), bson.AppendText(nil, "ns", "people"))),
		"no number":      mock.OK(named("cursor", bson.AppendInt32(nil, "id", 1), ns)),
		"no document":    {1, 2, 3},
	} {
		if command, has := cursorOf(reply); has {
			t.Errorf("%s: %q", why, command)
		}
	}
	if command, has := cursorOf(mock.OK(named("cursor", mock.Int64("id", 1), ns))); !has ||
		!bytes.Contains(command, []byte("people\x00")) {
		t.Errorf("%q", command)
	}
}
