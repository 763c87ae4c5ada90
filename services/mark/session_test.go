package mark

import (
	"bytes"
	"encoding/binary"
	"hash/crc32"
	"testing"

	"fled/bson"
	"fled/mock"
	"fled/wire"
)

// query is an OP_QUERY on a collection.
func query(collection string, document []byte) wire.Message {
	contents := append(append([]byte{4, 0, 0, 0}, collection...), 0)
	contents = append(append(contents, 0, 0, 0, 0, 255, 255, 255, 255), document...)
	return wire.Message{ID: 7, Opcode: wire.OpQuery, Contents: contents}
}

// wantHello fails unless a reply says what a driver has to know, and nothing that it would do otherwise by.
func wantHello(t *testing.T, fields []bson.Element) {
	t.Helper()
	for name, wanted := range map[string]int{"ok": 1, "ismaster": 1, "isWritablePrimary": 1, "iscryptd": 1, "helloOk": 1,
		"maxBsonObjectSize": 16777216, "maxMessageSizeBytes": 48000000, "maxWriteBatchSize": 100000, "minWireVersion": 0,
		"maxWireVersion": 17, "readOnly": 0} {
		if found := mock.Field(fields, name); found.Whole == nil || mock.Number(found) != wanted {
			t.Errorf("%s is %v", name, found)
		}
	}
	for _, name := range []string{"compression", "topologyVersion", "logicalSessionTimeoutMinutes", "setName", "hosts"} {
		if mock.Field(fields, name).Whole != nil {
			t.Errorf("there is %s", name)
		}
	}
}

func TestHellos(t *testing.T) {
	client := mock.Dial(t, startRig(t, faked).address)
	for _, name := range []string{"hello", "isMaster", "ismaster"} {
		body := bson.Wrap(bson.AppendInt32(nil, name, 1), bson.AppendText(nil, "$db", "admin"))
		reply, err := client.Ask(query("admin.$cmd", body))
		if err != nil || reply.To != 7 {
			t.Fatal(reply.To, err)
		}
		legacy, err := wire.ReadReply(reply)
		if err != nil {
			t.Fatal(err)
		}
		wantHello(t, mock.Fields(legacy.Document))
		wantHello(t, client.Command(wire.Msg{Body: body}))
		message := wire.Msg{Body: body}.Message(7, 0)
		message.Contents[2] = 1 // exhaustAllowed
		reply, err = client.Ask(message)
		if err != nil || !bytes.Equal(reply.Contents[:4], make([]byte, 4)) {
			t.Error("an awaited hello has more to come", err)
		}
	}
}

func TestWhatElseItKnows(t *testing.T) {
	client := mock.Dial(t, startRig(t, faked).address)
	if fields := client.Command(wire.Msg{Body: bson.Wrap(bson.AppendInt32(nil, "ping", 1))}); !isOK(fields) {
		t.Error(fields)
	}
	for _, name := range []string{"buildInfo", "buildinfo"} {
		fields := client.Command(wire.Msg{Body: bson.Wrap(bson.AppendInt32(nil, name, 1))})
		if text, _ := mock.Field(fields, "version").Text(); !isOK(fields) || text != "6.0.0" {
			t.Error(fields)
		}
	}
	for _, name := range []string{"insert", "PING", "shutdown", ""} {
		fields := client.Command(wire.Msg{Body: bson.Wrap(bson.AppendText(nil, name, secret))})
		if text, _ := mock.Field(fields, "codeName").Text(); isOK(fields) || text != "CommandNotFound" ||
			mock.Number(mock.Field(fields, "code")) != 59 {
			t.Error(fields)
		}
	}
}

// wantMarked fails unless a reply has the command of this document as its result, and ok.
func wantMarked(t *testing.T, fields []bson.Element, wanted []byte) {
	t.Helper()
	if found := mock.Field(fields, "result"); !bytes.Equal(found.Value, wanted) || !isOK(fields) {
		t.Errorf("%q in place of %q", found.Value, wanted)
	}
}

// Whichever way a command comes, the library is handed its own bytes, and its reply is sent back.
func TestWaysOfAMessage(t *testing.T) {
	rig, rules := startRig(t, faked), schema(t)
	client, both := mock.Dial(t, rig.address), documents(2, secret)
	wanted := bson.Wrap(bson.AppendText(nil, "insert", "people"), both)
	wantMarked(t, client.Command(beside("insert", "people", rules, both)), wanted)
	split := beside("insert", "people", rules)
	for _, document := range mock.Values(mock.Fields(wanted), "documents") {
		if split.Sequences == nil {
			split.Sequences = []wire.Sequence{{Name: "documents"}}
		}
		split.Sequences[0].Documents = append(split.Sequences[0].Documents, document...)
	}
	wantMarked(t, client.Command(split), wanted)
	summed := beside("insert", "people", rules, both).Message(7, 0)
	summed.Contents[0] = 1
	summed.Contents = append(summed.Contents, 0, 0, 0, 0)
	all := mock.Spelled(summed)
	sum := crc32.Checksum(all[:len(all)-4], crc32.MakeTable(crc32.Castagnoli))
	binary.LittleEndian.PutUint32(summed.Contents[len(summed.Contents)-4:], sum)
	reply, err := client.Ask(summed)
	if err != nil {
		t.Fatal(err)
	}
	msg, err := wire.ReadMsg(reply)
	if err != nil {
		t.Fatal(err)
	}
	wantMarked(t, mock.Fields(msg.Body), wanted)
}

// A command that wants no reply gets none, refused or not, and the next one is answered.
func TestMoreToCome(t *testing.T) {
	rig := startRig(t, faked)
	client := mock.Dial(t, rig.address)
	for _, collection := range []string{"people", "refuse"} {
		msg := beside("insert", collection, schema(t), documents(1, secret))
		msg.MoreToCome = true
		client.Send(msg.Message(6, 0))
	}
	if fields := client.Command(wire.Msg{Body: bson.Wrap(bson.AppendInt32(nil, "ping", 1))}); !isOK(fields) {
		t.Error(fields)
	}
	rig.wantLine(t, `"db":"hr","command":"insert","why":"fle: Refused: TypeNotAllowed at \"documents.0.ssn\""}`)
}

// A refusal has the reason by its name and field, here and in the log, and no value; the connection goes on.
func TestRefusals(t *testing.T) {
	rig, rules := startRig(t, nil), schema(t)
	client := mock.Dial(t, rig.address)
	null := bson.Append(nil, bson.Array, "documents", mock.Array([][]byte{bson.Wrap(bson.Append(nil, 0x0a, "ssn", nil),
		bson.AppendText(nil, "salary", secret))}))
	more := bson.Append(nil, bson.Document, "filter", bson.Wrap(bson.Append(nil, bson.Document, "ssn",
		bson.Wrap(bson.AppendText(nil, "$gt", secret)))))
	wrong := bson.Wrap(bson.Append(nil, bson.Document, "properties", bson.Wrap(bson.Append(nil, bson.Document, "ssn",
		bson.Wrap(bson.Append(nil, bson.Document, "encrypt", bson.Wrap()))))))
	named := bson.AppendText(nil, "$db", "more")
	for _, one := range []struct {
		msg   wire.Msg
		parts []string
	}{
		{beside("insert", "people", rules, null), []string{"TypeNotAllowed", `"documents.0.ssn"`}},
		{beside("find", "people", rules, more), []string{"OperatorOnProtected", `"filter.ssn.$gt"`}},
		{beside("insert", "people", rules, documents(1, secret), documents(1, secret)), []string{"BadField"}},
		{beside("insert", "", rules, documents(1, secret)), []string{"BadField", `"insert"`}},
		{beside("insert", "people", wrong, documents(1, secret)), []string{"Setup", "infos"}},
		{beside("insert", "people", rules, documents(1, secret), named), []string{"WrongDb"}},
	} {
		wantRefused(t, client.Command(one.msg), one.parts...)
		rig.wantLine(t, one.parts[0])
	}
	long := beside("insert", "people", rules, documents(1, secret))
	many := bytes.Repeat(bson.Wrap(bson.AppendText(nil, "a", "b")), 1<<21)
	long.Sequences = []wire.Sequence{{Name: "a", Documents: many}}
	wantRefused(t, client.Command(long), "Limit: Document")
	if said := rig.said.String(); bytes.Contains([]byte(said), []byte(secret)) {
		t.Error("the log has a value")
	}
}

// A name of any length is cut, and stands on one line.
func TestLongNames(t *testing.T) {
	rig := startRig(t, nil)
	name := string(bytes.Repeat([]byte("a\xff\n"), 100_000))
	fields := mock.Dial(t, rig.address).Command(beside(name, name, schema(t)))
	wantRefused(t, fields, "NotACommand")
	if said := rig.said.String(); len(said) > 4000 || bytes.Count([]byte(said), []byte("\n")) != 1 {
		t.Error(len(said))
	}
}
