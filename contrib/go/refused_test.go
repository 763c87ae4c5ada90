package fle

import (
	"bytes"
	"reflect"
	"strings"
	"testing"
)

// refused are the commands of examples/refused, under infos that refuse them, with the reason that docs/errors.tsv has
// for such a command, and the fields on the way to the value.
var refused = []struct{ file, infos, reason, fields string }{
	{"unknown-command", "people.schemas.bson", "NotACommand", "aggregate"},
	{"no-documents", "people.schemas.bson", "BadField", ""},
	{"wrong-database", "people.schemas.bson", "WrongDb", "$db"},
	{"view", "staff.schemas.bson", "View", "insert"},
	{"null-value", "people.schemas.json", "TypeNotAllowed", "documents 0 ssn"},
	{"sealed-value", "people.schemas.json", "AlreadyEncrypted", "documents 0 salary"},
	{"array-on-path", "staff.schemas.json", "ArrayOnPath", "documents 0 a"},
	{"below-protected", "staff.schemas.bson", "BelowProtected", "filter a.b.c"},
	{"position-on-path", "staff.schemas.bson", "PositionalOnPath", "updates 0 u $set a.0.b"},
	{"random-compared", "people.schemas.bson", "RandomCompared", "filter salary"},
	{"greater-than", "people.schemas.bson", "OperatorOnProtected", "deletes 0 q ssn $gt"},
	{"document-compared", "staff.schemas.bson", "PrefixCompared", "filter a"},
	{"pipeline", "staff.schemas.bson", "Pipeline", "updates 0 u"},
	{"where", "people.schemas.bson", "FieldNotAllowed", "filter $where"},
	{"renamed", "staff.schemas.bson", "RenameMixed", "updates 0 u $rename a.b"},
	{"unknown-owner", "clients.schemas.json", "KeyMissing", "documents 0 note"},
	{"no-owner", "clients.schemas.json", "PointerBad", "documents 0 note"},
}

// expect fails where an Error has another status, reason or fields, or names a value of the examples.
func expect(t *testing.T, told *Error, status Status, reason, fields string) {
	t.Helper()
	if told.Status != status || told.Reason != reason || !reflect.DeepEqual(told.Fields, words(fields)) {
		t.Errorf("%v, %s at %q in place of %v, %s at %q", told.Status, told.Reason, told.Fields, status, reason, fields)
	}
	if said := told.Error(); !strings.Contains(said, reason) || strings.Contains(said, secret) {
		t.Error(said)
	}
}

// words are the fields that are written with a space between them.
func words(fields string) []string {
	if fields == "" {
		return nil
	}
	return strings.Fields(fields)
}

func TestRefusedCommands(t *testing.T) {
	for _, one := range refused {
		bytesOf, err := opened(t, one.infos).Seal("hr", file(t, "refused/"+one.file+".bson"))
		expect(t, refusal(t, bytesOf, err), Refused, one.reason, one.fields)
	}
}

func TestRefusedPayloads(t *testing.T) {
	engine := opened(t, "people.schemas.bson")
	for name, reason := range map[string]string{"wrong-padding": "Padding", "wrong-plain": "Plain"} {
		bytesOf, err := engine.Unseal(file(t, "refused/"+name+".bson"))
		expect(t, refusal(t, bytesOf, err), Refused, reason, "documents 0 s")
	}
	bytesOf, err := engine.Unseal(file(t, "refused/sealed-value.bson"))
	expect(t, refusal(t, bytesOf, err), Refused, "PayloadShape", "documents 0 salary")
	spoiled := sealed(t, engine, file(t, "insert.bson"))
	spoiled[bytes.Index(spoiled, []byte("\x10n\x00"))-1] ^= 1 // the last byte of the tag
	bytesOf, err = engine.Unseal(spoiled)
	expect(t, refusal(t, bytesOf, err), Refused, "TagMismatch", "documents 0 ssn")
}

func TestARefusalLeavesTheEngine(t *testing.T) {
	engine, command := opened(t, "people.schemas.bson"), file(t, "insert.bson")
	before := sealed(t, engine, command)
	_, err := engine.Seal("hr", file(t, "refused/null-value.bson"))
	if err == nil || !bytes.Equal(sealed(t, engine, command), before) {
		t.Error("behind a refusal a command is sealed otherwise")
	}
}

func TestMessages(t *testing.T) {
	for _, one := range []struct {
		told Error
		said string
	}{
		{Error{Status: Refused, Reason: "View", Fields: words("documents 0 ssn")}, `Refused: View at "documents.0.ssn"`},
		{Error{Status: Refused, Reason: "View", Fields: []string{"a\nb\xff"}}, `Refused: View at "a\nb\xff"`},
		{Error{Status: Refused, Reason: "View"}, "Refused: View at the document itself"},
		{Error{Status: Malformed, Reason: "Short", Place: 3}, "Malformed: Short at offset 3"},
		{Error{Status: Setup, Reason: "Id", Place: 2, File: "keys"}, "Setup: Id in document 2 of keys"},
		{Error{Status: Setup, Reason: "Length", File: "master"}, "Setup: Length of master"},
		{Error{Status: Limit, Reason: "Output"}, "Limit: Output"},
		{Error{Status: Words}, "Words: the name of the database has no byte, or more than 63"},
		{Error{Status: NotOpen}, "NotOpen"},
		{Error{Status: NoId}, "NoId: the id of a key has 16 bytes"},
		{Error{Status: NoInfo}, "NoInfo: the engine wasn't told of the collection"},
		{Error{Status: Flags}, "Flags"},
		{Error{Status: 99}, "number 99"},
	} {
		if said := one.told.Error(); said != "fle: "+one.said {
			t.Errorf("%s in place of fle: %s", said, one.said)
		}
	}
}

func TestNumbersWithoutAName(t *testing.T) {
	for _, told := range []*Error{
		newError(Refused, 99, 0, 0, nil), newError(Malformed, 99, 0, 0, nil), newError(Limit, 99, 0, 0, nil),
		newError(Setup, 99, 1, 0, nil),
	} {
		if told.Reason != "number 99" || told.Number != 99 {
			t.Error(told)
		}
	}
}

func TestWrongKeys(t *testing.T) {
	keys, infos, command := file(t, "keys.bson"), file(t, "people.schemas.bson"), file(t, "insert.bson")
	bytesOf := sealed(t, opened(t, "people.schemas.bson"), command)
	for reason, vault := range map[string][]byte{"KeyDamaged": keys, "KeyMissing": nil} {
		engine, err := Open("hr", vault, infos, make([]byte, 96))
		if err != nil {
			t.Fatal(err)
		}
		defer engine.Close()
		nothing, err := engine.Seal("hr", command)
		expect(t, refusal(t, nothing, err), Refused, reason, "documents 0 ssn")
		nothing, err = engine.Unseal(bytesOf)
		expect(t, refusal(t, nothing, err), Refused, reason, "documents 0 ssn")
	}
}

func TestWhatOpensNoEngine(t *testing.T) {
	keys, infos, master := file(t, "keys.bson"), file(t, "people.schemas.bson"), file(t, "EXAMPLE-ONLY.master")
	for _, one := range []struct {
		db                  string
		keys, infos, master []byte
		wanted              Error
	}{
		{"", keys, infos, master, Error{Status: Words}},
		{strings.Repeat("x", 64), keys, infos, master, Error{Status: Words}},
		{"hr", keys[:3], infos, master, Error{Status: Setup, Reason: "Bson", Number: 20, File: "keys", Place: 1}},
		{"hr", document(), infos, master, Error{Status: Setup, Reason: "Id", Number: 21, File: "keys", Place: 1}},
		{"hr", append(keys[:len(keys):len(keys)], keys...), infos, master,
			Error{Status: Setup, Reason: "IdTwice", Number: 25, File: "keys", Place: 3}},
		{"hr", keys, document(), master, Error{Status: Setup, Reason: "Shape", Number: 31, File: "infos", Place: 1}},
		{"hr", keys, []byte("[{]"), master, Error{Status: Setup, Reason: "Syntax", Number: 33, File: "infos"}},
		{"hr", keys, infos, nil, Error{Status: Setup, Reason: "Length", Number: 10, File: "master"}},
		{"hr", keys, infos, bytes.Repeat([]byte("="), 128),
			Error{Status: Setup, Reason: "Base64", Number: 11, File: "master"}},
		{"hr", keys, infos, make([]byte, 130), Error{Status: Setup, Reason: "TooLong", Number: 2, File: "master"}},
	} {
		engine, err := Open(one.db, one.keys, one.infos, one.master)
		told := refusal(t, nil, err)
		if engine != nil || !reflect.DeepEqual(told, &one.wanted) {
			t.Errorf("%+v in place of %+v", *told, one.wanted)
		}
	}
}
