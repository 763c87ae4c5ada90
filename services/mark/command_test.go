package mark

import (
	"bytes"
	"errors"
	"testing"

	"fle"

	"fled/bson"
	"fled/mock"
	"fled/refusal"
	"fled/wire"
)

// What is marked is the command byte for byte, without what stands beside it, and with sequences as arrays behind it.
func TestTakenApart(t *testing.T) {
	name, db := bson.AppendText(nil, "insert", "people"), bson.AppendText(nil, "$db", "hr")
	rules := bson.Append(nil, bson.Document, "jsonSchema", bson.Wrap(name))
	remote := bson.AppendBool(nil, "isRemoteSchema", true)
	lsid, one := bson.Append(nil, bson.Document, "lsid", bson.Wrap()), bson.Wrap(bson.AppendInt32(nil, "a", 1))
	both := bson.Append(nil, bson.Array, "documents", mock.Array([][]byte{one, one}))
	within := bson.Append(nil, bson.Document, "let", bson.Wrap(rules, db, remote))
	split := []wire.Sequence{{Name: "documents", Documents: append(append([]byte(nil), one...), one...)}}
	for why, tried := range map[string]struct {
		body      [][]byte
		sequences []wire.Sequence
		own       [][]byte
		db        string
		isMarked  bool
	}{
		"all of it":          {[][]byte{name, lsid, both, rules, remote, db}, nil, [][]byte{name, lsid, both}, "hr", true},
		"no $db":             {[][]byte{name, both, rules, remote}, nil, [][]byte{name, both}, unnamed, true},
		"in another order":   {[][]byte{name, db, remote, rules, both, lsid}, nil, [][]byte{name, both, lsid}, "hr", true},
		"no schema":          {[][]byte{name, both, db}, nil, [][]byte{name, both}, "hr", false},
		"a sequence":         {[][]byte{name, rules, db}, split, [][]byte{name, both}, "hr", true},
		"a field twice":      {[][]byte{name, both, rules}, split, [][]byte{name, both, both}, unnamed, true},
		"names within":       {[][]byte{name, within, rules, db}, nil, [][]byte{name, within}, "hr", true},
		"a schema first":     {[][]byte{rules, db}, nil, [][]byte{rules}, "hr", false},
		"a schema first too": {[][]byte{rules, rules, db}, nil, [][]byte{rules}, "hr", true},
	} {
		taken, err := takeApart(wire.Msg{Body: bson.Wrap(tried.body...), Sequences: tried.sequences})
		if err != nil || !bytes.Equal(bson.Wrap(taken.own), bson.Wrap(tried.own...)) || taken.db != tried.db ||
			(taken.schema != nil) != tried.isMarked || taken.schema != nil && !bytes.Equal(taken.schema, bson.Wrap(name)) {
			t.Errorf("%s: %q of %q, %v", why, taken.own, taken.db, err)
		}
	}
}

func TestCommandsThatAreNotTaken(t *testing.T) {
	name, db := bson.AppendText(nil, "insert", "people"), bson.AppendText(nil, "$db", "hr")
	rules := bson.Append(nil, bson.Document, "jsonSchema", bson.Wrap())
	long := bson.AppendText(nil, "a", string(make([]byte, longest)))
	tooLong := (*fle.Error)(nil)
	for why, tried := range map[string]struct {
		fault error
		body  [][]byte
	}{
		"nothing":              {refusal.ErrBody, nil},
		"a name unended":       {refusal.ErrBody, [][]byte{name, {2, 'a'}}},
		"$db twice":            {refusal.ErrDb, [][]byte{name, rules, db, db}},
		"$db of another type":  {refusal.ErrDb, [][]byte{name, rules, bson.AppendInt32(nil, "$db", 1)}},
		"two schemas":          {errSchema, [][]byte{name, rules, rules, db}},
		"a schema of text":     {errSchema, [][]byte{name, bson.AppendText(nil, "jsonSchema", "a"), db}},
		"a schema in an array": {errSchema, [][]byte{name, bson.Append(nil, bson.Array, "jsonSchema", bson.Wrap()), db}},
		"very long":            {errLong, [][]byte{name, rules, long, db}},
	} {
		taken, err := takeApart(wire.Msg{Body: bson.Wrap(tried.body...)})
		if !errors.Is(err, tried.fault) {
			t.Errorf("%s: %q, %v", why, taken.own, err)
		}
	}
	one := bson.Wrap(bson.AppendText(nil, "a", string(make([]byte, 1000))))
	fits := bytes.Repeat(one, longest/len(one)) // but not with its numbers
	for _, documents := range [][]byte{bson.Wrap(long), fits, append(fits, one...)} {
		sequences := []wire.Sequence{{Name: "documents", Documents: documents}}
		if _, err := takeApart(wire.Msg{Body: bson.Wrap(name), Sequences: sequences}); !errors.As(err, &tooLong) {
			t.Error("a very long sequence is taken", err)
		}
	}
}

// The rules are those of the collection that a command names; of explain, that of the command which it explains.
func TestInfos(t *testing.T) {
	rules := schema(t)
	for _, one := range []struct {
		first      []byte
		collection string
	}{
		{bson.AppendText(nil, "find", "people"), "people"},
		{bson.AppendText(nil, "find", "a\x00b"), "a\x00b"},
		{bson.AppendText(nil, "find", ""), ""},
		{bson.AppendInt32(nil, "aggregate", 1), ""},
		{bson.Append(nil, bson.Document, "explain", bson.Wrap(bson.AppendText(nil, "find", "people"))), "people"},
		{bson.Append(nil, bson.Document, "explain", bson.Wrap(bson.AppendInt32(nil, "aggregate", 1))), ""},
		{bson.Append(nil, bson.Document, "explain", bson.Wrap()), ""},
		{bson.Append(nil, bson.Document, "find", bson.Wrap(bson.AppendText(nil, "find", "people"))), ""},
	} {
		taken, err := takeApart(wire.Msg{Body: bson.Wrap(one.first, bson.Append(nil, bson.Document, "jsonSchema", rules))})
		infos := taken.infos()
		if one.collection == "" {
			if err != nil || infos != nil {
				t.Errorf("%q: %q, %v", one.first, infos, err)
			}
			continue
		}
		name, _ := mock.Field(mock.Fields(infos), "name").Text()
		validator := mock.Field(mock.Fields(mock.Field(mock.Fields(infos), "options").Value), "validator").Value
		found := mock.Field(mock.Fields(validator), "$jsonSchema").Value
		if name != one.collection || !bytes.Equal(found, rules) {
			t.Errorf("%q: %q", one.first, infos)
		}
	}
}

// Whatever a body is, what is marked has no byte of another one, and nothing is left out but what stands beside.
func FuzzTakeApart(f *testing.F) {
	rules := bson.Append(nil, bson.Document, "jsonSchema", bson.Wrap(bson.AppendInt32(nil, "a", 1)))
	for _, more := range [][]byte{nil, rules, append(rules, rules...), bson.AppendText(nil, "$db", "hr"), {2, 'a'}} {
		f.Add(bson.Wrap(bson.AppendText(nil, "insert", "people"), documents(2, secret), more))
	}
	f.Fuzz(func(t *testing.T, body []byte) {
		taken, err := takeApart(wire.Msg{Body: body})
		if err != nil {
			return
		}
		taken.infos()
		left := 0
		for number, element := range mock.Fields(body) {
			isBeside := element.Name == "$db" || element.Name == "jsonSchema" || element.Name == "isRemoteSchema"
			if isBeside && number > 0 {
				continue
			}
			if !bytes.HasPrefix(taken.own[left:], element.Whole) {
				t.Fatalf("%q isn't in %q", element.Whole, taken.own)
			}
			left += len(element.Whole)
		}
		if left != len(taken.own) {
			t.Fatalf("%q of %q", taken.own, body)
		}
	})
}
