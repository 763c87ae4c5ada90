package bson

import (
	"bytes"
	"encoding/hex"
	"testing"
)

// The examples of bsonspec.org: {"hello": "world"}, and {"BSON": ["awesome", 5.05, 1986]}.
var examples = []string{
	"160000000268656c6c6f0006000000776f726c640000",
	"310000000442534f4e002600000002300008000000617765736f6d65000131003333333333331440103200c20700000000",
}

func document(t testing.TB, number int) []byte {
	t.Helper()
	all, err := hex.DecodeString(examples[number])
	if err != nil {
		t.Fatal(err)
	}
	return all
}

func TestElementsOfTheExamples(t *testing.T) {
	walk := Over(document(t, 0))
	element, has := walk.Next()
	if text, isText := element.Text(); !has || element.Name != "hello" || !isText || text != "world" {
		t.Error(element)
	}
	if _, has := walk.Next(); has || walk.Err() != nil {
		t.Error(walk.Err())
	}
	outer, _ := Over(document(t, 1)).Next()
	var tags, names []byte
	walk = Over(outer.Value)
	for element, has := walk.Next(); has; element, has = walk.Next() {
		tags, names = append(tags, element.Tag), append(names, element.Name...)
	}
	if outer.Tag != Array || !bytes.Equal(tags, []byte{String, Double, Int32}) || string(names) != "012" ||
		walk.Err() != nil {
		t.Error(tags, names, walk.Err())
	}
}

func TestWhatIsSpelled(t *testing.T) {
	if spelled := Wrap(AppendText(nil, "hello", "world")); !bytes.Equal(spelled, document(t, 0)) {
		t.Errorf("%x", spelled)
	}
	items := AppendInt32(AppendDouble(AppendText(nil, Key(0), "awesome"), Key(1), 5.05), Key(2), 1986)
	if spelled := Wrap(Append(nil, Array, "BSON", Wrap(items))); !bytes.Equal(spelled, document(t, 1)) {
		t.Errorf("%x", spelled)
	}
}

func TestFrontsAreNoDocuments(t *testing.T) {
	for number := range examples {
		all := document(t, number)
		for length := range all {
			if _, err := Length(all[:length]); err == nil {
				t.Error(number, length)
			}
			if walk := Over(all[:length]); walk.Err() == nil {
				t.Error(number, length)
			}
		}
		if length, err := Length(append(all, 1, 2)); err != nil || length != len(all) {
			t.Error(err)
		}
		if walk := Over(append(all, 0)); walk.Err() == nil {
			t.Error("a byte behind a document isn't seen")
		}
	}
}

func TestValuesThatEndNowhere(t *testing.T) {
	for _, value := range []string{
		"\x02a\x00\x00\x00\x00\x00", "\x02a\x00\xff\xff\xff\xff", "\x02a\x00\x02\x00\x00\x00a",
		"\x02a\x00\x02\x00\x00\x00ab",
		"\x03a\x00\x04\x00\x00\x00", "\x03a\x00\x00\x00\x00\x00", "\x05a\x00\xff\xff\xff\xff\x00",
		"\x05a\x00\x01\x00\x00\x00\x00",
		"\x0ba\x00a", "\x0ba\x00a\x00b", "\x0fa\x00\x0d\x00\x00\x00", "\x42a\x00", "\x10a\x00\x01\x00\x00",
		"\x08a\x00", "\x10a",
	} {
		walk := Over(Wrap([]byte(value)))
		if element, has := walk.Next(); has || walk.Err() == nil {
			t.Errorf("%q is read as %v", value, element)
		}
	}
	for _, value := range []string{"\x0ba\x00a\x00b\x00", "\x05a\x00\x00\x00\x00\x00\x00", "\x0aa\x00", "\x06a\x00",
		"\xffa\x00"} {
		walk := Over(Wrap([]byte(value)))
		if element, has := walk.Next(); !has || string(element.Whole) != value || walk.Err() != nil {
			t.Errorf("%q isn't read", value)
		}
	}
}
