package fle

import (
	"reflect"
	"testing"
)

// values has one value of each type of BSON, by bsonspec.org; those of documents and arrays are empty.
var values = map[byte]string{
	0x01: "\x00\x00\x00\x00\x00\x00\xf0\x3f", 0x02: "\x02\x00\x00\x00a\x00", 0x03: "\x05\x00\x00\x00\x00",
	0x04: "\x05\x00\x00\x00\x00", 0x05: "\x03\x00\x00\x00\x00abc", 0x06: "", 0x07: "123456789012", 0x08: "\x01",
	0x09: "12345678", 0x0a: "", 0x0b: "a.*b\x00im\x00", 0x0c: "\x02\x00\x00\x00c\x00123456789012",
	0x0d: "\x02\x00\x00\x00f\x00", 0x0e: "\x02\x00\x00\x00s\x00",
	0x0f: "\x13\x00\x00\x00\x02\x00\x00\x00f\x00\x09\x00\x00\x00\x08a\x00\x01\x00", 0x10: "1234", 0x11: "12345678",
	0x12: "12345678", 0x13: "1234567890123456", 0x7f: "", 0xff: "",
}

// Behind a value of each type the next one is found, at the top and within a document.
func TestFieldsBehindEachType(t *testing.T) {
	for tag, value := range values {
		inner := document(element(tag, "before", []byte(value)...), element(0x10, "here", 1, 0, 0, 0))
		here := len(inner) - 5
		if names := fieldsAt(inner, here); !reflect.DeepEqual(names, []string{"here"}) {
			t.Errorf("behind a value of type %#x: %q", tag, names)
		}
		outer := document(element(tag, "before", []byte(value)...), element(0x04, "in", inner...))
		wanted := []string{"in", "here"}
		if names := fieldsAt(outer, len(outer)-1-len(inner)+here); !reflect.DeepEqual(names, wanted) {
			t.Errorf("behind a value of type %#x, in an array: %q", tag, names)
		}
	}
}

// Offsets at which no value begins have no names, and bytes that are no document none either.
func TestFieldsWhereNoValueBegins(t *testing.T) {
	whole := document(text("a", "b"), element(0x03, "c", document(text("d", "e"))...))
	begins := map[int]bool{7: true, 16: true, 23: true}
	for offset := -1; offset <= len(whole)+1; offset++ {
		if names := fieldsAt(whole, offset); (names != nil) != begins[offset] {
			t.Errorf("at %d: %q", offset, names)
		}
	}
	for _, spoiled := range []string{
		"", "\x05", "12345", "1234\x02a\x00", "1234\x02a\x00\xff\xff\xff\xff", "1234\x0ba\x00b", "1234\x20a\x001234",
	} {
		if names := fieldsAt([]byte(spoiled), 1000); names != nil {
			t.Errorf("%q has %q", spoiled, names)
		}
	}
}
