package fle

import (
	"bytes"
	"encoding/binary"
)

// Types of BSON that a walk treats in a way of their own.
const (
	tagDocument = 0x03
	tagArray    = 0x04
	tagRegex    = 0x0b
)

// fixed has the lengths of values of the types that have one; beside has what a value of another type takes beside the
// length that it states in its first four bytes.
var (
	fixed = map[byte]int{
		0x01: 8, 0x06: 0, 0x07: 12, 0x08: 1, 0x09: 8, 0x0a: 0, 0x10: 4, 0x11: 8, 0x12: 8, 0x13: 16, 0x7f: 0, 0xff: 0,
	}
	beside = map[byte]int{
		0x02: 4, tagDocument: 0, tagArray: 0, 0x05: 5, 0x0c: 16, 0x0d: 4, 0x0e: 4, 0x0f: 0,
	}
)

// fieldsAt gives the names on the way to the value that begins at an offset of a document; none where no value does.
// Whatever the bytes are, it ends.
func fieldsAt(document []byte, offset int) []string {
	var names []string
	for at := 4; at < len(document) && document[at] != 0; {
		length := bytes.IndexByte(document[at+1:], 0)
		if length < 0 {
			return nil
		}
		tag, name := document[at], string(document[at+1:at+1+length])
		value := at + 1 + length + 1
		width, known := widthOf(tag, document[value:])
		switch behind := value + width; {
		case !known:
			return nil
		case value == offset:
			return append(names, name)
		case value < offset && offset < behind && (tag == tagDocument || tag == tagArray):
			names, at = append(names, name), value+4
		default:
			at = behind
		}
	}
	return nil
}

// widthOf is the length of the value of a type that begins here; not known where the bytes state none.
func widthOf(tag byte, rest []byte) (int, bool) {
	if width, has := fixed[tag]; has {
		return width, true
	}
	if tag == tagRegex { // two texts that end with 00
		first := bytes.IndexByte(rest, 0)
		second := bytes.IndexByte(rest[first+1:], 0)
		return first + second + 2, first >= 0 && second >= 0
	}
	more, has := beside[tag]
	if !has || len(rest) < 4 {
		return 0, false
	}
	return more + int(binary.LittleEndian.Uint32(rest)), true
}
