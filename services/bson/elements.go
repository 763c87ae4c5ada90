// Package bson reads the elements of BSON documents (bsonspec.org, version 1.1) one by one, and spells new ones.
//
// A [Walk] goes over the elements of one document and keeps none of them, so that a document of very many takes no more
// memory than its own bytes. What can't be read is an error, never a panic. What is within an element isn't looked at.
package bson

import (
	"bytes"
	"encoding/binary"
	"errors"
)

// Types of elements that have a name here.
const (
	Double   = 0x01
	String   = 0x02
	Document = 0x03
	Array    = 0x04
	Bool     = 0x08
	Int32    = 0x10
	Int64    = 0x12
)

const regex, least = 0x0b, 5 // and the bytes of a document without elements

// ErrMalformed is returned where bytes spell no document.
var ErrMalformed = errors.New("malformed document")

// fixed has the lengths of values of the types that have one; beside has what a value of another type takes beside the
// length that it states in its first four bytes, and the least that it may state.
var (
	fixed = map[byte]int{
		0x01: 8, 0x06: 0, 0x07: 12, 0x08: 1, 0x09: 8, 0x0a: 0, 0x10: 4, 0x11: 8, 0x12: 8, 0x13: 16, 0x7f: 0, 0xff: 0,
	}
	beside = map[byte]struct{ more, least int }{
		0x02: {4, 1}, 0x03: {0, least}, 0x04: {0, least}, 0x05: {5, 0}, 0x0c: {16, 1}, 0x0d: {4, 1}, 0x0e: {4, 1},
		0x0f: {0, 14},
	}
)

// Element is one element. Its slices are those of the document.
type Element struct {
	Tag   byte
	Name  string
	Value []byte
	Whole []byte // its type, name and value
}

// Text is the text of a string, and whether the element is one.
func (element Element) Text() (string, bool) {
	if element.Tag != String {
		return "", false
	}
	return string(element.Value[4 : len(element.Value)-1]), true
}

// Length is the length of the document that these bytes begin with; an error where they don't begin with a whole one.
func Length(front []byte) (int, error) {
	if len(front) < least {
		return 0, ErrMalformed
	}
	length := binary.LittleEndian.Uint32(front)
	if length < least || uint64(length) > uint64(len(front)) || front[length-1] != 0 {
		return 0, ErrMalformed
	}
	return int(length), nil
}

// Walk is a walk over the elements of a document or an array.
type Walk struct {
	rest []byte
	err  error
}

// Over begins a walk over a document, which ends where the bytes do.
func Over(document []byte) *Walk {
	length, err := Length(document)
	if err != nil || length != len(document) {
		return &Walk{err: ErrMalformed}
	}
	return &Walk{rest: document[4 : length-1]}
}

// Next takes the next element. There is none at the end, and where the bytes spell none: Err tells which.
func (walk *Walk) Next() (Element, bool) {
	if walk.err != nil || len(walk.rest) == 0 {
		return Element{}, false
	}
	length := bytes.IndexByte(walk.rest[1:], 0)
	if length < 0 {
		walk.err = ErrMalformed
		return Element{}, false
	}
	tag, value := walk.rest[0], walk.rest[length+2:]
	width, known := widthOf(tag, value)
	if !known || width > len(value) {
		walk.err = ErrMalformed
		return Element{}, false
	}
	behind := length + 2 + width
	element := Element{tag, string(walk.rest[1 : 1+length]), value[:width:width], walk.rest[:behind:behind]}
	walk.rest = value[width:]
	return element, true
}

// Err is the fault that ended the walk, if one did.
func (walk *Walk) Err() error {
	return walk.err
}

// widthOf is the length of the value of a type that begins here; not known where the bytes state none.
func widthOf(tag byte, rest []byte) (int, bool) {
	if width, has := fixed[tag]; has {
		return width, true
	}
	if tag == regex { // two texts that end with 00
		first := bytes.IndexByte(rest, 0)
		second := bytes.IndexByte(rest[first+1:], 0)
		return first + second + 2, first >= 0 && second >= 0
	}
	kind, has := beside[tag]
	if !has || len(rest) < 4 {
		return 0, false
	}
	stated := int64(int32(binary.LittleEndian.Uint32(rest)))
	width := stated + int64(kind.more)
	if stated < int64(kind.least) || width > int64(len(rest)) {
		return 0, false
	}
	ends := tag == 0x05 || tag == 0x0c || rest[width-1] == 0 // all others end with 00
	return int(width), ends
}
