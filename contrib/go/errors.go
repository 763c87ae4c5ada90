package fle

import (
	"fmt"
	"strings"
)

// Status is how a call ended that came to no bytes, by the numbers and names of docs/errors.tsv.
type Status uint32

const (
	Refused      Status = 1  // the document is refused, for a reason, at a place
	Words        Status = 2  // the name of the database has no byte, or more than 63
	Malformed    Status = 3  // the bytes are no BSON document
	Setup        Status = 4  // keys, infos or master are too long or at fault
	EntropyFault Status = 7  // no random bytes could be had
	Memory       Status = 8  // no memory could be had
	Limit        Status = 9  // a command, info or key above 16,777,216 bytes; a reply or a sealed form above 48,000,000
	NotOpen      Status = 11 // the engine was closed, or never opened; or has no master key, which the call wants
	NoId         Status = 12 // a key is named by an id that hasn't 16 bytes
	NoInfo       Status = 13 // the engine wasn't told of the command's collection
	NoNames      Status = 14 // a new key can't have the names that are handed in
	Flags        Status = 15 // the library doesn't know an option
)

// String is the name of the status.
func (status Status) String() string {
	return nameOf(uint32(status), "status", "call")
}

// files are what Open takes, or a document of each, as the library numbers them from 1, and the tables that have their
// faults.
var files = []struct {
	name   string
	tables []string
}{
	1: {"keys", []string{"file", "key"}},
	2: {"infos", []string{"file", "schema"}},
	3: {"master", []string{"file", "master"}},
}

// Error is a call that came to no bytes. It has numbers, and names of fields, and no value of a document or a key.
type Error struct {
	// Status is how the call ended.
	Status Status
	// Reason is what was wrong, by its name in docs/errors.tsv, which says what to do about it. It is empty where the
	// status says all.
	Reason string
	// Number is the number of the reason; 0 where it is empty.
	Number uint32
	// File is, with Setup, what is at fault: keys, infos or master.
	File string
	// Place is, with Refused, the offset in the document at which the refused value begins, 0 for the document itself;
	// with Malformed the offset of the fault; with Setup the number of the faulty document of the file, from 1, 0 for
	// the file as a whole.
	Place int
	// Fields are, with Refused, the names of the fields on the way to the refused value, none for the document itself.
	// Those of array elements are their numbers. A name has the bytes that stand in the document.
	Fields []string

	cause error
}

// newError is an answer of the library, with the names of the fields in this document.
func newError(status Status, number uint32, file, place int, document []byte) *Error {
	told := &Error{Status: status, Number: number, Place: place}
	switch status {
	case Refused:
		told.Reason, told.Fields = nameOf(number, "reason"), fieldsAt(document, place)
	case Malformed:
		told.Reason = nameOf(number, "input")
	case Limit:
		told.Reason = nameOf(number, "limit")
	case Setup:
		if file > 0 && file < len(files) {
			told.File, told.Reason = files[file].name, nameOf(number, files[file].tables...)
		}
	}
	return told
}

// nameOf is the name of a number in the first of these tables that has it.
func nameOf(number uint32, tables ...string) string {
	for _, table := range tables {
		if name, has := names[table][number]; has {
			return name
		}
	}
	return fmt.Sprintf("number %d", number)
}

// Error says status and reason, and where: by names of fields in quotes, by an offset, or by a document's number.
func (told *Error) Error() string {
	switch told.Status {
	case Refused:
		if len(told.Fields) == 0 {
			return fmt.Sprintf("fle: %v: %s at the document itself", told.Status, told.Reason)
		}
		return fmt.Sprintf("fle: %v: %s at %q", told.Status, told.Reason, strings.Join(told.Fields, "."))
	case Malformed:
		return fmt.Sprintf("fle: %v: %s at offset %d", told.Status, told.Reason, told.Place)
	case Setup:
		if told.Place == 0 {
			return fmt.Sprintf("fle: %v: %s of %s", told.Status, told.Reason, told.File)
		}
		return fmt.Sprintf("fle: %v: %s in document %d of %s", told.Status, told.Reason, told.Place, told.File)
	case Limit:
		return fmt.Sprintf("fle: %v: %s", told.Status, told.Reason)
	case NoId:
		return fmt.Sprintf("fle: %v: the id of a key has 16 bytes", told.Status)
	case NoInfo:
		return fmt.Sprintf("fle: %v: the engine wasn't told of the collection", told.Status)
	case NoNames:
		return fmt.Sprintf("fle: %v: a new key can't have these names", told.Status)
	case Words:
		return fmt.Sprintf("fle: %v: the name of the database has no byte, or more than 63", told.Status)
	}
	return fmt.Sprintf("fle: %v", told.Status)
}

// Unwrap is, with EntropyFault, what crypto/rand answered.
func (told *Error) Unwrap() error {
	return told.cause
}
