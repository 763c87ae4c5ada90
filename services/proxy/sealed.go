package proxy

import (
	"bytes"
	"errors"
	"strconv"

	"fle"

	"fled/bson"
	"fled/wire"
)

const (
	// portion is how many bytes of an array are sealed by one call, where more than one document is in it.
	portion = 4 << 20
	// mostHeld is how many bytes a message and what is sealed of it may have together.
	mostHeld = 64_000_000
)

var (
	errHeld      = errors.New("a message, and what is sealed of it, above 64000000 bytes")
	errSequences = errors.New("Unsupported: a document sequence that isn't the only one of a write")
	errForm      = errors.New("Unsupported: a command that was sealed beside its documents")
)

// sealed seals a message that is sent to a database: its body; or its document sequence, as the array that it stands
// for, in portions beside the body, which has to come back as it was.
func sealed(engine Engine, db string, msg wire.Msg) (wire.Msg, error) {
	switch len(msg.Sequences) {
	case 0:
		body, err := engine.Seal(db, msg.Body)
		if len(msg.Body)+len(body) > mostHeld {
			return msg, errHeld
		}
		msg.Body = body
		return msg, err
	case 1:
		documents, err := sealedSequence(engine, db, msg.Body, msg.Sequences[0], mostHeld-msg.Size())
		msg.Sequences = []wire.Sequence{{Name: msg.Sequences[0].Name, Documents: documents}}
		return msg, err
	}
	return msg, errSequences
}

// sealedSequence seals all documents of a sequence, to so many bytes at most. One without any is sealed too, so that the
// library sees the body.
func sealedSequence(engine Engine, db string, body []byte, sequence wire.Sequence, most int) ([]byte, error) {
	var behind []byte
	for done := 0; ; {
		array, count, left, err := sequence.Array(portion)
		if err != nil {
			return nil, err
		}
		last := bson.Append(nil, bson.Array, sequence.Name, array)
		whole, err := engine.Seal(db, bson.Wrap(body[4:len(body)-1], last))
		if err != nil {
			return nil, numbered(err, sequence.Name, done)
		}
		if behind, err = appendDocuments(behind, whole, body, sequence.Name, count); err != nil {
			return nil, err
		}
		if len(behind) > most {
			return nil, errHeld
		}
		if sequence.Documents, done = left, done+count; len(left) == 0 {
			return behind, nil
		}
	}
}

// appendDocuments takes as many documents as were sealed out of the last element of a command, before which nothing has
// changed.
func appendDocuments(behind, whole, body []byte, name string, count int) ([]byte, error) {
	before := len(body) - 1
	if length, err := bson.Length(whole); err != nil || length != len(whole) || length < before ||
		!bytes.Equal(whole[4:before], body[4:before]) {
		return nil, errForm
	}
	last := bson.Over(bson.Wrap(whole[before : len(whole)-1]))
	array, has := last.Next()
	if _, more := last.Next(); !has || more || last.Err() != nil || array.Tag != bson.Array || array.Name != name {
		return nil, errForm
	}
	walk, number := bson.Over(array.Value), 0
	for item, has := walk.Next(); has; item, has = walk.Next() {
		if item.Tag != bson.Document || item.Name != strconv.Itoa(number) {
			return nil, errForm
		}
		behind, number = append(behind, item.Value...), number+1
	}
	if walk.Err() != nil || number != count {
		return nil, errForm
	}
	return behind, nil
}

// numbered is a refusal within a portion, told with the number that its document has in the whole sequence.
func numbered(err error, name string, before int) error {
	told := (*fle.Error)(nil)
	if !errors.As(err, &told) || len(told.Fields) < 2 || told.Fields[0] != name {
		return err
	}
	number, failed := strconv.Atoi(told.Fields[1])
	if failed != nil {
		return err
	}
	moved := *told
	moved.Fields = append([]string{name, strconv.Itoa(before + number)}, told.Fields[2:]...)
	return &moved
}
