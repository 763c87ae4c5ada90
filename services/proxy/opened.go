package proxy

import (
	"bytes"
	"errors"

	"fle"

	"fled/bson"
)

const (
	longest = 16_777_216 // bytes of a document that the library takes
	deepest = 8          // levels at which a longer one is taken apart: a cursor's batch has its documents at the third
)

// heads are how payloads begin: the subtype, and which algorithm sealed the value.
var heads = [][]byte{{6, 1}, {6, 2}}

// opened is a reply with each payload opened. One above longest bytes, as a full batch of a cursor with what stands
// around it, is opened element by element: a document that is stored has at most so many.
func opened(engine Engine, reply []byte) ([]byte, error) {
	return openedAt(engine, reply, 0)
}

func openedAt(engine Engine, document []byte, level int) ([]byte, error) {
	if !mayHoldPayloads(document) {
		return document, nil
	}
	if len(document) <= longest || level == deepest {
		return engine.Unseal(document)
	}
	var parts []byte
	walk := bson.Over(document)
	for element, has := walk.Next(); has; element, has = walk.Next() {
		part, err := openedElement(engine, element, level+1)
		if err != nil {
			return nil, err
		}
		parts = append(parts, part...)
	}
	if walk.Err() != nil {
		return nil, walk.Err()
	}
	return bson.Wrap(parts), nil
}

// openedElement is an element with what is in it opened, or as a document of it alone is.
func openedElement(engine Engine, element bson.Element, level int) ([]byte, error) {
	if !mayHoldPayloads(element.Value) {
		return element.Whole, nil
	}
	if element.Tag != bson.Document && element.Tag != bson.Array {
		alone, err := engine.Unseal(bson.Wrap(element.Whole))
		if err != nil {
			return nil, err
		}
		return alone[4 : len(alone)-1], nil
	}
	value, err := openedAt(engine, element.Value, level)
	if err != nil {
		return nil, within(err, element.Name)
	}
	return bson.Append(nil, element.Tag, element.Name, value), nil
}

// mayHoldPayloads is false only where there is no payload.
func mayHoldPayloads(part []byte) bool {
	for _, head := range heads {
		if bytes.Contains(part, head) {
			return true
		}
	}
	return false
}

// within is a refusal of a part, told with the name of the part.
func within(err error, name string) error {
	told := (*fle.Error)(nil)
	if !errors.As(err, &told) || told.Status != fle.Refused {
		return err
	}
	moved := *told
	moved.Fields = append([]string{name}, told.Fields...)
	return &moved
}
