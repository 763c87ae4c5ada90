package mark

import (
	"errors"

	"fle"

	"fled/bson"
	"fled/refusal"
	"fled/wire"
)

const (
	longest = 16_777_216 // bytes of a command that the library takes
	unnamed = "admin"    // the database of a command without $db: rules come beside the command, whichever it is
)

var (
	errSchema = errors.New("BadField: a command without one jsonSchema that is a document")
	errLong   = &fle.Error{Status: fle.Limit, Number: 1, Reason: "Document"}
)

// command is a command taken apart into what is marked and what stands beside it.
type command struct {
	first   bson.Element // whose name is that of the command
	db      string       // of $db
	isNamed bool         // whether there is a $db
	schema  []byte       // jsonSchema; nil where there is none
	own     []byte       // its elements without $db, jsonSchema and isRemoteSchema
}

// takeApart takes the elements of a body, each as it is spelled, and behind them the document sequences, each as the
// array that it stands for.
func takeApart(msg wire.Msg) (command, error) {
	taken := command{db: unnamed, own: make([]byte, 0, least(len(msg.Body), longest))}
	walk, fault := bson.Over(msg.Body), error(nil)
	for element, has := walk.Next(); has && fault == nil; element, has = walk.Next() {
		fault = taken.takeElement(element)
	}
	if walk.Err() != nil || taken.first.Whole == nil {
		fault = refusal.ErrBody
	}
	for _, sequence := range msg.Sequences {
		if fault == nil {
			fault = taken.takeSequence(sequence)
		}
	}
	return taken, fault
}

// takeElement takes an element: the first one is the command's whatever its name.
func (taken *command) takeElement(element bson.Element) error {
	switch {
	case taken.first.Whole == nil:
		taken.first = element
	case element.Name == "$db":
		return taken.takeDb(element)
	case element.Name == "jsonSchema":
		return taken.takeSchema(element)
	case element.Name == "isRemoteSchema":
		return nil
	}
	return taken.add(element.Whole)
}

func (taken *command) takeDb(element bson.Element) error {
	text, isText := element.Text()
	if !isText || taken.isNamed {
		return refusal.ErrDb
	}
	taken.db, taken.isNamed = text, true
	return nil
}

func (taken *command) takeSchema(element bson.Element) error {
	if element.Tag != bson.Document || taken.schema != nil {
		return errSchema
	}
	taken.schema = element.Value
	return nil
}

// add takes an element.
func (taken *command) add(element []byte) error {
	if len(taken.own)+len(element) > longest {
		return errLong
	}
	taken.own = append(taken.own, element...)
	return nil
}

// takeSequence takes a sequence.
func (taken *command) takeSequence(sequence wire.Sequence) error {
	if len(sequence.Documents) > longest {
		return errLong
	}
	array, _, left, err := sequence.Array(longest)
	if err == nil && len(left) > 0 {
		err = errLong
	}
	if err != nil {
		return err
	}
	return taken.add(bson.Append(nil, bson.Array, sequence.Name, array))
}

// infos are the collection infos that make rules of the schema, for the collection that the command's first element
// names, or that of the command which it explains; none where it names none.
func (taken command) infos() []byte {
	named := taken.first
	if named.Name == "explain" && named.Tag == bson.Document {
		named, _ = bson.Over(named.Value).Next()
	}
	if collection, isText := named.Text(); !isText || collection == "" {
		return nil
	}
	validator := bson.Wrap(bson.Append(nil, bson.Document, "$jsonSchema", taken.schema))
	options := bson.Wrap(bson.Append(nil, bson.Document, "validator", validator))
	name := bson.Append(nil, bson.String, "name", named.Value)
	return bson.Wrap(name, bson.Append(nil, bson.Document, "options", options))
}

func least(one, other int) int {
	if one < other {
		return one
	}
	return other
}
