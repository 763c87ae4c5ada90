package mock

import (
	"bytes"
	"crypto/rand"
	"encoding/binary"
	"math"

	"fled/bson"
	"fled/wire"
)

// Fields has the elements of a document, which is one.
func Fields(document []byte) []bson.Element {
	var all []bson.Element
	walk := bson.Over(document)
	for element, has := walk.Next(); has; element, has = walk.Next() {
		all = append(all, element)
	}
	if walk.Err() != nil || len(all) == 0 && len(document) != 5 {
		panic("a document that is none")
	}
	return all
}

// Field is the field of a name, or one without a value.
func Field(fields []bson.Element, name string) bson.Element {
	for _, field := range fields {
		if field.Name == name {
			return field
		}
	}
	return bson.Element{Value: bson.Wrap()}
}

// Values are the values of an array.
func Values(fields []bson.Element, name string) [][]byte {
	var values [][]byte
	for _, item := range Fields(Field(fields, name).Value) {
		values = append(values, item.Value)
	}
	return values
}

// Number is that of any numeric type, or of true.
func Number(field bson.Element) int {
	switch field.Tag {
	case bson.Int32:
		return int(int32(binary.LittleEndian.Uint32(field.Value)))
	case 0x12:
		return int(binary.LittleEndian.Uint64(field.Value))
	case bson.Double:
		return int(math.Float64frombits(binary.LittleEndian.Uint64(field.Value)))
	case bson.Bool:
		return int(field.Value[0])
	}
	return 0
}

// Int64 is an element of this type.
func Int64(name string, number int64) []byte {
	return bson.Append(nil, 0x12, name, binary.LittleEndian.AppendUint64(nil, uint64(number)))
}

// Texts is an array of texts.
func Texts(all ...string) []byte {
	var items []byte
	for index, text := range all {
		items = bson.AppendText(items, bson.Key(index), text)
	}
	return bson.Wrap(items)
}

// Array is an array of documents.
func Array(documents [][]byte) []byte {
	var items []byte
	for index, document := range documents {
		items = bson.Append(items, bson.Document, bson.Key(index), document)
	}
	return bson.Wrap(items)
}

// OK is a reply with these elements that says so.
func OK(elements []byte) []byte {
	return bson.Wrap(bson.AppendDouble(elements, "ok", 1))
}

// Joined is the one document that a message stands for.
func Joined(msg wire.Msg) []byte {
	elements := append([]byte(nil), msg.Body[4:len(msg.Body)-1]...)
	for _, sequence := range msg.Sequences {
		var documents [][]byte
		for rest := sequence.Documents; len(rest) > 0; {
			length, err := bson.Length(rest)
			if err != nil {
				panic(err)
			}
			documents, rest = append(documents, rest[:length]), rest[length:]
		}
		elements = bson.Append(elements, bson.Array, sequence.Name, Array(documents))
	}
	return bson.Wrap(elements)
}

// matches is whether a document has each field of a filter, byte for byte. It knows $or, and $in of a field or of what
// is in an array: what drivers ask a key vault by.
func matches(document, filter []byte) bool {
	fields := Fields(document)
	for _, wanted := range Fields(filter) {
		found, is := Field(fields, wanted.Name), false
		switch among := Field(operators(wanted), "$in"); {
		case wanted.Name == "$or":
			for _, one := range Fields(wanted.Value) {
				is = is || matches(document, one.Value)
			}
		case among.Whole != nil:
			is = stands(found, Fields(among.Value))
		default:
			is = bytes.Equal(found.Whole, wanted.Whole)
		}
		if !is {
			return false
		}
	}
	return true
}

// operators are the fields of a filter's value, where that is a document.
func operators(wanted bson.Element) []bson.Element {
	if wanted.Tag != bson.Document {
		return nil
	}
	return Fields(wanted.Value)
}

// stands is whether a field, or a member of its array, is one of these.
func stands(field bson.Element, among []bson.Element) bool {
	all := []bson.Element{field}
	if field.Tag == bson.Array {
		all = append(all, Fields(field.Value)...)
	}
	for _, one := range all {
		for _, other := range among {
			if one.Whole != nil && one.Tag == other.Tag && bytes.Equal(one.Value, other.Value) {
				return true
			}
		}
	}
	return false
}

func (server *Server) matching(collection string, filter []byte) [][]byte {
	var found [][]byte
	for _, document := range server.Collections[collection] {
		if matches(document, filter) {
			found = append(found, document)
		}
	}
	return found
}

// set is a document with some fields put in place of those of the same name, or behind.
func set(document []byte, fields []bson.Element) []byte {
	var parts []byte
	old := Fields(document)
	for _, field := range old {
		if put := Field(fields, field.Name); put.Whole != nil {
			field = put
		}
		parts = append(parts, field.Whole...)
	}
	for _, field := range fields {
		if Field(old, field.Name).Whole == nil {
			parts = append(parts, field.Whole...)
		}
	}
	return bson.Wrap(parts)
}

// changed is a document behind an update.
func changed(document, update []byte) []byte {
	fields := Fields(update)
	if put := Field(fields, "$set"); put.Whole != nil {
		return set(document, Fields(put.Value))
	}
	return set(bson.Wrap(Field(Fields(document), "_id").Whole), fields)
}

func (server *Server) update(collection string, updates [][]byte) []byte {
	count, upserted := 0, []byte(nil)
	for index, update := range updates {
		fields := Fields(update)
		filter, by := Field(fields, "q").Value, Field(fields, "u").Value
		found := 0
		for at, document := range server.Collections[collection] {
			if matches(document, filter) && (found == 0 || Number(Field(fields, "multi")) == 1) {
				server.Collections[collection][at] = changed(document, by)
				found++
			}
		}
		if count += found; found == 0 && Number(Field(fields, "upsert")) == 1 {
			made := changed(set(bson.Wrap(newID()), Fields(filter)), by)
			server.Collections[collection] = append(server.Collections[collection], made)
			id := bson.AppendInt32(nil, "index", int32(index))
			id = bson.Wrap(append(id, Field(Fields(made), "_id").Whole...))
			upserted = bson.Append(upserted, bson.Document, bson.Key(count), id)
			count++
		}
	}
	said := bson.AppendInt32(bson.AppendInt32(nil, "n", int32(count)), "nModified", int32(count))
	if upserted != nil {
		said = bson.AppendInt32(bson.AppendInt32(nil, "n", int32(count)), "nModified", 0)
		said = bson.Append(said, bson.Array, "upserted", bson.Wrap(upserted))
	}
	return OK(said)
}

// newID is an element _id with an id that no other document has.
func newID() []byte {
	id := make([]byte, 12)
	if _, err := rand.Read(id); err != nil {
		panic(err)
	}
	return bson.Append(nil, 0x07, "_id", id)
}

func (server *Server) remove(collection string, deletes [][]byte) []byte {
	count := 0
	for _, one := range deletes {
		fields, left := Fields(one), [][]byte(nil)
		limit, removed := Number(Field(fields, "limit")), 0
		for _, document := range server.Collections[collection] {
			if matches(document, Field(fields, "q").Value) && (limit == 0 || removed < limit) {
				removed++
			} else {
				left = append(left, document)
			}
		}
		server.Collections[collection] = left
		count += removed
	}
	return OK(bson.AppendInt32(nil, "n", int32(count)))
}
