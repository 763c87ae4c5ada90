//go:build driver && cse

package main

import (
	"reflect"

	"go.mongodb.org/mongo-driver/bson"
	"go.mongodb.org/mongo-driver/bson/primitive"
)

// where are the documents that a filter matches.
func where(all []bson.D, filter interface{}) (found []interface{}) {
	for _, document := range all {
		if matches(document, filter) {
			found = append(found, document)
		}
	}
	return found
}

// matches knows equality, $eq, $in, also of an array's members, $and and $or.
func matches(document bson.D, filter interface{}) bool {
	fields, _ := filter.(bson.D)
	for _, field := range fields {
		is := field.Key == "$and"
		if field.Key == "$or" || is {
			for _, one := range field.Value.(bson.A) {
				if matches(document, one) != is {
					is = !is
					break
				}
			}
		} else {
			among := wanted(field.Value)
			list, _ := get(document, field.Key).(bson.A)
			for _, value := range append(list, get(document, field.Key)) {
				for _, one := range among {
					is = is || reflect.DeepEqual(value, one)
				}
			}
		}
		if !is {
			return false
		}
	}
	return true
}

// wanted are the values of which a field has to have one.
func wanted(value interface{}) bson.A {
	operators, _ := value.(bson.D)
	if len(operators) == 0 || operators[0].Key[0] != '$' {
		return bson.A{value}
	}
	if len(operators) == 1 && operators[0].Key == "$eq" {
		return bson.A{operators[0].Value}
	}
	if len(operators) == 1 && operators[0].Key == "$in" {
		return operators[0].Value.(bson.A)
	}
	panic("the operator " + operators[0].Key)
}

// changed is a document behind an update: $set, $unset and $rename, or another document.
func changed(document bson.D, update bson.D) bson.D {
	if len(update) == 0 || update[0].Key[0] != '$' {
		return append(bson.D{{"_id", get(document, "_id")}}, update...)
	}
	for _, operator := range update {
		for _, field := range operator.Value.(bson.D) {
			switch operator.Key {
			case "$set":
				document = put(document, field.Key, field.Value)
			case "$unset":
				document = put(document, field.Key, nil)
			case "$rename":
				value := get(document, field.Key)
				document = put(put(document, field.Key, nil), field.Value.(string), value)
			default:
				panic("the operator " + operator.Key)
			}
		}
	}
	return document
}

// put puts a value in the place of a field's, or takes the field out.
func put(document bson.D, name string, value interface{}) (made bson.D) {
	for _, field := range document {
		if field.Key != name {
			made = append(made, field)
		}
	}
	if value != nil {
		made = append(made, bson.E{Key: name, Value: value})
	}
	return made
}

func (s *server) update(command bson.D, space string) bson.D {
	count := 0
	for _, one := range get(command, "updates").(bson.A) {
		item, found := one.(bson.D), 0
		for at, document := range s.data[space] {
			if matches(document, get(item, "q")) && (found == 0 || get(item, "multi") == true) {
				s.data[space][at] = changed(document, get(item, "u").(bson.D))
				found++
			}
		}
		if found == 0 && get(item, "upsert") == true {
			made := append(bson.D{{"_id", primitive.NewObjectID()}}, get(item, "q").(bson.D)...)
			s.data[space] = append(s.data[space], changed(made, get(item, "u").(bson.D)))
		}
		count += found
	}
	return bson.D{{"n", int32(count)}, {"nModified", int32(count)}}
}

func (s *server) remove(command bson.D, space string) bson.D {
	count := 0
	for _, one := range get(command, "deletes").(bson.A) {
		var left []bson.D
		removed := 0
		for _, document := range s.data[space] {
			if matches(document, get(one.(bson.D), "q")) && (removed == 0 || number(one.(bson.D), "limit") == 0) {
				removed++
			} else {
				left = append(left, document)
			}
		}
		s.data[space] = left
		count += removed
	}
	return bson.D{{"n", int32(count)}}
}

func (s *server) modify(command bson.D, space string) bson.D {
	for at, document := range s.data[space] {
		if !matches(document, get(command, "query")) {
			continue
		}
		if get(command, "remove") == true {
			s.data[space] = append(s.data[space][:at], s.data[space][at+1:]...)
			return bson.D{{"value", document}}
		}
		s.data[space][at] = changed(document, get(command, "update").(bson.D))
		if get(command, "new") == true {
			document = s.data[space][at]
		}
		return bson.D{{"value", document}}
	}
	return bson.D{{"value", nil}}
}
