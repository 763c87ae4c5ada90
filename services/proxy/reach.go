package proxy

import (
	"bytes"
	"errors"
	"math"
	"strings"

	"fled/bson"
	"fled/refusal"
	"fled/wire"
)

// renaming is the command that moves a collection to another name, of another database too.
const renaming = "renameCollection"

// errReach is a command of another database that may write where there are rules.
var errReach = errors.New("Unsupported: a command that may write into a database with rules, past these")

// reaching judges the commands that are sent to one database and write into another, which their documents name: each
// by whether one of its elements may name that one. As in contrib/python, reach.py, and by more names of older servers.
var reaching = map[string]func(db string, element bson.Element) bool{
	"aggregate": byStages, "applyOps": always, "bulkWrite": byCollections, "copydb": always, "doTxn": always,
	"eval": always, "$eval": always, "mapReduce": byOut, "mapreduce": byOut, renaming: byName,
}

// explain is added here, since it is judged by the command in it.
func init() {
	reaching["explain"] = byCommand
}

// wantOwnNames is an error where the library doesn't take a command that holds no value, of any database, or would
// change it: what it says of one with the same elements to a database of its own.
func (rules Rules) wantOwnNames(body []byte) error {
	for db, database := range rules {
		asked, err := rewritten(body, func(element bson.Element) []byte {
			if element.Name == "$db" {
				return bson.AppendText(nil, element.Name, db)
			}
			return element.Whole
		})
		if err != nil {
			return refusal.ErrBody
		}
		answered, err := database.engine().Seal(db, asked)
		if err == nil && !bytes.Equal(answered, asked) {
			err = errForm
		}
		return err
	}
	return errForm
}

// wantNoReach is an error where a command to a database without rules may write into one that has them, or is longer
// than can be looked at.
func (rules Rules) wantNoReach(read command, msg wire.Msg) error {
	if reaching[read.name] == nil {
		return nil
	}
	whole := msg.Body
	for _, sequence := range msg.Sequences {
		array, _, _, err := sequence.Array(math.MaxInt32)
		if err != nil {
			return refusal.ErrBody
		}
		whole = bson.Wrap(whole[4:len(whole)-1], bson.Append(nil, bson.Array, sequence.Name, array))
	}
	for db := range rules {
		if reaches(db, whole) {
			return errReach
		}
	}
	return nil
}

// reaches is whether a command may write into this database; also where that can't be read.
func reaches(db string, command []byte) bool {
	first, has := bson.Over(command).Next()
	judge := reaching[first.Name]
	return !has || judge != nil && some(command, func(element bson.Element) bool { return judge(db, element) })
}

// some is whether an element of a document is so, or the document can't be read.
func some(document []byte, is func(bson.Element) bool) bool {
	walk := bson.Over(document)
	for element, has := walk.Next(); has; element, has = walk.Next() {
		if is(element) {
			return true
		}
	}
	return walk.Err() != nil
}

// isWithin is whether an element is no text, or the name of something in this database.
func isWithin(db string, element bson.Element) bool {
	text, isText := element.Text()
	return !isText || text == db || strings.HasPrefix(text, db+".")
}

// always is of commands that have writes within, or may do whatever a server can.
func always(string, bson.Element) bool {
	return true
}

// byName is of renameCollection, by the whole names that it has.
func byName(db string, element bson.Element) bool {
	return (element.Name == renaming || element.Name == "to") && isWithin(db, element)
}

// byCollections is of bulkWrite, by the whole names of the collections that its writes number.
func byCollections(db string, element bson.Element) bool {
	return element.Name == "nsInfo" && (element.Tag != bson.Array || some(element.Value, func(info bson.Element) bool {
		return info.Tag != bson.Document || some(info.Value, func(named bson.Element) bool {
			return named.Name == "ns" && isWithin(db, named)
		})
	}))
}

// byStages is of aggregate, by the stages $out and $merge: these stand in its pipeline itself, and within no other.
func byStages(db string, element bson.Element) bool {
	return element.Name == "pipeline" && (element.Tag != bson.Array || some(element.Value, func(stage bson.Element) bool {
		return stage.Tag != bson.Document || some(stage.Value, func(named bson.Element) bool {
			return (named.Name == "$out" || named.Name == "$merge") && isTarget(db, named)
		})
	}))
}

// byOut is of mapReduce.
func byOut(db string, element bson.Element) bool {
	return element.Name == "out" && isTarget(db, element)
}

// byCommand is of explain, by the command in it.
func byCommand(db string, element bson.Element) bool {
	return element.Name == "explain" && (element.Tag != bson.Document || reaches(db, element.Value))
}

// isTarget is whether a target of $out, $merge or mapReduce is in this database, or can't be read. A text is a
// collection of the database that the command is sent to; a document may have a database as `db`, and one of $merge is
// or has such a target as `into`.
func isTarget(db string, target bson.Element) bool {
	if target.Tag != bson.Document {
		return target.Tag != bson.String
	}
	return some(target.Value, func(element bson.Element) bool {
		return element.Name == "db" && isWithin(db, element) || element.Name == "into" && isTarget(db, element)
	})
}

// cursorOf is the command that ends the cursor of a reply, if there is one that is open.
func cursorOf(reply []byte) ([]byte, bool) {
	var id, namespace bson.Element
	some(reply, func(element bson.Element) bool {
		return element.Name == "cursor" && element.Tag == bson.Document && some(element.Value, func(of bson.Element) bool {
			if of.Name == "id" && of.Tag == bson.Int64 {
				id = of
			} else if of.Name == "ns" {
				namespace = of
			}
			return false
		})
	})
	name, isText := namespace.Text()
	db, collection, has := strings.Cut(name, ".")
	if !isText || !has || id.Whole == nil || bytes.Equal(id.Value, make([]byte, 8)) {
		return nil, false
	}
	killed := bson.Append(nil, bson.Array, "cursors", bson.Wrap(bson.Append(nil, bson.Int64, "0", id.Value)))
	named := bson.AppendText(nil, "killCursors", collection)
	return bson.Wrap(named, killed, bson.AppendText(nil, "$db", db)), true
}

// kill has the server end the cursor of a reply that isn't handed on, since nobody will ask for the rest. It asks for
// no reply.
func (session *session) kill(reply []byte) error {
	command, has := cursorOf(reply)
	if !has {
		return nil
	}
	session.last++
	return wire.Msg{MoreToCome: true, Body: command}.SendTo(session.server, session.last, 0)
}
