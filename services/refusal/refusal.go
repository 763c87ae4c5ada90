// Package refusal spells the error replies of a service. None has a value of a document.
package refusal

import (
	"errors"
	"fmt"
	"strings"

	"fled/bson"
	"fled/journal"
	"fled/wire"
)

// What an error reply has as code and codeName: the code of MongoDB's own hosts for what a proxy refuses, and a name of
// no server.
const (
	Code = 8000
	Name = "FleRefused"
)

// What is told of messages that the services don't take.
var (
	ErrBody   = errors.New("Malformed: a command that can't be read")
	ErrDb     = errors.New("WrongDb: a command without one $db that is a string")
	ErrLegacy = errors.New("the client sent an OP_QUERY that is no hello")
)

// Opcode is an error about a message of another opcode.
func Opcode(number int32) error {
	return fmt.Errorf("the client sent the opcode %d", number)
}

// Said is what is told of an error that has no value of a document.
func Said(why error) string {
	return journal.Cut("fle: " + strings.TrimPrefix(why.Error(), "fle: "))
}

// Reply is an error reply that says so.
func Reply(said string) wire.Msg {
	return Of(said, Code, Name)
}

// Of is an error reply of another code.
func Of(said string, code int32, name string) wire.Msg {
	reply := bson.AppendDouble(nil, "ok", 0)
	reply = bson.AppendText(reply, "errmsg", said)
	reply = bson.AppendInt32(reply, "code", code)
	return wire.Msg{Body: bson.Wrap(bson.AppendText(reply, "codeName", name))}
}
