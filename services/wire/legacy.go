package wire

import (
	"bytes"
	"encoding/binary"
	"errors"

	"fled/bson"
)

// commands is the collection that an OP_QUERY names where it is a command to the database admin.
const commands = "admin.$cmd"

// What stands beside the document of an OP_QUERY and of an OP_REPLY, and what may stand there.
const (
	slaveOk    = 1 << 2 // the one flag that a hello has
	beforeName = 4
	queryWords = 8  // numberToSkip, numberToReturn
	replyHead  = 20 // responseFlags, cursorID, startingFrom, numberReturned
	cursorAt   = 4
	returnedAt = 16

	awaitCapable = 1 << 3 // the flag that each OP_REPLY of a server has
)

var (
	errQuery = errors.New("an OP_QUERY that is no command to admin")
	errReply = errors.New("an OP_REPLY that isn't of one document")
)

// Legacy is an OP_QUERY that is a command to admin, or the OP_REPLY to one: what stands before its document, and this.
type Legacy struct {
	Opcode   int32
	Head     []byte
	Document []byte
}

// IsHello is whether a command of this name is a hello, by which a driver begins.
func IsHello(name string) bool {
	return name == "hello" || name == "isMaster" || name == "ismaster"
}

// ReadQuery reads an OP_QUERY.
func ReadQuery(message Message) (Legacy, error) {
	contents, head := message.Contents, beforeName+len(commands)+1+queryWords
	if message.Opcode != OpQuery || len(contents) < head ||
		binary.LittleEndian.Uint32(contents)&^slaveOk != 0 ||
		!bytes.HasPrefix(contents[beforeName:], []byte(commands+"\x00")) {
		return Legacy{}, errQuery
	}
	return readLegacy(message, head, errQuery)
}

// ReadReply reads an OP_REPLY of one document and no cursor.
func ReadReply(message Message) (Legacy, error) {
	contents := message.Contents
	if message.Opcode != OpReply || len(contents) < replyHead ||
		binary.LittleEndian.Uint64(contents[cursorAt:]) != 0 || binary.LittleEndian.Uint32(contents[returnedAt:]) != 1 {
		return Legacy{}, errReply
	}
	return readLegacy(message, replyHead, errReply)
}

// NewReply is an OP_REPLY of one document, as a server answers.
func NewReply(document []byte) Legacy {
	head := make([]byte, replyHead)
	head[0], head[returnedAt] = awaitCapable, 1
	return Legacy{OpReply, head, document}
}

// readLegacy reads a message that ends with a document, behind a head of so many bytes.
func readLegacy(message Message, head int, fault error) (Legacy, error) {
	document := message.Contents[head:]
	if length, err := bson.Length(document); err != nil || length != len(document) {
		return Legacy{}, fault
	}
	return Legacy{message.Opcode, message.Contents[:head:head], document}, nil
}

// Message spells it.
func (legacy Legacy) Message(id, to int32) Message {
	return Message{id, to, legacy.Opcode, append(legacy.Head, legacy.Document...)}
}
