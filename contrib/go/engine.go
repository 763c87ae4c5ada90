// Package fle seals MongoDB's commands and opens its replies in this process, by the library libfle: client-side field
// level encryption.
//
// An [Engine] is opened once, by the bytes of a key vault, of collection infos, which hold the rules, and of a master
// key. Then each command is a call of [Engine.Seal] before it is sent, each reply a call of [Engine.Unseal]. What isn't
// sealed or opened as asked comes to an [Error], and to no bytes.
//
// Who asks servers for infos and keys begins with [Start] instead, has the filters from [Engine.InfoWanted],
// [Engine.KeysWanted] and [Engine.KeysWantedToOpen], and hands in what came by [Engine.PutInfo] and [Engine.PutKey].
// [Engine.Mark] answers as a marking service does. [Engine.SealValue] seals one value under a key that is named,
// whatever the rules: explicit encryption.
//
// Which values are sealed, and the bytes that come out, the library says, which is proved; this package carries bytes
// to it and back, and is tested. Like the library it wipes no memory.
package fle

/*
#cgo CFLAGS: -I${SRCDIR}/../c
#cgo LDFLAGS: -L${SRCDIR}/../c/out -lfle
#include <fle.h>
*/
import "C"

import (
	"crypto/rand"
	"runtime"
	"sync"
)

// What a call is handed at first, as fle.h says: few random bytes, which are enough for 16 values of the random
// algorithm, and room for twice a command and some spare bytes; longest is what the library writes at most.
const (
	few     = 256
	spare   = 4096
	longest = 48_000_000
)

// Engine seals and opens under keys, rules and a master key: of one database by [Open], of any number by [Start].
// Goroutines may call at once: they take turns, since the library takes one call at a time; for calls side by side open
// several. An engine isn't copied. That of the zero value is closed.
type Engine struct {
	turn sync.Mutex
	slot C.fle_slot
}

// Option says what an engine does beside what it does without options.
type Option uint32

// CommandsMore has an engine take count, findAndModify, distinct, createIndexes and commands that hold no value of a
// collection, as drop, and refuse in each, and in insert, update, delete and find, what says a value where none belongs:
// what a driver's command layer wants.
const CommandsMore Option = C.FLE_COMMANDS_MORE

// flags are these options as the library has them.
func flags(options []Option) C.uint32_t {
	var all Option
	for _, option := range options {
		all |= option
	}
	return C.uint32_t(all)
}

// Open opens an engine, with these options or none. The name of the database has 1 to 63 bytes. Keys are a vault, BSON
// documents one behind the other, or nothing; infos are in BSON or a JSON text; master is 96 bytes or their base64 text:
// as the files KEYS, SCHEMAS and MASTER of the program fle. None of them may change during the call; behind it they
// aren't used.
//
// An [Error] has status [Words] for the name, [Setup] for what is at fault in one of the three, [Flags] for an option
// that the library doesn't know, or [Memory].
func Open(db string, keys, infos, master []byte, options ...Option) (*Engine, error) {
	engine, name := new(Engine), []byte(db)
	answer := C.fle_open(&engine.slot, flags(options), at(name), size(name), at(keys), size(keys), at(infos), size(infos),
		at(master), size(master))
	return begun(engine, answer)
}

// begun is an engine that was opened, or started, where it was.
func begun(engine *Engine, answer C.fle_answer) (*Engine, error) {
	if answer.status != C.FLE_DONE {
		return nil, ended(answer, nil)
	}
	runtime.SetFinalizer(engine, (*Engine).Close)
	return engine, nil
}

// Seal gives a command that is sent to this database with each protected value sealed, or the command as it is where no
// rule protects one. It copies the command first, so that what is judged is what is sealed, and draws random bytes from
// crypto/rand.
//
// An [Error] has status [Refused], [Malformed], [Limit], [EntropyFault], [Memory], [NotOpen] or [NoInfo]; with reason
// WrongDb and no fields the database isn't the one that the engine was opened for.
func (engine *Engine) Seal(db string, command []byte) ([]byte, error) {
	name, command := []byte(db), append([]byte(nil), command...)
	return engine.draw(few, roomFor(command), command, func(blocks, out []byte) C.fle_answer {
		return C.fle_seal(&engine.slot, at(name), size(name), at(command), size(command),
			at(blocks), size(blocks), at(out), size(out))
	})
}

// Unseal gives a document, such as a reply, with each payload opened. It copies the document first.
//
// An [Error] has status [Refused], [Malformed], [Limit], [Memory] or [NotOpen].
func (engine *Engine) Unseal(document []byte) ([]byte, error) {
	document = append([]byte(nil), document...)
	answer, opened := engine.write(least(len(document), longest), func(out []byte) C.fle_answer {
		return C.fle_unseal(&engine.slot, at(document), size(document), at(out), size(out))
	})
	if answer.status != C.FLE_DONE {
		return nil, ended(answer, document)
	}
	return opened, nil
}

// Close frees the engine, once the call at hand has ended; calls behind it come to an [Error] with status [NotOpen]. It
// answers nil, and may be called twice. An engine that nothing names any more is closed too.
func (engine *Engine) Close() error {
	engine.turn.Lock()
	defer engine.turn.Unlock()
	C.fle_close(&engine.slot)
	return nil
}

// draw makes a call that seals this document, with so many random bytes of crypto/rand and so much room; where these
// are too few, it makes it once more with as many, and as much, as the call tells.
func (engine *Engine) draw(
	random, room int, document []byte, call func(blocks, out []byte) C.fle_answer,
) ([]byte, error) {
	for {
		blocks := make([]byte, random)
		if _, err := rand.Read(blocks); err != nil {
			return nil, &Error{Status: EntropyFault, cause: err}
		}
		answer, sealed := engine.write(room, func(out []byte) C.fle_answer { return call(blocks, out) })
		switch {
		case answer.status == C.FLE_DONE:
			return sealed, nil
		case answer.status == C.FLE_ENTROPY && random < int(answer.random):
			random, room = int(answer.random), int(answer.length)
		default:
			return nil, ended(answer, document)
		}
	}
}

// write makes a call with so much room; where it asks for more, which it does with nothing written, once more with as
// much as that. Bytes come with the status done alone.
func (engine *Engine) write(room int, call func(out []byte) C.fle_answer) (C.fle_answer, []byte) {
	out := make([]byte, room)
	answer := engine.inTurn(call, out)
	if answer.status == C.FLE_NO_ROOM {
		out = make([]byte, int(answer.length))
		answer = engine.inTurn(call, out)
	}
	if answer.status != C.FLE_DONE {
		return answer, nil
	}
	return answer, out[:answer.length:answer.length]
}

// inTurn makes a call of the library when no other one is made on this slot.
func (engine *Engine) inTurn(call func(out []byte) C.fle_answer, out []byte) C.fle_answer {
	engine.turn.Lock()
	defer engine.turn.Unlock()
	return call(out)
}

// roomFor is the room that a call has at first for what it makes of a document.
func roomFor(document []byte) int {
	return least(2*len(document)+spare, longest)
}

func least(one, other int) int {
	if one < other {
		return one
	}
	return other
}

// at is where bytes stand: NULL where there are none.
func at(bytes []byte) *C.uint8_t {
	if len(bytes) == 0 {
		return nil
	}
	return (*C.uint8_t)(&bytes[0])
}

func size(bytes []byte) C.size_t {
	return C.size_t(len(bytes))
}

// ended is what an answer of the library without bytes comes to, for this document.
func ended(answer C.fle_answer, document []byte) error {
	return newError(Status(answer.status), uint32(answer.reason), int(answer.file), int(answer.place), document)
}
