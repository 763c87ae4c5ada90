package fle

// #include <fle.h>
import "C"

// What [Engine.SealValue] draws and writes at most: a block, under the random algorithm, and so many bytes beside its
// document.
const (
	block = 16
	added = 87
)

// Key says which data key a value is sealed under: one by its id, or by one of its alternate names. The zero value has
// an id of no bytes, which is no key's.
type Key struct {
	named bool
	name  string
}

// ByID is the key of this id, the 16 bytes of its _id.
func ByID(id []byte) Key {
	return Key{name: string(id)}
}

// ByName is the key that has this alternate name.
func ByName(name string) Key {
	return Key{named: true, name: name}
}

// Algorithm is how a value is sealed: whether by the random algorithm.
type Algorithm bool

const (
	// Deterministic seals equal values alike, so that they can be looked for. It seals no double, document, array, bool,
	// code with scope or decimal128.
	Deterministic Algorithm = false
	// Random seals a value otherwise each time.
	Random Algorithm = true
)

// SealValue seals one value, whatever the rules are: {v: value} becomes {v: payload}, and the one field may have any
// name. [Engine.Unseal] opens it. It copies the document first, and draws random bytes from crypto/rand for the random
// algorithm alone.
//
// An [Error] has status [Refused], [Malformed], [Limit], [EntropyFault], [Memory], [NotOpen] or [NoId].
func (engine *Engine) SealValue(key Key, algorithm Algorithm, document []byte) ([]byte, error) {
	name, document := []byte(key.name), append([]byte(nil), document...)
	random := 0
	if algorithm == Random {
		random = block
	}
	room := least(len(document)+added, longest)
	return engine.draw(random, room, document, func(blocks, out []byte) C.fle_answer {
		return C.fle_seal_value(&engine.slot, C.bool(key.named), at(name), size(name), C.bool(algorithm),
			at(document), size(document), at(blocks), size(blocks), at(out), size(out))
	})
}
