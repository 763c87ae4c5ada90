package fle

// #include <fle.h>
import "C"

import (
	"encoding/binary"
	"strconv"
	"time"
)

// drawn are the random bytes of a new key: eight blocks.
const drawn = 8 * block

// MakeKey gives the document of a new data key for a key vault, under the engine's master key, as `fle keygen` writes
// it: made at this time, with these alternate names, of random bytes of crypto/rand. The engine doesn't get the key.
//
// An [Error] has status [NoNames] where a name is empty, isn't UTF-8 or stands twice, or where they are too many; else
// [Limit], [EntropyFault], [Memory] or [NotOpen].
func (engine *Engine) MakeKey(made time.Time, names ...string) ([]byte, error) {
	document := namesOf(names)
	return engine.draw(drawn, roomFor(document), document, func(blocks, out []byte) C.fle_answer {
		return C.fle_make_key(&engine.slot, at(document), size(document), C.int64_t(made.UnixMilli()),
			at(blocks), size(blocks), at(out), size(out))
	})
}

// RewrapKey gives a key document with its data key sealed under another master key, and this time as that of its last
// change, as `fle rewrap` does for a vault; all else stays, and so does a key of another provider. The engine's master
// key opens it. It copies document and master key first, and draws random bytes from crypto/rand.
//
// An [Error] has status [Setup], with what is at fault as its File, [Refused] with reason KeyDamaged where the engine's
// master key doesn't open it, [Malformed], [Limit], [EntropyFault], [Memory] or [NotOpen].
func (engine *Engine) RewrapKey(master, key []byte, changed time.Time) ([]byte, error) {
	master, key = append([]byte(nil), master...), append([]byte(nil), key...)
	return engine.draw(block, len(key), key, func(blocks, out []byte) C.fle_answer {
		return C.fle_rewrap_key(&engine.slot, at(master), size(master), C.int64_t(changed.UnixMilli()),
			at(key), size(key), at(blocks), size(blocks), at(out), size(out))
	})
}

// Version is that of the library, as `fle --version` tells it.
func Version() string {
	answer := C.fle_version(at(nil), 0)
	out := make([]byte, int(answer.length))
	if C.fle_version(at(out), size(out)).status != C.FLE_DONE {
		return ""
	}
	return string(out[:len(out)-1])
}

// namesOf is {keyAltNames: names}, or {} where there are none.
func namesOf(names []string) []byte {
	if len(names) == 0 {
		return framed(nil)
	}
	var texts []byte
	for number, name := range names {
		texts = append(append(append(texts, 2), strconv.Itoa(number)...), 0)
		texts = binary.LittleEndian.AppendUint32(texts, uint32(len(name)+1))
		texts = append(append(texts, name...), 0)
	}
	return framed(append([]byte("\x04keyAltNames\x00"), framed(texts)...))
}

// framed is the document of these elements.
func framed(elements []byte) []byte {
	length := binary.LittleEndian.AppendUint32(nil, uint32(len(elements)+5))
	return append(append(length, elements...), 0)
}
