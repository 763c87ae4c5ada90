package fle

// #include <fle.h>
import "C"

// Mark gives the marking reply to a command that is sent to this database, as mongocryptd answers: whether its schema
// needs encryption, whether it has values to be sealed, and the command with a marking in the place of each. It uses
// the rules alone: an engine without keys serves, and without a master key.
//
// An [Error] has status [Refused], [Malformed], [Limit], [Memory], [NotOpen] or [NoInfo], as of [Engine.Seal].
func (engine *Engine) Mark(db string, command []byte) ([]byte, error) {
	name, command := []byte(db), append([]byte(nil), command...)
	answer, reply := engine.write(roomFor(command), func(out []byte) C.fle_answer {
		return C.fle_mark(&engine.slot, at(name), size(name), at(command), size(command), at(out), size(out))
	})
	if answer.status != C.FLE_DONE {
		return nil, ended(answer, command)
	}
	return reply, nil
}

// InfoWanted gives the filter of the collection's infos that a command needs which is sent to this database,
// {name: collection}, for a listCollections, whether the engine has them or not; nil where the command passes.
//
// An [Error] is as of [Engine.Mark], for a field of the command by itself, and never [NoInfo].
func (engine *Engine) InfoWanted(db string, command []byte) ([]byte, error) {
	name, command := []byte(db), append([]byte(nil), command...)
	filter, _, err := engine.ask(command, func(out []byte) C.fle_answer {
		return C.fle_info_wanted(&engine.slot, at(name), size(name), at(command), size(command), at(out), size(out))
	})
	return filter, err
}

// KeysWanted gives the filter of the keys that a command needs which is sent to this database, and that the engine
// lacks, for a query to a key vault: {$or: [{_id: {$in: [..]}}, {keyAltNames: {$in: [..]}}]}; nil where it lacks none.
// Its second result is how many random bytes sealing the command takes.
//
// An [Error] is as of [Engine.Mark]: a command is never refused for a key.
func (engine *Engine) KeysWanted(db string, command []byte) (filter []byte, random int, err error) {
	name, command := []byte(db), append([]byte(nil), command...)
	return engine.ask(command, func(out []byte) C.fle_answer {
		return C.fle_keys_wanted(&engine.slot, at(name), size(name), at(command), size(command), at(out), size(out))
	})
}

// KeysWantedToOpen gives the filter of the keys, all by their ids, that a document needs which is to be opened, and
// that the engine lacks; nil where it lacks none.
//
// An [Error] is as of [Engine.Unseal], for the length of a payload, and never for a key.
func (engine *Engine) KeysWantedToOpen(document []byte) ([]byte, error) {
	document = append([]byte(nil), document...)
	filter, _, err := engine.ask(document, func(out []byte) C.fle_answer {
		return C.fle_keys_wanted_open(&engine.slot, at(document), size(document), at(out), size(out))
	})
	return filter, err
}

// KeyWanted gives the filter of this key, for a query to a key vault before [Engine.SealValue]; nil where the engine
// has it.
//
// An [Error] has status [NoId], [Memory] or [NotOpen].
func (engine *Engine) KeyWanted(key Key) ([]byte, error) {
	name := []byte(key.name)
	filter, _, err := engine.ask(nil, func(out []byte) C.fle_answer {
		return C.fle_value_keys_wanted(&engine.slot, C.bool(key.named), at(name), size(name), at(out), size(out))
	})
	return filter, err
}

// ask makes a call that writes a filter, or no byte; it gives the random bytes that are told, too.
func (engine *Engine) ask(document []byte, call func(out []byte) C.fle_answer) ([]byte, int, error) {
	answer, filter := engine.write(spare, call)
	if answer.status != C.FLE_DONE {
		return nil, 0, ended(answer, document)
	}
	if len(filter) == 0 {
		filter = nil
	}
	return filter, int(answer.random), nil
}
