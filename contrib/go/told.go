package fle

// #include <fle.h>
import "C"

// Start gives an engine with these options or none, without infos and keys, for any number of databases:
// [Engine.PutInfo] and [Engine.PutKey] tell it what it is to know. A command for a collection that it wasn't told of
// comes to an [Error] with status [NoInfo]. The master key is as of [Open]; without one, of no bytes, it marks and says
// what is wanted, and calls that seal or open come to status [NotOpen].
//
// An [Error] has status [Setup], with master as its File, [Flags] or [Memory].
func Start(master []byte, options ...Option) (*Engine, error) {
	engine := new(Engine)
	return begun(engine, C.fle_start(&engine.slot, flags(options), at(master), size(master)))
}

// PutInfo puts the info of one collection of a database, one BSON document as listCollections has it: in the place of
// the one of its name, or behind the others. {name: collection} alone, the filter of [Engine.InfoWanted], tells that
// the collection has none. It copies the info first. Where it comes to an error all is as before. Whoever writes what
// is put decides what is sealed.
//
// An [Error] has status [Setup], with infos as its File and 1 as its Place, [Refused], where the engine was opened for
// another database, [Limit], [Memory] or [NotOpen].
func (engine *Engine) PutInfo(db string, info []byte) error {
	name, info := []byte(db), append([]byte(nil), info...)
	return engine.tell(func() C.fle_answer {
		return C.fle_put_info(&engine.slot, at(name), size(name), at(info), size(info))
	})
}

// ForgetInfo forgets the info of a collection, where there is one. An engine of [Start] seals no command for it behind
// that; in one of [Open] it has no rules any more, and its values aren't sealed.
//
// An [Error] has status [NotOpen].
func (engine *Engine) ForgetInfo(db, collection string) error {
	name, other := []byte(db), []byte(collection)
	return engine.tell(func() C.fle_answer {
		return C.fle_forget_info(&engine.slot, at(name), size(name), at(other), size(other))
	})
}

// ForgetInfos forgets the infos of all collections of all databases, as [Engine.ForgetInfo] each.
func (engine *Engine) ForgetInfos() error {
	return engine.tell(func() C.fle_answer { return C.fle_forget_infos(&engine.slot) })
}

// PutKey puts one key document behind the others, as a key vault has it; the same key again is no fault. It copies the
// document first. Where it comes to an error all is as before.
//
// An [Error] has status [Setup], with keys as its File and 1 as its Place, [Limit], [Memory] or [NotOpen].
func (engine *Engine) PutKey(key []byte) error {
	key = append([]byte(nil), key...)
	return engine.tell(func() C.fle_answer { return C.fle_put_key(&engine.slot, at(key), size(key)) })
}

// ForgetKeys forgets all keys: nothing is sealed or opened under them until they are put again.
//
// An [Error] has status [NotOpen].
func (engine *Engine) ForgetKeys() error {
	return engine.tell(func() C.fle_answer { return C.fle_forget_keys(&engine.slot) })
}

// tell makes a call that writes no bytes.
func (engine *Engine) tell(call func() C.fle_answer) error {
	answer := engine.inTurn(func([]byte) C.fle_answer { return call() }, nil)
	if answer.status != C.FLE_DONE {
		return ended(answer, nil)
	}
	return nil
}
