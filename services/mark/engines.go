package mark

import (
	"container/list"
	"sync"
)

// What is kept at most.
const (
	mostEngines = 64
	mostBytes   = 32 << 20 // of the schemas of all engines, where there are more than one
)

// Engine marks commands: a *fle.Engine. Goroutines may call one at once.
type Engine interface {
	Mark(db string, command []byte) ([]byte, error)
	Close() error
}

// engines keeps an engine for each database, collection and schema that came of late.
type engines struct {
	open func(db string, infos []byte) (Engine, error)

	lock  sync.Mutex
	order *list.List // of *kept, the last one that was used first
	kept  map[key]*list.Element
	bytes int // of all infos
}

// key tells engines apart; infos have collection and schema.
type key struct{ db, infos string }

// kept is an engine that is opened by who uses it first.
type kept struct {
	key    key
	opened sync.Once
	engine Engine
	err    error

	users int  // calls that have it
	gone  bool // from what is kept: the last one who uses it closes it
}

func newEngines(open func(db string, infos []byte) (Engine, error)) *engines {
	return &engines{open: open, order: list.New(), kept: map[key]*list.Element{}}
}

// mark marks a command of a database under the rules of these infos. Infos that are at fault aren't kept.
func (engines *engines) mark(db string, infos, command []byte) ([]byte, error) {
	kept := engines.take(db, infos)
	defer engines.give(kept)
	kept.opened.Do(func() { kept.engine, kept.err = engines.open(db, infos) })
	if kept.err != nil {
		engines.forget(kept)
		return nil, kept.err
	}
	return kept.engine.Mark(db, command)
}

// take is what is kept of these infos, from here on; what was used longest ago gives way.
func (engines *engines) take(db string, infos []byte) *kept {
	engines.lock.Lock()
	defer engines.lock.Unlock()
	if at, has := engines.kept[key{db, string(infos)}]; has {
		engines.order.MoveToFront(at)
		found := at.Value.(*kept)
		found.users++
		return found
	}
	made := &kept{key: key{db, string(infos)}, users: 1}
	engines.kept[made.key] = engines.order.PushFront(made)
	engines.bytes += len(infos)
	for count := engines.order.Len(); count > mostEngines || count > 1 && engines.bytes > mostBytes; count-- {
		engines.drop(engines.order.Back())
	}
	return made
}

// give gives back what was taken.
func (engines *engines) give(kept *kept) {
	engines.lock.Lock()
	defer engines.lock.Unlock()
	kept.users--
	kept.closeUnused()
}

// forget keeps something no longer.
func (engines *engines) forget(kept *kept) {
	engines.lock.Lock()
	defer engines.lock.Unlock()
	if at, has := engines.kept[kept.key]; has && at.Value == any(kept) {
		engines.drop(at)
	}
}

// drop takes one out. The lock is held.
func (engines *engines) drop(at *list.Element) {
	old := engines.order.Remove(at).(*kept)
	delete(engines.kept, old.key)
	engines.bytes -= len(old.key.infos)
	old.gone = true
	old.closeUnused()
}

// closeUnused closes an engine that nobody will use. The lock is held.
func (kept *kept) closeUnused() {
	if kept.gone && kept.users == 0 && kept.engine != nil {
		kept.engine.Close()
	}
}
