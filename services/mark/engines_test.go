package mark

import (
	"errors"
	"fmt"
	"sync"
	"testing"

	"fled/bson"
)

// counting opens fakes, and counts them by database and infos; closed counts those that were closed.
type counting struct {
	lock   sync.Mutex
	opened map[string]int
	closed int
}

func (all *counting) open(db string, infos []byte) (Engine, error) {
	all.lock.Lock()
	defer all.lock.Unlock()
	if string(infos) == "fault" {
		return nil, errors.New("a fault")
	}
	all.opened[db+"/"+string(infos)]++
	return closing{all}, nil
}

// closing is an engine that may be used until it is closed.
type closing struct{ all *counting }

func (engine closing) Mark(string, []byte) ([]byte, error) { return bson.Wrap(), nil }

func (engine closing) Close() error {
	engine.all.closed++ // the lock of engines is held
	return nil
}

// Each database, collection and schema has an engine; of more than 64 the one that was used longest ago is closed.
func TestTheLeastRecentlyUsedGoes(t *testing.T) {
	all := &counting{opened: map[string]int{}}
	kept := newEngines(all.open)
	use := func(db, infos string) {
		if _, err := kept.mark(db, []byte(infos), nil); err != nil {
			t.Fatal(err)
		}
	}
	for number := 0; number < mostEngines; number++ {
		use("hr", fmt.Sprint(number))
	}
	use("hr", "0")
	use("other", "0") // "1" goes
	use("hr", "0")
	if all.opened["hr/0"] != 1 || all.opened["other/0"] != 1 || all.closed != 1 || len(kept.kept) != mostEngines {
		t.Error(all.opened, all.closed)
	}
	use("hr", "1") // "2" goes
	if all.opened["hr/1"] != 2 || all.closed != 2 || all.opened["hr/3"] != 1 {
		t.Error(all.opened, all.closed)
	}
}

// Very long schemas leave fewer engines, and the last one always.
func TestLongSchemas(t *testing.T) {
	all := &counting{opened: map[string]int{}}
	kept := newEngines(all.open)
	for number := 0; number < 5; number++ {
		infos := make([]byte, mostBytes/2)
		infos[0] = byte(number)
		if _, err := kept.mark("hr", infos, nil); err != nil {
			t.Fatal(err)
		}
	}
	if len(kept.kept) != 2 || all.closed != 3 || kept.bytes != mostBytes {
		t.Error(len(kept.kept), all.closed, kept.bytes)
	}
	if _, err := kept.mark("hr", make([]byte, mostBytes+1), nil); err != nil || len(kept.kept) != 1 {
		t.Error(len(kept.kept), err)
	}
}

func TestInfosAtFault(t *testing.T) {
	all := &counting{opened: map[string]int{}}
	kept := newEngines(all.open)
	for turn := 0; turn < 3; turn++ {
		if _, err := kept.mark("hr", []byte("fault"), nil); err == nil || len(kept.kept) != 0 || kept.bytes != 0 {
			t.Error(len(kept.kept), err)
		}
	}
}

// An engine that goes is closed once nobody uses it, and never while somebody does.
func TestAnEngineInUse(t *testing.T) {
	all := &counting{opened: map[string]int{}}
	kept := newEngines(all.open)
	held := kept.take("hr", []byte("held"))
	held.engine = closing{all}
	for number := 0; number < mostEngines; number++ {
		kept.mark("hr", []byte(fmt.Sprint(number)), nil)
	}
	if !held.gone || all.closed != 0 {
		t.Error(held.gone, all.closed)
	}
	if kept.give(held); all.closed != 1 {
		t.Error(all.closed)
	}
}

// Many goroutines with more schemas than are kept: each one has its engine, and all that went are closed.
func TestEnginesAtOnce(t *testing.T) {
	all := &counting{opened: map[string]int{}}
	kept, done := newEngines(all.open), sync.WaitGroup{}
	for worker := 0; worker < 16; worker++ {
		done.Add(1)
		go func(worker int) {
			defer done.Done()
			for turn := 0; turn < 1000; turn++ {
				if _, err := kept.mark("hr", []byte(fmt.Sprint(worker*turn%100)), nil); err != nil {
					t.Error(err)
				}
			}
		}(worker)
	}
	done.Wait()
	opened := 0
	for _, count := range all.opened {
		opened += count
	}
	if opened-all.closed != len(kept.kept) || len(kept.kept) > mostEngines {
		t.Error(opened, all.closed, len(kept.kept))
	}
}
