package fle

import (
	"bytes"
	"errors"
	"math/rand"
	"reflect"
	"sync"
	"testing"
)

// Infos and keys put and forgotten in random order: each command is sealed as by an engine that is opened with what is
// there, or refused for want of an info.
func TestAnyOrder(t *testing.T) {
	chance, engine, keys := rand.New(rand.NewSource(1)), started(t), vault(t)
	infos, there := map[string][]byte{}, map[int]bool{}
	stock := map[string][]byte{"rules": file(t, people[1]), "none": bare("people")}
	for turn := 0; turn < 300; turn++ {
		switch chance.Intn(7) {
		case 0, 1:
			infos["people"] = stock[[]string{"rules", "none", "rules"}[chance.Intn(3)]]
			done(t, engine.PutInfo("hr", infos["people"]))
		case 2, 3:
			number := chance.Intn(2)
			there[number] = true
			done(t, engine.PutKey(keys[number]))
		case 4:
			done(t, engine.ForgetInfo("hr", "people"))
			delete(infos, "people")
		case 5:
			done(t, engine.ForgetKeys())
			there = map[int]bool{}
		case 6:
			done(t, engine.ForgetInfos(), engine.PutInfo("pay", stock["rules"]))
			delete(infos, "people")
		}
		answersAs(t, engine, infos["people"], keys, there)
	}
}

// answersAs fails where an engine seals the insert of the examples otherwise than one that is opened with this info and
// with these of the keys; or at all, where there is no info.
func answersAs(t *testing.T, engine *Engine, info []byte, keys [][]byte, there map[int]bool) {
	t.Helper()
	command, vault := file(t, people[0]), []byte(nil)
	if info == nil {
		isUntold(t, engine, "hr", command)
		return
	}
	for number, key := range keys {
		if there[number] {
			vault = append(vault, key...)
		}
	}
	whole, err := Open("hr", vault, info, file(t, "EXAMPLE-ONLY.master"))
	done(t, err)
	defer whole.Close()
	wanted, refused := whole.Seal("hr", command)
	bytesOf, err := engine.Seal("hr", command)
	if !bytes.Equal(bytesOf, wanted) || !reflect.DeepEqual(err, refused) {
		t.Errorf("%d bytes, %v in place of %d bytes, %v", len(bytesOf), err, len(wanted), refused)
	}
}

// Infos are put and forgotten beside calls: each command is sealed, or not at all.
func TestToldBesideCalls(t *testing.T) {
	engine, command, info := told(t), file(t, people[0]), file(t, people[1])
	wanted, all := sealed(t, engine, command), sync.WaitGroup{}
	for number := 0; number < 4; number++ {
		all.Add(2)
		go func() {
			defer all.Done()
			for turn := 0; turn < 50; turn++ {
				if err := engine.PutInfo("hr", info); err != nil || engine.ForgetInfo("hr", "people") != nil {
					t.Error(err)
				}
			}
		}()
		go func() {
			defer all.Done()
			for turn := 0; turn < 50; turn++ {
				bytesOf, err := engine.Seal("hr", command)
				if told := (*Error)(nil); errors.As(err, &told) && told.Status == NoInfo && bytesOf == nil {
					continue
				}
				if err != nil || !bytes.Equal(bytesOf, wanted) {
					t.Error("a command is sealed otherwise beside others", err)
				}
			}
		}()
	}
	all.Wait()
}
