package fle

import (
	"bytes"
	"crypto/rand"
	"encoding/binary"
	"errors"
	"fmt"
	"os"
	"reflect"
	"strconv"
	"sync"
	"testing"
)

const examples = "../../examples/"

// secret is a protected value of the examples.
const secret = "123-45-6789"

// file is what a file of the examples holds.
func file(t testing.TB, name string) []byte {
	t.Helper()
	contents, err := os.ReadFile(examples + name)
	if err != nil {
		t.Fatal(err)
	}
	return contents
}

// opened is an engine of the examples' keys, under these infos; it is closed when the test ends.
func opened(t testing.TB, infos string) *Engine {
	t.Helper()
	engine, err := Open("hr", file(t, "keys.bson"), file(t, infos), file(t, "EXAMPLE-ONLY.master"))
	if err != nil {
		t.Fatal(err)
	}
	t.Cleanup(func() { engine.Close() })
	return engine
}

// sealed is a command sealed by an engine, which has to take it.
func sealed(t testing.TB, engine *Engine, command []byte) []byte {
	t.Helper()
	bytes, err := engine.Seal("hr", command)
	if err != nil {
		t.Fatal(err)
	}
	return bytes
}

// sealing is what seals commands for hr by an engine.
func sealing(engine *Engine) func([]byte) ([]byte, error) {
	return func(command []byte) ([]byte, error) { return engine.Seal("hr", command) }
}

// comesBack fails where a command isn't sealed and opened again to the same bytes; it gives the sealed ones.
func comesBack(t testing.TB, engine *Engine, command []byte) []byte {
	t.Helper()
	bytesOf := sealed(t, engine, command)
	again, err := engine.Unseal(bytesOf)
	if err != nil {
		t.Fatal(err)
	}
	if !bytes.Equal(again, command) {
		t.Fatal("a command that was sealed and opened is another")
	}
	return bytesOf
}

// refusal is the Error that a call came to.
func refusal(t testing.TB, bytes []byte, err error) *Error {
	t.Helper()
	var told *Error
	if !errors.As(err, &told) || bytes != nil {
		t.Fatalf("%d bytes and %v in place of an Error", len(bytes), err)
	}
	return told
}

// element is an element of BSON, and document a document of such.
func element(tag byte, name string, value ...byte) []byte {
	return append(append([]byte{tag}, name+"\x00"...), value...)
}

func text(name, value string) []byte {
	return element(2, name, append(binary.LittleEndian.AppendUint32(nil, uint32(len(value)+1)), value+"\x00"...)...)
}

func document(elements ...[]byte) []byte {
	body := bytes.Join(elements, nil)
	return append(append(binary.LittleEndian.AppendUint32(nil, uint32(len(body)+5)), body...), 0)
}

// array is an array of documents.
func array(documents [][]byte) []byte {
	var elements [][]byte
	for number, one := range documents {
		elements = append(elements, element(3, strconv.Itoa(number), one...))
	}
	return document(elements...)
}

// insert is the command that stores documents in the collection people.
func insert(documents ...[]byte) []byte {
	return document(text("insert", "people"), element(4, "documents", array(documents)...), text("$db", "hr"))
}

func TestSealedCommandsComeBack(t *testing.T) {
	for command, infos := range map[string]string{
		"insert.bson": "people.schemas.bson", "find.bson": "people.schemas.json", "delete.bson": "people.schemas.bson",
		"insert-staff.bson": "staff.schemas.bson", "update.bson": "staff.schemas.json",
		"insert-scores.bson": "scores.schemas.json", "insert-clients.bson": "clients.schemas.json",
	} {
		bytesOf := comesBack(t, opened(t, infos), file(t, command))
		if bytes.Equal(bytesOf, file(t, command)) || bytes.Contains(bytesOf, []byte(secret)) {
			t.Errorf("%s isn't sealed", command)
		}
	}
}

func TestWhatNoRuleProtectsPasses(t *testing.T) {
	engine, ping := opened(t, "people.schemas.bson"), file(t, "ping.bson")
	if !bytes.Equal(sealed(t, engine, ping), ping) {
		t.Error("a command that passes is another")
	}
}

func TestRandomValuesDrawBlocksOfTheirOwn(t *testing.T) {
	engine := opened(t, "people.schemas.bson")
	for _, count := range []int{1, 16, 17, 300} {
		var people [][]byte
		for number := 0; number < count; number++ {
			people = append(people, document(text("salary", "the same")))
		}
		command := insert(people...)
		bytesOf := comesBack(t, engine, command)
		if bytes.Equal(bytesOf, sealed(t, engine, command)) {
			t.Errorf("%d random values came twice alike", count)
		}
	}
}

func TestMoreRoomThanTheFirst(t *testing.T) {
	engine, people := opened(t, "people.schemas.bson"), [][]byte(nil)
	for number := 0; number < 400; number++ {
		people = append(people, document(text("ssn", strconv.Itoa(number))))
	}
	command := insert(people...)
	if bytesOf := comesBack(t, engine, command); len(bytesOf) <= 2*len(command)+spare {
		t.Errorf("%d bytes of %d have room at once", len(bytesOf), len(command))
	}
}

func TestLargeDocuments(t *testing.T) {
	engine := opened(t, "people.schemas.bson")
	comesBack(t, engine, insert(document(text("salary", string(make([]byte, 16_000_000))))))
	long := insert(document(text("n", string(make([]byte, 1<<24)))))
	if bytesOf, err := engine.Unseal(long); err != nil || !bytes.Equal(bytesOf, long) {
		t.Errorf("%d bytes and %v of a document that a reply may hold", len(bytesOf), err)
	}
	for _, tried := range []struct {
		call func([]byte) ([]byte, error)
		text int
	}{{sealing(engine), 1 << 24}, {engine.Unseal, longest}} {
		bytesOf, err := tried.call(insert(document(text("n", string(make([]byte, tried.text))))))
		if told := refusal(t, bytesOf, err); told.Status != Limit || told.Reason != "Document" {
			t.Error(told)
		}
	}
}

func TestACommandIsNotWrittenTo(t *testing.T) {
	engine, command := opened(t, "people.schemas.bson"), file(t, "insert.bson")
	sealed(t, engine, command)
	if !bytes.Equal(command, file(t, "insert.bson")) {
		t.Error("Seal wrote to its command")
	}
}

// calls are all that an engine answers with bytes, each made of a document.
func calls(engine *Engine) []func([]byte) ([]byte, error) {
	return []func([]byte) ([]byte, error){
		sealing(engine), engine.Unseal, engine.KeysWantedToOpen,
		func(command []byte) ([]byte, error) { return engine.Mark("hr", command) },
		func(command []byte) ([]byte, error) { return engine.InfoWanted("hr", command) },
		func(command []byte) ([]byte, error) {
			filter, _, err := engine.KeysWanted("hr", command)
			return filter, err
		},
		func([]byte) ([]byte, error) { return engine.KeyWanted(ByName("none")) },
		func([]byte) ([]byte, error) {
			return engine.SealValue(ByName("hr-key"), Random, document(text("v", secret)))
		},
	}
}

func TestClosedEngines(t *testing.T) {
	closed, command := opened(t, "people.schemas.bson"), file(t, "insert.bson")
	for range [2]int{} {
		if err := closed.Close(); err != nil {
			t.Error(err)
		}
	}
	for _, engine := range []*Engine{closed, new(Engine)} {
		for _, call := range calls(engine) {
			bytesOf, err := call(command)
			if told := refusal(t, bytesOf, err); !reflect.DeepEqual(told, &Error{Status: NotOpen}) {
				t.Error(told)
			}
		}
	}
}

// failing is a source of random bytes that has none.
type failing struct{}

func (failing) Read([]byte) (int, error) {
	return 0, os.ErrDeadlineExceeded
}

func TestWithoutRandomBytesNothingIsSealed(t *testing.T) {
	engine, before := opened(t, "people.schemas.bson"), rand.Reader
	defer func() { rand.Reader = before }()
	rand.Reader = failing{}
	bytesOf, err := engine.Seal("hr", file(t, "insert.bson"))
	if told := refusal(t, bytesOf, err); told.Status != EntropyFault || !errors.Is(err, os.ErrDeadlineExceeded) {
		t.Error(told)
	}
}

func TestGoroutinesTakeTurns(t *testing.T) {
	engine, people := opened(t, "people.schemas.bson"), [8][]byte{}
	var all sync.WaitGroup
	for number := range people {
		people[number] = insert(document(text("ssn", fmt.Sprint(number)), text("salary", fmt.Sprint(number))))
		all.Add(1)
		go func(command []byte) {
			defer all.Done()
			for turn := 0; turn < 50; turn++ {
				bytesOf, err := engine.Seal("hr", command)
				if err != nil {
					t.Error(err)
				}
				if again, err := engine.Unseal(bytesOf); err != nil || !bytes.Equal(again, command) {
					t.Error("a command that was sealed and opened beside others is another", err)
				}
			}
		}(people[number])
	}
	all.Wait()
}

// Calls of all sorts on one engine: each answers as it does alone.
func TestCallsOfAllSortsTakeTurns(t *testing.T) {
	engine, command := opened(t, "people.schemas.bson"), file(t, "insert.bson")
	var all sync.WaitGroup
	for number, call := range calls(engine) {
		wanted, err := call(command)
		if err != nil {
			t.Fatal(err)
		}
		all.Add(1)
		go func(number int, call func([]byte) ([]byte, error)) {
			defer all.Done()
			for turn := 0; turn < 50; turn++ {
				bytesOf, err := call(command)
				if err != nil || len(bytesOf) != len(wanted) || number < 7 && !bytes.Equal(bytesOf, wanted) {
					t.Errorf("call %d answers otherwise beside others: %v", number, err)
				}
			}
		}(number, call)
	}
	all.Wait()
}

func TestCloseBesideCalls(t *testing.T) {
	engine, command := opened(t, "people.schemas.bson"), file(t, "insert.bson")
	wanted := sealed(t, engine, command)
	var all sync.WaitGroup
	for number := 0; number < 8; number++ {
		all.Add(1)
		go func() {
			defer all.Done()
			for {
				bytesOf, err := engine.Seal("hr", command)
				if err == nil && bytes.Equal(bytesOf, wanted) {
					continue
				}
				if told := (*Error)(nil); !errors.As(err, &told) || told.Status != NotOpen || bytesOf != nil {
					t.Error(err)
				}
				return
			}
		}()
	}
	engine.Close()
	all.Wait()
}
