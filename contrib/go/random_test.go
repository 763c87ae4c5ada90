package fle

import (
	"bytes"
	"errors"
	"math/rand"
	"os"
	"path/filepath"
	"strings"
	"testing"
	"testing/quick"
)

// tried are the examples' commands.
var tried = []string{"insert.bson", "find.bson", "delete.bson", "ping.bson"}

// isTold fails where a call came to an error that isn't an Error of a document, or that names a value, or a place that
// has no field.
func isTold(t testing.TB, bytesOf []byte, err error) {
	t.Helper()
	told := (*Error)(nil)
	if !errors.As(err, &told) || bytesOf != nil {
		t.Fatalf("%d bytes and %v in place of an Error", len(bytesOf), err)
	}
	if told.Status != Refused && told.Status != Malformed && told.Status != Limit || told.Reason == "" {
		t.Errorf("%v, %s", told.Status, told.Reason)
	}
	if told.Status == Refused && (told.Place == 0) != (told.Fields == nil) {
		t.Errorf("%s at %d has the fields %q", told.Reason, told.Place, told.Fields)
	}
	if strings.Contains(told.Error(), secret) {
		t.Error("a message has a value")
	}
}

func TestFrontsAreShort(t *testing.T) {
	engine := opened(t, "people.schemas.bson")
	for _, name := range tried {
		command := file(t, name)
		for _, whole := range [][]byte{command, sealed(t, engine, command)} {
			for cut := 0; cut < len(whole); cut++ {
				for _, call := range []func([]byte) ([]byte, error){sealing(engine), engine.Unseal} {
					bytesOf, err := call(whole[:cut])
					told := refusal(t, bytesOf, err)
					if told.Status != Malformed || told.Reason != "Short" || told.Place != cut {
						t.Fatalf("%s cut to %d bytes: %v", name, cut, told)
					}
				}
			}
		}
	}
}

func TestBytesBehindADocument(t *testing.T) {
	engine, command := opened(t, "people.schemas.bson"), file(t, "insert.bson")
	for _, call := range []func([]byte) ([]byte, error){sealing(engine), engine.Unseal} {
		bytesOf, err := call(append(command[:len(command):len(command)], 0))
		if told := refusal(t, bytesOf, err); told.Reason != "Extra" || told.Place != len(command) {
			t.Error(told)
		}
	}
}

// flipped is a document with one bit changed.
func flipped(document []byte, at uint16, bit uint8) ([]byte, int) {
	spoiled, place := append([]byte(nil), document...), int(at)%len(document)
	spoiled[place] ^= 1 << (bit % 8)
	return spoiled, place
}

func seeded(turns int) *quick.Config {
	return &quick.Config{MaxCount: turns, Rand: rand.New(rand.NewSource(1))}
}

// A command with one bit changed comes to an Error, or is sealed and comes back.
func TestFlippedCommands(t *testing.T) {
	engine, commands := opened(t, "people.schemas.bson"), [][]byte{insert(document(text("salary", secret)))}
	for _, name := range tried {
		commands = append(commands, file(t, name))
	}
	comeBack := func(number uint8, at uint16, bit uint8) bool {
		spoiled, _ := flipped(commands[int(number)%len(commands)], at, bit)
		bytesOf, err := engine.Seal("hr", spoiled)
		if err != nil {
			isTold(t, bytesOf, err)
			return true
		}
		again, err := engine.Unseal(bytesOf)
		return err == nil && bytes.Equal(again, spoiled)
	}
	if err := quick.Check(comeBack, seeded(3000)); err != nil {
		t.Error(err)
	}
}

// A sealed command with one bit of its payload changed shows nothing of the value.
func TestFlippedPayloads(t *testing.T) {
	engine := opened(t, "people.schemas.bson")
	whole := sealed(t, engine, file(t, "insert.bson"))
	first, behind := bytes.Index(whole, []byte("ssn\x00"))+4+5, bytes.Index(whole, []byte("\x10n\x00"))
	hides := func(at uint16, bit uint8) bool {
		spoiled, place := flipped(whole, at, bit)
		bytesOf, err := engine.Unseal(spoiled)
		if err != nil {
			isTold(t, bytesOf, err)
		}
		return place < first || place >= behind || !bytes.Contains(bytesOf, []byte(secret))
	}
	if err := quick.Check(hides, seeded(3000)); err != nil {
		t.Error(err)
	}
}

// Whatever the bytes are, a call comes to an Error or to bytes, and what is sealed of a command without payloads comes
// back; the walk to a field ends.
func FuzzCalls(f *testing.F) {
	for _, folder := range []string{"*.bson", "refused/*.bson"} {
		names, err := filepath.Glob(examples + folder)
		if err != nil || len(names) == 0 {
			f.Fatal("no examples", err)
		}
		for _, name := range names {
			contents, err := os.ReadFile(name)
			if err != nil {
				f.Fatal(err)
			}
			f.Add(contents, 0)
			f.Add(contents, len(contents)/2)
		}
	}
	engine := opened(f, "people.schemas.bson")
	f.Add(sealed(f, engine, file(f, "insert.bson")), 60)
	f.Fuzz(func(t *testing.T, bytesOf []byte, offset int) {
		fieldsAt(bytesOf, offset)
		plain, err := engine.Unseal(bytesOf)
		if err != nil {
			isTold(t, plain, err)
		}
		command, failed := engine.Seal("hr", bytesOf)
		if failed != nil {
			isTold(t, command, failed)
		} else if err == nil && bytes.Equal(plain, bytesOf) {
			comesBack(t, engine, bytesOf)
		}
	})
}
