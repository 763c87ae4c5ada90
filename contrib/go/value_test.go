package fle

import (
	"bytes"
	"crypto/rand"
	"errors"
	"os"
	"reflect"
	"strings"
	"testing"
)

// unsealed are the types of which MongoDB's specification lets no value be sealed, and uncompared those that the
// deterministic algorithm doesn't take.
const unsealed, uncompared = "\x06\x0a\x7f\xff", "\x01\x03\x04\x08\x0f\x13"

// value is a document of one element.
func value(tag byte, contents string) []byte {
	return document(element(tag, "v", []byte(contents)...))
}

func TestValuesOfEachType(t *testing.T) {
	engine, hr := opened(t, people[1]), vault(t)[0]
	for tag, contents := range values {
		for _, algorithm := range []Algorithm{Deterministic, Random} {
			plain := value(tag, contents)
			bytesOf, err := engine.SealValue(ByID(idOf(hr)), algorithm, plain)
			never := strings.Contains(unsealed, string(rune(tag))) || tag == 0xff
			if never || algorithm == Deterministic && strings.Contains(uncompared, string(rune(tag))) {
				expect(t, refusal(t, bytesOf, err), Refused, "TypeNotAllowed", "v")
				continue
			}
			if err != nil || len(bytesOf) > len(plain)+added {
				t.Fatalf("type %#x: %d bytes of %d, %v", tag, len(bytesOf), len(plain), err)
			}
			again, err := engine.Unseal(bytesOf)
			if err != nil || !bytes.Equal(again, plain) {
				t.Errorf("a value of type %#x comes back otherwise: %v", tag, err)
			}
		}
	}
}

func TestRandomValuesAreSealedOtherwiseEachTime(t *testing.T) {
	engine, plain := opened(t, people[1]), document(text("salary", "the same"))
	for algorithm, same := range map[Algorithm]bool{Deterministic: true, Random: false} {
		one, err := engine.SealValue(ByName("hr-key"), algorithm, plain)
		other, failed := engine.SealValue(ByName("hr-key"), algorithm, plain)
		if err != nil || failed != nil || bytes.Equal(one, other) != same {
			t.Errorf("random %v: %v, %v", algorithm, err, failed)
		}
	}
}

func TestRefusedValues(t *testing.T) {
	engine, id := opened(t, people[1]), idOf(vault(t)[0])
	payload := document(element(5, "v", append([]byte{1, 0, 0, 0, 6}, 1)...))
	plain := document(text("v", secret))
	for _, one := range []struct {
		key            Key
		document       []byte
		reason, fields string
	}{
		{ByID(id), document(), "BadField", ""},
		{ByID(id), document(text("v", secret), text("w", secret)), "BadField", ""},
		{ByID(id), payload, "AlreadyEncrypted", "v"},
		{ByID(make([]byte, 16)), plain, "KeyMissing", "v"},
		{ByName("none"), plain, "KeyMissing", "v"},
		{ByName(""), plain, "KeyMissing", "v"},
	} {
		for _, algorithm := range []Algorithm{Deterministic, Random} {
			bytesOf, err := engine.SealValue(one.key, algorithm, one.document)
			expect(t, refusal(t, bytesOf, err), Refused, one.reason, one.fields)
		}
	}
	bytesOf, err := engine.SealValue(ByID(id), Random, plain[:len(plain)-1])
	if told := refusal(t, bytesOf, err); told.Status != Malformed || told.Reason != "Short" {
		t.Error(told)
	}
	damaged, err := Open("hr", file(t, "keys.bson"), file(t, people[1]), make([]byte, 96))
	if err != nil {
		t.Fatal(err)
	}
	defer damaged.Close()
	bytesOf, err = damaged.SealValue(ByID(id), Deterministic, plain)
	expect(t, refusal(t, bytesOf, err), Refused, "KeyDamaged", "v")
}

func TestIdsOfAnotherLength(t *testing.T) {
	engine := opened(t, people[1])
	for _, key := range []Key{{}, ByID(nil), ByID(make([]byte, 15)), ByID(make([]byte, 17))} {
		bytesOf, err := engine.SealValue(key, Random, document(text("v", secret)))
		if told := refusal(t, bytesOf, err); !reflect.DeepEqual(told, &Error{Status: NoId}) {
			t.Error(told)
		}
		bytesOf, err = engine.KeyWanted(key)
		if told := refusal(t, bytesOf, err); !reflect.DeepEqual(told, &Error{Status: NoId}) {
			t.Error(told)
		}
	}
}

// A key is another one's if the bytes that it was made of change, and stays what it was.
func TestAKeyKeepsItsId(t *testing.T) {
	engine, id := opened(t, people[1]), append([]byte(nil), idOf(vault(t)[0])...)
	key := ByID(id)
	id[0] ^= 1
	if filter, err := engine.KeyWanted(key); filter != nil || err != nil {
		t.Errorf("%x, %v", filter, err)
	}
}

func TestDeterministicValuesDrawNoRandomBytes(t *testing.T) {
	engine, before, plain := opened(t, people[1]), rand.Reader, document(text("v", secret))
	defer func() { rand.Reader = before }()
	rand.Reader = failing{}
	if _, err := engine.SealValue(ByName("hr-key"), Deterministic, plain); err != nil {
		t.Error(err)
	}
	bytesOf, err := engine.SealValue(ByName("hr-key"), Random, plain)
	if told := refusal(t, bytesOf, err); told.Status != EntropyFault || !errors.Is(err, os.ErrDeadlineExceeded) {
		t.Error(told)
	}
}
