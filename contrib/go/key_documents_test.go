package fle

import (
	"bytes"
	"os"
	"regexp"
	"strings"
	"testing"
	"time"
)

// other is a master key that no key of the examples is sealed under.
var other = bytes.Repeat([]byte{7}, 96)

// ofKeys is an engine of these key documents under this master key.
func ofKeys(t *testing.T, keys, master []byte) *Engine {
	t.Helper()
	engine, err := Open("hr", keys, file(t, people[1]), master)
	if err != nil {
		t.Fatal(err)
	}
	t.Cleanup(func() { engine.Close() })
	return engine
}

func TestANewKeySealsByItsNames(t *testing.T) {
	master, plain := file(t, "EXAMPLE-ONLY.master"), document(text("v", secret))
	maker, seen := ofKeys(t, nil, master), map[string]bool{}
	for _, names := range [][]string{{"one", "\u00e9"}, nil, {"one", strings.Repeat("x", 70_000)}} {
		key, err := maker.MakeKey(time.Now(), names...)
		if err != nil || seen[string(idOf(key))] {
			t.Fatalf("%d names: %v, or an id that was there", len(names), err)
		}
		seen[string(idOf(key))] = true
		engine := ofKeys(t, key, master)
		byID, err := engine.SealValue(ByID(idOf(key)), Deterministic, plain)
		if err != nil {
			t.Fatal(err)
		}
		for _, name := range names {
			sealed, err := engine.SealValue(ByName(name), Deterministic, plain)
			if err != nil || !bytes.Equal(sealed, byID) {
				t.Errorf("a name leads to another key than its id: %v", err)
			}
		}
	}
}

func TestAKeyKeepsItsBytesUnderAnotherMasterKey(t *testing.T) {
	engine, plain := opened(t, people[1]), document(text("v", secret))
	for _, key := range vault(t) {
		rewrapped, err := engine.RewrapKey(other, key, time.UnixMilli(0))
		if err != nil || len(rewrapped) != len(key) || bytes.Equal(rewrapped, key) {
			t.Fatalf("%d bytes of %d, %v", len(rewrapped), len(key), err)
		}
		want, err := engine.SealValue(ByID(idOf(key)), Deterministic, plain)
		if err != nil {
			t.Fatal(err)
		}
		came, err := ofKeys(t, rewrapped, other).SealValue(ByID(idOf(key)), Deterministic, plain)
		if err != nil || !bytes.Equal(came, want) {
			t.Errorf("another data key came out: %v", err)
		}
	}
}

func TestKeyDocumentsThatAreRefused(t *testing.T) {
	engine, key := opened(t, people[1]), vault(t)[0]
	for _, names := range [][]string{{"a", "a"}, {""}, {"\xff"}, make([]string, 1_001)} {
		bytesOf, err := engine.MakeKey(time.Now(), names...)
		expect(t, refusal(t, bytesOf, err), NoNames, "", "")
	}
	bytesOf, err := engine.RewrapKey(other[1:], key, time.Now())
	if told := refusal(t, bytesOf, err); told.Status != Setup || told.File != "master" {
		t.Error(told)
	}
	bytesOf, err = engine.RewrapKey(other, document(), time.Now())
	if told := refusal(t, bytesOf, err); told.Status != Setup || told.File != "keys" || told.Place != 1 {
		t.Error(told)
	}
	bytesOf, err = engine.RewrapKey(other, key[:9], time.Now())
	if told := refusal(t, bytesOf, err); told.Status != Malformed {
		t.Error(told)
	}
	bytesOf, err = ofKeys(t, nil, other).RewrapKey(other, key, time.Now())
	expect(t, refusal(t, bytesOf, err), Refused, "KeyDamaged", "")
	engine.Close()
	for _, call := range []func() ([]byte, error){
		func() ([]byte, error) { return engine.MakeKey(time.Now()) },
		func() ([]byte, error) { return engine.RewrapKey(other, key, time.Now()) },
	} {
		bytesOf, err := call()
		expect(t, refusal(t, bytesOf, err), NotOpen, "", "")
	}
}

func TestVersionIsTheHeaders(t *testing.T) {
	header, err := os.ReadFile("../c/fle.h")
	if err != nil {
		t.Fatal(err)
	}
	said := regexp.MustCompile(`FLE_VERSION "(.*)"`).FindSubmatch(header)
	if said == nil || Version() != string(said[1]) {
		t.Errorf("%q", Version())
	}
}
