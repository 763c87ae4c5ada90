package fle

import (
	"bytes"
	"reflect"
	"testing"
	"time"
)

// started is an engine without infos and keys, under the examples' master key; it is closed when the test ends.
func started(t testing.TB) *Engine {
	t.Helper()
	engine, err := Start(file(t, "EXAMPLE-ONLY.master"))
	if err != nil {
		t.Fatal(err)
	}
	t.Cleanup(func() { engine.Close() })
	return engine
}

// done fails where a call came to an error.
func done(t testing.TB, errs ...error) {
	t.Helper()
	for _, err := range errs {
		if err != nil {
			t.Fatal(err)
		}
	}
}

// told is an engine that was started, and told of people in hr, and of its key.
func told(t testing.TB) *Engine {
	t.Helper()
	engine := started(t)
	done(t, engine.PutInfo("hr", file(t, people[1])), engine.PutKey(vault(t)[0]))
	return engine
}

// bare is the info that tells of a collection that it has none.
func bare(collection string) []byte {
	return document(text("name", collection))
}

// unnamed is an insert into people that names no database, and so may be sent to any.
func unnamed() []byte {
	return document(text("insert", "people"), element(4, "documents", array([][]byte{document(text("ssn", secret))})...))
}

// sealsAs fails where an engine doesn't seal the insert of the examples as the one that was opened does.
func sealsAs(t testing.TB, engine *Engine) {
	t.Helper()
	if !bytes.Equal(sealed(t, engine, file(t, people[0])), sealed(t, opened(t, people[1]), file(t, people[0]))) {
		t.Error("a command is sealed otherwise than by an engine that was opened")
	}
}

// isUntold fails where a command isn't refused for want of an info, with nothing written.
func isUntold(t *testing.T, engine *Engine, db string, command []byte) {
	t.Helper()
	bytesOf, err := engine.Seal(db, command)
	expect(t, refusal(t, bytesOf, err), NoInfo, "", "")
	bytesOf, err = engine.Mark(db, command)
	expect(t, refusal(t, bytesOf, err), NoInfo, "", "")
	bytesOf, _, err = engine.KeysWanted(db, command)
	expect(t, refusal(t, bytesOf, err), NoInfo, "", "")
}

func TestACollectionThatWasNotToldIsNotSealed(t *testing.T) {
	engine, ping := started(t), file(t, "ping.bson")
	isUntold(t, engine, "hr", file(t, people[0]))
	isUntold(t, engine, "hr", file(t, clients[0]))
	isUntold(t, engine, "", unnamed())
	if !bytes.Equal(sealed(t, engine, ping), ping) {
		t.Error("a command that passes is another")
	}
	for name, reason := range map[string][2]string{
		"unknown-command": {"NotACommand", "aggregate"}, "wrong-database": {"WrongDb", "$db"},
	} {
		bytesOf, err := engine.Seal("hr", file(t, "refused/"+name+".bson"))
		expect(t, refusal(t, bytesOf, err), Refused, reason[0], reason[1])
	}
}

// What a driver does: it asks for the info and for the keys, and puts what comes.
func TestAnEngineIsToldWhatItAsksFor(t *testing.T) {
	engine, command := started(t), file(t, people[0])
	filter, err := engine.InfoWanted("hr", command)
	filtered(t, filter, err, bare("people"))
	done(t, engine.PutInfo("hr", file(t, people[1])))
	filter, _, err = engine.KeysWanted("hr", command)
	filtered(t, filter, err, keyFilter([][]byte{idOf(vault(t)[0])}))
	bytesOf, err := engine.Seal("hr", command)
	expect(t, refusal(t, bytesOf, err), Refused, "KeyMissing", "documents 0 ssn")
	done(t, engine.PutKey(vault(t)[0]))
	filter, _, err = engine.KeysWanted("hr", command)
	filtered(t, filter, err, nil)
	sealsAs(t, engine)
	comesBack(t, engine, command)
}

// A filter of InfoWanted is the info of a collection that has none.
func TestACollectionWithoutAnInfoHasNoRules(t *testing.T) {
	engine, command := started(t), file(t, people[0])
	filter, err := engine.InfoWanted("hr", command)
	done(t, err, engine.PutInfo("hr", filter))
	if !bytes.Equal(sealed(t, engine, command), command) {
		t.Error("a command that no rule protects is another")
	}
}

func TestDatabasesHaveInfosOfTheirOwn(t *testing.T) {
	engine := told(t)
	isUntold(t, engine, "pay", unnamed())
	isUntold(t, engine, "h", unnamed())
	done(t, engine.PutInfo("pay", bare("people")))
	plain, err := engine.Seal("pay", unnamed())
	if err != nil || !bytes.Equal(plain, unnamed()) {
		t.Error("rules of hr hold for pay", err)
	}
	sealsAs(t, engine)
	done(t, engine.PutInfo("hr", bare("people")), engine.PutInfo("pay", file(t, people[1])))
	bytesOf, err := engine.Seal("pay", unnamed())
	if err != nil || bytes.Contains(bytesOf, []byte(secret)) {
		t.Error("rules that were put don't hold", err)
	}
	done(t, engine.ForgetInfo("hr", "people"))
	isUntold(t, engine, "hr", unnamed())
	again, err := engine.Seal("pay", unnamed())
	if err != nil || !bytes.Equal(again, bytesOf) {
		t.Error("rules of pay went with those of hr", err)
	}
}

func TestWhatIsForgotten(t *testing.T) {
	engine, command := told(t), file(t, people[0])
	done(t, engine.ForgetInfo("hr", "peopl"), engine.ForgetInfo("pay", "people"))
	sealsAs(t, engine)
	for _, forget := range []func() error{
		func() error { return engine.ForgetInfo("hr", "people") }, engine.ForgetInfos,
	} {
		done(t, forget(), forget())
		isUntold(t, engine, "hr", command)
		done(t, engine.PutInfo("hr", file(t, people[1])))
		sealsAs(t, engine)
	}
	done(t, engine.ForgetKeys(), engine.ForgetKeys())
	bytesOf, err := engine.Seal("hr", command)
	expect(t, refusal(t, bytesOf, err), Refused, "KeyMissing", "documents 0 ssn")
	done(t, engine.PutKey(vault(t)[1]), engine.PutKey(vault(t)[0]))
	sealsAs(t, engine)
}

// A key that was forgotten gives way to another one of its id.
func TestAnotherKeyOfAnId(t *testing.T) {
	engine, key := told(t), vault(t)[0]
	before := sealed(t, engine, file(t, people[0]))
	other, err := engine.MakeKey(time.Now())
	if err != nil {
		t.Fatal(err)
	}
	copy(idOf(other), idOf(key))
	told := refusal(t, nil, engine.PutKey(other))
	if !reflect.DeepEqual(told, &Error{Status: Setup, Reason: "IdTwice", Number: 25, File: "keys", Place: 1}) {
		t.Error(told)
	}
	sealsAs(t, engine)
	done(t, engine.ForgetKeys(), engine.PutKey(other))
	if bytes.Equal(sealed(t, engine, file(t, people[0])), before) {
		t.Error("a key that was forgotten seals")
	}
}

func TestWhatIsFaultyLeavesAllAsItWas(t *testing.T) {
	engine, info, key := told(t), file(t, people[1]), vault(t)[0]
	spoiled := bytes.Replace(info, []byte("AES_256"), []byte("AES_257"), 1)
	for _, one := range []struct {
		err    error
		wanted Error
	}{
		{engine.PutInfo("hr", nil), Error{Reason: "Bson", Number: 30, File: "infos"}},
		{engine.PutInfo("hr", info[:len(info)-1]), Error{Reason: "Bson", Number: 30, File: "infos"}},
		{engine.PutInfo("hr", append(info[:len(info):len(info)], info...)), Error{Reason: "Bson", Number: 30, File: "infos"}},
		{engine.PutInfo("hr", document()), Error{Reason: "Shape", Number: 31, File: "infos"}},
		{engine.PutInfo("hr", spoiled), Error{Reason: "Algorithm", Number: 47, File: "infos"}},
		{engine.PutKey(nil), Error{Reason: "Bson", Number: 20, File: "keys"}},
		{engine.PutKey(key[:len(key)-1]), Error{Reason: "Bson", Number: 20, File: "keys"}},
		{engine.PutKey(document()), Error{Reason: "Id", Number: 21, File: "keys"}},
	} {
		one.wanted.Status, one.wanted.Place = Setup, 1
		if told := refusal(t, nil, one.err); !reflect.DeepEqual(told, &one.wanted) {
			t.Errorf("%+v in place of %+v", *told, one.wanted)
		}
		sealsAs(t, engine)
	}
	done(t, engine.PutKey(key), engine.PutInfo("hr", info))
	sealsAs(t, engine)
}

func TestAnEngineOfOneDatabase(t *testing.T) {
	engine, command := opened(t, people[1]), file(t, clients[0])
	expect(t, refusal(t, nil, engine.PutInfo("pay", bare("people"))), Refused, "WrongDb", "")
	done(t, engine.ForgetInfo("pay", "people"))
	sealsAs(t, engine)
	if !bytes.Equal(sealed(t, engine, command), command) {
		t.Error("a collection without an info has rules")
	}
	done(t, engine.ForgetInfo("hr", "people"))
	if plain := file(t, people[0]); !bytes.Equal(sealed(t, engine, plain), plain) {
		t.Error("a collection whose info was forgotten has rules")
	}
}

func TestWithoutAMasterKey(t *testing.T) {
	engine, err := Start(nil)
	if err != nil {
		t.Fatal(err)
	}
	defer engine.Close()
	command := file(t, people[0])
	isNotOpen := func(bytesOf []byte, err error) {
		t.Helper()
		expect(t, refusal(t, bytesOf, err), NotOpen, "", "")
	}
	isNotOpen(engine.Seal("hr", command))
	done(t, engine.PutInfo("hr", file(t, people[1])))
	filter, _, err := engine.KeysWanted("hr", command)
	filtered(t, filter, err, keyFilter([][]byte{idOf(vault(t)[0])}))
	done(t, engine.PutKey(vault(t)[0]))
	filter, _, err = engine.KeysWanted("hr", command)
	filtered(t, filter, err, nil)
	wanted, err := opened(t, people[1]).Mark("hr", command)
	done(t, err)
	if reply, err := engine.Mark("hr", command); err != nil || !bytes.Equal(reply, wanted) {
		t.Error("an engine with a master key marks otherwise", err)
	}
	isNotOpen(engine.Seal("hr", command))
	isNotOpen(engine.Unseal(command))
	isNotOpen(engine.SealValue(ByName("hr-key"), Random, document(text("v", secret))))
	isNotOpen(engine.MakeKey(time.Now()))
	isNotOpen(engine.RewrapKey(other, vault(t)[0], time.Now()))
}

func TestMasterKeysThatStartNoEngine(t *testing.T) {
	for _, one := range []struct {
		master []byte
		wanted Error
	}{
		{other[1:], Error{Status: Setup, Reason: "Length", Number: 10, File: "master"}},
		{bytes.Repeat([]byte("="), 128), Error{Status: Setup, Reason: "Base64", Number: 11, File: "master"}},
		{make([]byte, 130), Error{Status: Setup, Reason: "TooLong", Number: 2, File: "master"}},
	} {
		engine, err := Start(one.master)
		if told := refusal(t, nil, err); engine != nil || !reflect.DeepEqual(told, &one.wanted) {
			t.Errorf("%+v in place of %+v", *told, one.wanted)
		}
	}
}

func TestClosedEnginesAreToldNothing(t *testing.T) {
	closed := told(t)
	closed.Close()
	for _, engine := range []*Engine{closed, new(Engine)} {
		for _, err := range []error{
			engine.PutInfo("hr", bare("people")), engine.PutKey(vault(t)[0]), engine.ForgetInfo("hr", "people"),
			engine.ForgetInfos(), engine.ForgetKeys(),
		} {
			expect(t, refusal(t, nil, err), NotOpen, "", "")
		}
	}
}
