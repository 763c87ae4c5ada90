package fle

import (
	"bytes"
	"crypto/rand"
	"encoding/binary"
	"encoding/hex"
	"io"
	"reflect"
	"strconv"
	"testing"
)

// people and clients are an insert of the examples into each collection, with their infos: the first wants a key by its
// id, the second two keys by their names.
var people, clients = [2]string{"insert.bson", "people.schemas.bson"}, [2]string{
	"insert-clients.bson", "clients.schemas.json"}

// vault are the key documents of the examples: that of hr-key, and that of finance, which is audit too.
func vault(t testing.TB) (documents [][]byte) {
	t.Helper()
	for rest := file(t, "keys.bson"); len(rest) > 0; {
		length := binary.LittleEndian.Uint32(rest)
		documents, rest = append(documents, rest[:length]), rest[length:]
	}
	if len(documents) != 2 {
		t.Fatalf("%d keys in the examples", len(documents))
	}
	return documents
}

// idOf is the id of a key document of the examples, which begins with it.
func idOf(document []byte) []byte {
	begin := 4 + len("\x05_id\x00") + 5
	return document[begin : begin+16]
}

// withKeys is an engine of these keys of the examples; it is closed when the test ends.
func withKeys(t testing.TB, infos string, keys ...[]byte) *Engine {
	t.Helper()
	engine, err := Open("hr", bytes.Join(keys, nil), file(t, infos), file(t, "EXAMPLE-ONLY.master"))
	if err != nil {
		t.Fatal(err)
	}
	t.Cleanup(func() { engine.Close() })
	return engine
}

// keyFilter is the filter of the keys of these ids and of these names.
func keyFilter(ids [][]byte, names ...string) []byte {
	var byID, byName [][]byte
	for number, id := range ids {
		byID = append(byID, element(5, strconv.Itoa(number), append([]byte{16, 0, 0, 0, 4}, id...)...))
	}
	for number, name := range names {
		byName = append(byName, text(strconv.Itoa(number), name))
	}
	one := document(element(3, "_id", document(element(4, "$in", document(byID...)...))...))
	other := document(element(3, "keyAltNames", document(element(4, "$in", document(byName...)...))...))
	return document(element(4, "$or", array([][]byte{one, other})...))
}

// filtered fails where a call came to an error, or to another filter than this one.
func filtered(t testing.TB, filter []byte, err error, wanted []byte) {
	t.Helper()
	if err != nil || !bytes.Equal(filter, wanted) || (filter == nil) != (wanted == nil) {
		t.Errorf("the filter %x and %v in place of %x", filter, err, wanted)
	}
}

// libmongocrypt 1.7.2 asked with these bytes for the keys of examples/insert.bson, and of examples/insert-clients.bson
// as it was sealed and to be opened; it lists the last needed first.
func TestFiltersHaveTheFormOfLibmongocrypt(t *testing.T) {
	first, second := idOf(vault(t)[0]), idOf(vault(t)[1])
	for _, one := range []struct {
		filter   []byte
		recorded string
	}{
		{keyFilter([][]byte{first}),
			"6700000004246f72005d00000003300031000000035f696400270000000424696e001d00000005300010000000040011" +
				"2233445546778899aabbccddeeff00000003310021000000036b6579416c744e616d6573000f0000000424696e000500" +
				"00000000000000"},
		{keyFilter(nil, "finance", "hr-key"),
			"6c00000004246f72006200000003300019000000035f6964000f0000000424696e00050000000000000331003e000000" +
				"036b6579416c744e616d6573002c0000000424696e00220000000230000800000066696e616e63650002310007000000" +
				"68722d6b6579000000000000"},
		{keyFilter([][]byte{second, first}),
			"7f00000004246f72007500000003300049000000035f6964003f0000000424696e003500000005300010000000041011" +
				"12131415461798191a1b1c1d1e1f053100100000000400112233445546778899aabbccddeeff00000003310021000000" +
				"036b6579416c744e616d6573000f0000000424696e00050000000000000000"},
	} {
		if hex.EncodeToString(one.filter) != one.recorded {
			t.Errorf("%x in place of %s", one.filter, one.recorded)
		}
	}
}

func TestKeysWantedAreThoseLacking(t *testing.T) {
	keys := vault(t)
	hr, finance := keys[0], keys[1]
	for _, one := range []struct {
		command [2]string
		keys    [][]byte
		wanted  []byte
	}{
		{people, nil, keyFilter([][]byte{idOf(hr)})},
		{people, [][]byte{finance}, keyFilter([][]byte{idOf(hr)})},
		{people, [][]byte{hr}, nil},
		{clients, nil, keyFilter(nil, "hr-key", "finance")},
		{clients, [][]byte{hr}, keyFilter(nil, "finance")},
		{clients, [][]byte{finance}, keyFilter(nil, "hr-key")},
		{clients, keys, nil},
	} {
		filter, _, err := withKeys(t, one.command[1], one.keys...).KeysWanted("hr", file(t, one.command[0]))
		filtered(t, filter, err, one.wanted)
	}
	filter, random, err := withKeys(t, people[1]).KeysWanted("hr", file(t, "ping.bson"))
	filtered(t, filter, err, nil)
	if random != 0 {
		t.Errorf("a command that passes wants %d random bytes", random)
	}
}

func TestKeysWantedToOpenAreThoseLacking(t *testing.T) {
	keys := vault(t)
	hr, finance := keys[0], keys[1]
	document := sealed(t, withKeys(t, clients[1], keys...), file(t, clients[0]))
	for _, one := range []struct {
		keys   [][]byte
		wanted []byte
	}{
		{nil, keyFilter([][]byte{idOf(hr), idOf(finance)})}, {[][]byte{hr}, keyFilter([][]byte{idOf(finance)})},
		{[][]byte{finance}, keyFilter([][]byte{idOf(hr)})}, {keys, nil},
	} {
		filter, err := withKeys(t, clients[1], one.keys...).KeysWantedToOpen(document)
		filtered(t, filter, err, one.wanted)
	}
	filter, err := withKeys(t, clients[1]).KeysWantedToOpen(file(t, clients[0]))
	filtered(t, filter, err, nil)
	filter, err = withKeys(t, people[1]).KeysWantedToOpen(file(t, "refused/sealed-value.bson"))
	expect(t, refusal(t, filter, err), Refused, "PayloadShape", "documents 0 salary")
}

func TestKeyWanted(t *testing.T) {
	hr := vault(t)[0]
	for _, one := range []struct {
		key          Key
		there, apart []byte
	}{
		{ByID(idOf(hr)), nil, keyFilter([][]byte{idOf(hr)})}, {ByName("hr-key"), nil, keyFilter(nil, "hr-key")},
		{ByName("none"), keyFilter(nil, "none"), keyFilter(nil, "none")},
	} {
		filter, err := withKeys(t, people[1], hr).KeyWanted(one.key)
		filtered(t, filter, err, one.there)
		filter, err = withKeys(t, people[1]).KeyWanted(one.key)
		filtered(t, filter, err, one.apart)
	}
}

// The collection's info that libmongocrypt 1.7.2 asked for with these commands; none where it asks for none.
func TestInfoWanted(t *testing.T) {
	engine := withKeys(t, people[1])
	for command, wanted := range map[string][]byte{
		"insert.bson": []byte("\x16\x00\x00\x00\x02name\x00\x07\x00\x00\x00people\x00\x00"), "ping.bson": nil,
		"insert-clients.bson": []byte("\x17\x00\x00\x00\x02name\x00\x08\x00\x00\x00clients\x00\x00"),
	} {
		filter, err := engine.InfoWanted("hr", file(t, command))
		filtered(t, filter, err, wanted)
	}
	filter, err := engine.InfoWanted("hr", file(t, "refused/null-value.bson"))
	filtered(t, filter, err, document(text("name", "people")))
	for name, reason := range map[string][2]string{
		"unknown-command": {"NotACommand", "aggregate"}, "wrong-database": {"WrongDb", "$db"},
	} {
		filter, err := engine.InfoWanted("hr", file(t, "refused/"+name+".bson"))
		expect(t, refusal(t, filter, err), Refused, reason[0], reason[1])
	}
}

// Of a command that is refused Mark and KeysWanted say what Seal says, but that a key is missing.
func TestRefusalsAreThoseOfSeal(t *testing.T) {
	for _, one := range refused {
		engine, command := opened(t, one.infos), file(t, "refused/"+one.file+".bson")
		_, sealing := engine.Seal("hr", command)
		reply, marking := engine.Mark("hr", command)
		filter, random, asking := engine.KeysWanted("hr", command)
		if one.reason == "KeyMissing" {
			if marking != nil || asking != nil || len(reply) == 0 || len(filter) == 0 || random != 16 {
				t.Errorf("%s: %v, %v", one.file, marking, asking)
			}
			continue
		}
		for _, err := range []error{marking, asking} {
			if reply != nil || filter != nil || !reflect.DeepEqual(err, sealing) {
				t.Errorf("%s: %v in place of %v", one.file, err, sealing)
			}
		}
	}
}

func TestACommandOfAnotherDatabase(t *testing.T) {
	engine, command := opened(t, people[1]), file(t, people[0])
	for _, db := range []string{"", "h", "HR", "hrx"} {
		reply, err := engine.Mark(db, command)
		expect(t, refusal(t, reply, err), Refused, "WrongDb", "")
		filter, err := engine.InfoWanted(db, command)
		expect(t, refusal(t, filter, err), Refused, "WrongDb", "")
		filter, _, err = engine.KeysWanted(db, command)
		expect(t, refusal(t, filter, err), Refused, "WrongDb", "")
		bytesOf, err := engine.Seal(db, command)
		expect(t, refusal(t, bytesOf, err), Refused, "WrongDb", "")
	}
}

// counting are the random bytes of another source, and how many each reading took.
type counting struct {
	io.Reader
	taken []int
}

func (source *counting) Read(bytes []byte) (int, error) {
	source.taken = append(source.taken, len(bytes))
	return source.Reader.Read(bytes)
}

// Seal begins with 256 random bytes; where they are too few it draws once more, exactly as many as KeysWanted tells: 16
// for each value of the random algorithm.
func TestRandomBytesAreThoseTold(t *testing.T) {
	engine, source, before := opened(t, people[1]), &counting{Reader: rand.Reader}, rand.Reader
	defer func() { rand.Reader = before }()
	rand.Reader = source
	for count, wanted := range map[int][]int{0: {256}, 16: {256}, 17: {256, 272}, 300: {256, 4800}} {
		people := [][]byte{document(text("ssn", secret))}
		for number := 0; number < count; number++ {
			people = append(people, document(text("salary", "the same")))
		}
		source.taken = nil
		command := insert(people...)
		comesBack(t, engine, command)
		filter, random, err := engine.KeysWanted("hr", command)
		filtered(t, filter, err, nil)
		if random != 16*count || !reflect.DeepEqual(source.taken, wanted) {
			t.Errorf("%d random values: %d told, %d drawn", count, random, source.taken)
		}
	}
}

// A reply needs no keys, and has more room than the first where it wants it.
func TestMarkWithoutKeys(t *testing.T) {
	engine, err := Open("hr", nil, file(t, people[1]), make([]byte, 96))
	if err != nil {
		t.Fatal(err)
	}
	defer engine.Close()
	for _, count := range []int{1, 400} {
		var people [][]byte
		for number := 0; number < count; number++ {
			people = append(people, document(text("ssn", strconv.Itoa(number))))
		}
		command := insert(people...)
		reply, err := engine.Mark("hr", command)
		if err != nil || bytes.Count(reply, []byte("AEAD")) != 0 || bytes.Count(reply, []byte("\x05ssn\x00")) != count {
			t.Errorf("%d values: %d bytes, %v", count, len(reply), err)
		}
		other, err := opened(t, "people.schemas.bson").Mark("hr", command)
		if err != nil || !bytes.Equal(other, reply) {
			t.Error("an engine with keys marks otherwise", err)
		}
	}
}
