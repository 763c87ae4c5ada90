package fle

import (
	"bytes"
	"crypto/rand"
	"encoding/binary"
	"errors"
	"os"
	"reflect"
	"testing"
	"time"
)

// recording is what .ci/library --record wrote: calls, as contrib/c/tests/calls.c reads them, and what each has to
// answer, by the second program of the rules and of the sealing.
type recording struct {
	said, told []byte
}

// recorded is the recording in the file that FLE_CALLS names.
func recorded(t *testing.T) *recording {
	t.Helper()
	name := os.Getenv("FLE_CALLS")
	if name == "" {
		t.Skip("FLE_CALLS names no file of .ci/library --record")
	}
	whole, err := os.ReadFile(name)
	if err != nil {
		t.Fatal(err)
	}
	behind := 8 + binary.LittleEndian.Uint64(whole)
	return &recording{said: whole[8:behind], told: whole[behind:]}
}

// take is so many bytes at the front of these, which lose them.
func take(from *[]byte, count int) []byte {
	taken := (*from)[:count:count]
	*from = (*from)[count:]
	return taken
}

func takeNumber(from *[]byte) int {
	return int(binary.LittleEndian.Uint64(take(from, 8)))
}

// recordedCall is a call: its letter, its arguments, and what it has to answer.
type recordedCall struct {
	letter byte
	in     [][]byte
	wanted struct {
		status             Status
		reason             uint32
		file, place, count int
		random             int
		out                []byte
	}
}

// arguments are how many bytes' arguments each call has; roomless are the calls that write none.
var arguments = map[byte]int{'o': 5, 'v': 4, 'r': 4, 's': 3, 'g': 3, 'u': 1, 'd': 1, 'q': 1, 'c': 0, 'x': 0, 'y': 0,
	'z': 0, 'b': 2, 'p': 2, 'f': 2, 'm': 2, 'k': 2, 'i': 2, 'w': 2}

const roomless = "obpfxqyc"

// next is the call at the front; fle_needed, which this package hasn't, is passed over.
func (calls *recording) next() *recordedCall {
	for len(calls.said) > 0 && calls.said[0] == 'n' {
		take(&calls.said, 9)
		take(&calls.told, 16)
	}
	if len(calls.said) == 0 {
		return nil
	}
	call := &recordedCall{letter: take(&calls.said, 1)[0]}
	for range make([]struct{}, arguments[call.letter]) {
		call.in = append(call.in, take(&calls.said, takeNumber(&calls.said)))
	}
	room := 0
	if !bytes.ContainsRune([]byte(roomless), rune(call.letter)) {
		room = takeNumber(&calls.said)
	}
	if call.letter != 'c' {
		call.read(&calls.told, room)
	}
	return call
}

// read takes what the call has to answer, and what has to stand in so much room.
func (call *recordedCall) read(told *[]byte, room int) {
	wanted := &call.wanted
	wanted.status, wanted.reason = Status(takeNumber(told)), uint32(takeNumber(told))
	wanted.file, wanted.place = takeNumber(told), takeNumber(told)
	wanted.count, wanted.random = takeNumber(told), takeNumber(told)
	wanted.out = take(told, room)
}

// isAskedAgain says that the call had too little room or too few blocks: then a method asks once more.
func (call *recordedCall) isAskedAgain() bool {
	return call.wanted.status == 7 || call.wanted.status == 10
}

// number is an argument of eight bytes.
func (call *recordedCall) number(at int) int64 {
	return int64(binary.LittleEndian.Uint64(call.in[at]))
}

func (call *recordedCall) key() Key {
	return Key{named: call.in[0][0] == 1, name: string(call.in[1])}
}

// handedIn gives these bytes at each reading, and zeros behind them.
type handedIn []byte

func (blocks handedIn) Read(into []byte) (int, error) {
	clear := copy(into, blocks)
	copy(into[clear:], make([]byte, len(into)-clear))
	return len(into), nil
}

// drawing has crypto/rand give these bytes until what it returns is called.
func drawing(blocks []byte) func() {
	before := rand.Reader
	rand.Reader = handedIn(blocks)
	return func() { rand.Reader = before }
}

// begin makes a call that opens or starts an engine; without one the closed engine stands in its place.
func (call *recordedCall) begin() (engine *Engine, err error) {
	if option := Option(call.number(0)); call.letter == 'o' {
		engine, err = Open(string(call.in[1]), call.in[2], call.in[3], call.in[4], option)
	} else {
		engine, err = Start(call.in[1], option)
	}
	if err != nil {
		engine = new(Engine)
	}
	return engine, err
}

// tell makes a call that tells an engine of infos and keys.
func (call *recordedCall) tell(engine *Engine) error {
	switch call.letter {
	case 'p':
		return engine.PutInfo(string(call.in[0]), call.in[1])
	case 'f':
		return engine.ForgetInfo(string(call.in[0]), string(call.in[1]))
	case 'q':
		return engine.PutKey(call.in[0])
	case 'x':
		return engine.ForgetInfos()
	}
	return engine.ForgetKeys()
}

// ask makes a call that draws no random bytes.
func (call *recordedCall) ask(engine *Engine) ([]byte, error) {
	db := string(call.in[0])
	switch call.letter {
	case 'u':
		return engine.Unseal(call.in[0])
	case 'm':
		return engine.Mark(db, call.in[1])
	case 'i':
		return engine.InfoWanted(db, call.in[1])
	case 'd':
		return engine.KeysWantedToOpen(call.in[0])
	case 'w':
		return engine.KeyWanted(call.key())
	}
	filter, random, err := engine.KeysWanted(db, call.in[1])
	if err == nil && random != call.wanted.random {
		return nil, errors.New("other random bytes are told")
	}
	return filter, err
}

// seal makes a call that draws the random bytes of its last argument.
func (call *recordedCall) seal(engine *Engine) ([]byte, error) {
	defer drawing(call.in[len(call.in)-1])()
	switch call.letter {
	case 's':
		return engine.Seal(string(call.in[0]), call.in[1])
	case 'v':
		return engine.SealValue(call.key(), Algorithm(call.in[0][1] == 1), call.in[2])
	case 'r':
		return engine.RewrapKey(call.in[0], call.in[2], time.UnixMilli(call.number(1)))
	}
	return engine.MakeKey(time.UnixMilli(call.number(1)), namesIn(call.in[0])...)
}

// namesIn are the names in a document {keyAltNames: names}.
func namesIn(document []byte) (names []string) {
	const front = 4 + 1 + len("keyAltNames") + 1 + 4
	for rest := document; len(rest) > front; rest = nil {
		for element := rest[front : len(rest)-2]; len(element) > 0; {
			name := 1 + bytes.IndexByte(element[1:], 0) + 1
			end := name + 4 + int(binary.LittleEndian.Uint32(element[name:]))
			names = append(names, string(element[name+4:end-1]))
			element = element[end:]
		}
	}
	return names
}

// isOfMethods says that a method makes the call: MakeKey makes its document of names itself.
func (call *recordedCall) isOfMethods() bool {
	if call.letter != 'g' {
		return true
	}
	const front = "\x04keyAltNames\x00"
	document := call.in[0]
	if len(document) < 4+len(front)+6 || string(document[4:4+len(front)]) != front {
		return bytes.Equal(document, framed(nil))
	}
	defer func() { _ = recover() }()
	return bytes.Equal(document, namesOf(namesIn(document)))
}

// make makes the call; where it begins an engine, that one stands behind it.
func (call *recordedCall) make(engine *Engine) (behind *Engine, out []byte, err error) {
	switch call.letter {
	case 'o', 'b':
		_ = engine.Close()
		behind, err = call.begin()
		return behind, nil, err
	case 'c':
		return engine, nil, engine.Close()
	case 'z':
		return engine, append([]byte(Version()), 0), nil
	case 'p', 'f', 'q', 'x', 'y':
		return engine, nil, call.tell(engine)
	case 's', 'v', 'r', 'g':
		out, err = call.seal(engine)
	default:
		out, err = call.ask(engine)
	}
	return engine, out, err
}

// isAnswered holds what a method gave against what was recorded.
func (call *recordedCall) isAnswered(t *testing.T, out []byte, err error) {
	t.Helper()
	wanted := &call.wanted
	if wanted.status == 0 {
		if err != nil || !bytes.Equal(out, wanted.out[:wanted.count]) {
			t.Fatalf("%c: %v and %d bytes, where there are %d", call.letter, err, len(out), wanted.count)
		}
		return
	}
	told := (*Error)(nil)
	if !errors.As(err, &told) || out != nil {
		t.Fatalf("%c: %v and %d bytes, where the status is %v", call.letter, err, len(out), wanted.status)
	}
	said, also := *told, newError(wanted.status, wanted.reason, wanted.file, wanted.place, nil)
	said.Fields, also.Fields = nil, nil
	if !reflect.DeepEqual(said, *also) {
		t.Fatalf("%c: %v, where it is %v", call.letter, told, also)
	}
}

// Random commands, documents and values, put infos and keys: bytes, statuses, reasons and places of the second program.
func TestRecordedCalls(t *testing.T) {
	calls, engine, made := recorded(t), new(Engine), 0
	for call := calls.next(); call != nil; call = calls.next() {
		if !call.isOfMethods() {
			continue
		}
		behind, out, err := call.make(engine)
		engine = behind
		if call.isAskedAgain() {
			continue
		}
		call.isAnswered(t, out, err)
		made++
	}
	if len(calls.told) != 0 || made < 1000 {
		t.Fatalf("%d bytes behind the answers of %d calls", len(calls.told), made)
	}
}
