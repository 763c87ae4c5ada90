package wire

import (
	"bytes"
	"encoding/hex"
	"io"
	"strings"
	"testing"

	"fled/bson"
)

// spelled is a message's bytes.
func spelled(t testing.TB, message Message) []byte {
	t.Helper()
	var all bytes.Buffer
	if _, err := message.WriteTo(&all); err != nil {
		t.Fatal(err)
	}
	return all.Bytes()
}

// unhex has the bytes of digits with spaces between them.
func unhex(t testing.TB, digits string) []byte {
	t.Helper()
	all, err := hex.DecodeString(strings.ReplaceAll(digits, " ", ""))
	if err != nil {
		t.Fatal(err)
	}
	return all
}

// hello is an OP_MSG as pymongo 3.11 spells it, by
// bson.encode and pymongo.message._op_msg(0, {"hello": 1, "$db": "admin"}, "admin", None, False, False, OPTIONS):
// its own requestID is put to 7.
const hello = `34000000 07000000 00000000 dd070000 00000000 00 1f000000 10 68656c6c6f00 01000000 02 24646200 06000000
	61646d696e00 00`

func compact(digits string) string {
	return strings.NewReplacer("\n", "", "\t", "", " ", "").Replace(digits)
}

func TestAMessageOfADriver(t *testing.T) {
	all := unhex(t, compact(hello))
	message, err := Read(bytes.NewReader(all), MaxMessage)
	if err != nil || message.ID != 7 || message.To != 0 || message.Opcode != OpMsg {
		t.Fatal(message, err)
	}
	msg, err := ReadMsg(message)
	if err != nil || msg.MoreToCome || len(msg.Sequences) != 0 || !bytes.Equal(msg.Body, all[21:]) {
		t.Fatal(msg, err)
	}
	if again := spelled(t, msg.Message(7, 0)); !bytes.Equal(again, all) {
		t.Errorf("%x", again)
	}
}

func TestSequencesComeBack(t *testing.T) {
	one := bson.Wrap(bson.AppendInt32(nil, "a", 1))
	msg := Msg{true, one, []Sequence{{"documents", append(one, one...)}, {"b", nil}}}
	message := msg.Message(1, 2)
	if len(message.Contents)+header != msg.Size() {
		t.Error(msg.Size())
	}
	back, err := ReadMsg(message)
	if err != nil || !back.MoreToCome || !bytes.Equal(back.Body, one) || len(back.Sequences) != 2 ||
		back.Sequences[0].Name != "documents" || !bytes.Equal(back.Sequences[0].Documents, append(one, one...)) ||
		len(back.Sequences[1].Documents) != 0 {
		t.Error(back, err)
	}
	msg.Sequences = make([]Sequence, most+1)
	if _, err := ReadMsg(msg.Message(1, 2)); err == nil {
		t.Error("very many sections are read")
	}
}

// The last bytes of a message are the CRC-32C of all before.
func TestChecksums(t *testing.T) {
	// RFC 3720, B.4: the CRC-32C of 32 bytes of zeros is aa 36 91 8a, as it is sent.
	zeros := Message{Contents: append(make([]byte, 16), unhex(t, "aa36918a")...)}
	front := make([]byte, 32)
	if sum := sumOf(front); !bytes.Equal(sum, zeros.Contents[16:]) {
		t.Errorf("%x", sum)
	}
	message := Msg{Body: bson.Wrap(bson.AppendInt32(nil, "ping", 1))}.Message(7, 0)
	message.Contents[0] = checksumPresent
	message.Contents = append(message.Contents, 0, 0, 0, 0)
	all := spelled(t, message)
	copy(message.Contents[len(message.Contents)-4:], sumOf(all[:len(all)-4]))
	unsummed := message.Contents[4 : len(message.Contents)-4]
	if msg, err := ReadMsg(message); err != nil || !bytes.Equal(msg.Message(7, 0).Contents[4:], unsummed) {
		t.Error(err)
	}
	for at := range message.Contents {
		message.Contents[at] ^= 0x40
		if _, err := ReadMsg(message); err == nil {
			t.Error("a changed byte isn't seen", at)
		}
		message.Contents[at] ^= 0x40
	}
	message.ID++
	if _, err := ReadMsg(message); err != errSum {
		t.Error("a changed header isn't seen", err)
	}
}

func TestLengthsThatNoMessageHas(t *testing.T) {
	for _, length := range []string{"00000000", "0f000000", "016cdc02", "ffffff7f", "00000080", "ffffffff"} {
		if _, err := Read(bytes.NewReader(append(unhex(t, length), make([]byte, 60)...)), MaxMessage); err == nil {
			t.Error(length)
		}
	}
	longest := append(unhex(t, "006cdc02"), make([]byte, 60)...) // 48,000,000, of which 64 bytes come
	if _, err := Read(bytes.NewReader(longest), MaxMessage); err != io.ErrUnexpectedEOF {
		t.Error(err)
	}
}

func TestFrontsOfAMessage(t *testing.T) {
	all := unhex(t, compact(hello))
	for length := range all {
		_, err := Read(bytes.NewReader(all[:length]), MaxMessage)
		if wanted := io.ErrUnexpectedEOF; length > 0 && err != wanted || length == 0 && err != io.EOF {
			t.Error(length, err)
		}
	}
}

// Nothing is allocated for a stated length before the bytes have come.
func TestMemoryOfAStatedLength(t *testing.T) {
	longest := append(unhex(t, "006cdc02"), make([]byte, 60)...)
	result := testing.Benchmark(func(b *testing.B) {
		for turn := 0; turn < b.N; turn++ {
			Read(bytes.NewReader(longest), MaxMessage)
		}
	})
	if result.AllocedBytesPerOp() > 1<<20 {
		t.Error(result.AllocedBytesPerOp())
	}
}

func TestLegacyMessages(t *testing.T) {
	document := bson.Wrap(bson.AppendInt32(nil, "ismaster", 1))
	front := append(append(unhex(t, "04000000"), "admin.$cmd\x00"...), unhex(t, "00000000ffffffff")...)
	query := Message{1, 0, OpQuery, append(front, document...)}
	read, err := ReadQuery(query)
	again := spelled(t, read.Message(1, 0))
	if err != nil || !bytes.Equal(read.Document, document) || !bytes.Equal(again, spelled(t, query)) {
		t.Error(read, err)
	}
	reply := Message{1, 0, OpReply, append(unhex(t, "08000000 0000000000000000 00000000 01000000"), document...)}
	if read, err = ReadReply(reply); err != nil || !bytes.Equal(spelled(t, read.Message(1, 0)), spelled(t, reply)) {
		t.Error(read, err)
	}
	for _, at := range []int{0, 3, 4, 13, len(front), len(front) + 3} {
		query.Contents[at] ^= 0x40
		if _, err := ReadQuery(query); err == nil {
			t.Error("a query is read with another byte", at)
		}
		query.Contents[at] ^= 0x40
	}
	for _, at := range []int{4, 11, 16, 19, 20, 23} {
		reply.Contents[at] ^= 0x40
		if _, err := ReadReply(reply); err == nil {
			t.Error("a reply is read with another byte", at)
		}
		reply.Contents[at] ^= 0x40
	}
	for length := range query.Contents {
		if _, err := ReadQuery(Message{1, 0, OpQuery, query.Contents[:length]}); err == nil {
			t.Error("a query is read that is cut", length)
		}
	}
	for length := range reply.Contents {
		if _, err := ReadReply(Message{1, 0, OpReply, reply.Contents[:length]}); err == nil {
			t.Error("a reply is read that is cut", length)
		}
	}
}
