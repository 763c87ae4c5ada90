package wire

import (
	"bytes"
	"encoding/binary"
	"hash/crc32"
	"testing"

	"fled/bson"
)

// sumOf is the CRC-32C of bytes as it is sent.
func sumOf(front []byte) []byte {
	return binary.LittleEndian.AppendUint32(nil, crc32.Checksum(front, crc32.MakeTable(crc32.Castagnoli)))
}

// Whatever the bytes are, the readers end; what they read is spelled again as a message that reads the same. The
// corpus that is kept is in testdata.
func FuzzRead(f *testing.F) {
	document := bson.Wrap(bson.AppendInt32(nil, "a", 1))
	for _, message := range []Message{
		Msg{false, document, nil}.Message(1, 0),
		Msg{true, document, []Sequence{{"documents", append(document, document...)}}}.Message(1, 0),
		{1, 0, OpQuery, append(append(append([]byte{4, 0, 0, 0}, commands...), make([]byte, 9)...), document...)},
		{1, 0, OpReply, append(append(make([]byte, 16), 1, 0, 0, 0), document...)},
	} {
		f.Add(spelled(f, message))
	}
	f.Fuzz(func(t *testing.T, front []byte) {
		message, err := Read(bytes.NewReader(front), MaxMessage)
		if err != nil {
			return
		}
		if again := spelled(t, message); !bytes.Equal(again, front[:len(again)]) {
			t.Fatal("a message is spelled otherwise")
		}
		readLegacyAgain(t, message)
		if msg, err := ReadMsg(message); err == nil {
			readMsgAgain(t, msg)
		}
	})
}

func readMsgAgain(t *testing.T, msg Msg) {
	message := msg.Message(1, 2)
	back, err := ReadMsg(message)
	if err != nil || back.MoreToCome != msg.MoreToCome || !bytes.Equal(back.Body, msg.Body) ||
		len(back.Sequences) != len(msg.Sequences) || len(message.Contents)+header != msg.Size() {
		t.Fatal("an OP_MSG is read otherwise", err)
	}
	for number, sequence := range msg.Sequences {
		again := back.Sequences[number]
		if again.Name != sequence.Name || !bytes.Equal(again.Documents, sequence.Documents) {
			t.Fatal("a sequence is read otherwise")
		}
	}
	walked := 0
	walk := bson.Over(msg.Body)
	for element, has := walk.Next(); has; element, has = walk.Next() {
		walked += len(element.Whole)
	}
	if walk.Err() == nil && walked != len(msg.Body)-5 {
		t.Fatal("a walk passes bytes over")
	}
}

func readLegacyAgain(t *testing.T, message Message) {
	for _, read := range []func(Message) (Legacy, error){ReadQuery, ReadReply} {
		legacy, err := read(message)
		if err == nil && !bytes.Equal(legacy.Message(1, 2).Contents, message.Contents) {
			t.Fatal("a legacy message is spelled otherwise")
		}
	}
}
