package wire

import (
	"bytes"
	"encoding/binary"
	"errors"
	"hash/crc32"
	"io"
	"net"

	"fled/bson"
)

// Flags of OP_MSG. Those of the lower 16 bits have to be known by who reads them; the others may be passed over.
const (
	checksumPresent = 1 << 0
	moreToCome      = 1 << 1
	mustKnow        = 0xffff
)

// most is how many sections a message may have: no command of a driver has more than three.
const most = 8

var (
	errMsg  = errors.New("a malformed OP_MSG")
	errFlag = errors.New("an OP_MSG with a flag that isn't known")
	errSum  = errors.New("an OP_MSG with a checksum that isn't its own")

	castagnoli = crc32.MakeTable(crc32.Castagnoli)
)

// Sequence is a document sequence: its documents stand one behind the other, each whole.
type Sequence struct {
	Name      string
	Documents []byte
}

// Msg is what an OP_MSG says. Its checksum, which was looked at, isn't in it, nor are flags that may be passed over,
// exhaustAllowed among them.
type Msg struct {
	MoreToCome bool
	Body       []byte
	Sequences  []Sequence
}

// ReadMsg reads an OP_MSG. Its slices are those of the message.
func ReadMsg(message Message) (Msg, error) {
	sections := message.Contents
	if message.Opcode != OpMsg || len(sections) < 4 {
		return Msg{}, errMsg
	}
	flags := binary.LittleEndian.Uint32(sections)
	if flags&mustKnow&^(checksumPresent|moreToCome) != 0 {
		return Msg{}, errFlag
	}
	sections = sections[4:]
	if flags&checksumPresent != 0 {
		if len(sections) < 4 || !message.sumIsRight() {
			return Msg{}, errSum
		}
		sections = sections[:len(sections)-4]
	}
	msg := Msg{MoreToCome: flags&moreToCome != 0}
	for len(sections) > 0 {
		length, err := msg.readSection(sections)
		if err != nil {
			return Msg{}, err
		}
		sections = sections[length:]
	}
	if msg.Body == nil {
		return Msg{}, errMsg
	}
	return msg, nil
}

// sumIsRight is whether the last four bytes are the CRC-32C of those before, as they came.
func (message Message) sumIsRight() bool {
	behind := len(message.Contents) - 4
	sum := crc32.Update(crc32.Checksum(message.head(behind+4), castagnoli), castagnoli, message.Contents[:behind])
	return sum == binary.LittleEndian.Uint32(message.Contents[behind:])
}

// readSection reads the section that these bytes begin with, and answers its length.
func (msg *Msg) readSection(front []byte) (int, error) {
	kind, front := front[0], front[1:]
	switch {
	case kind == 0 && msg.Body == nil:
		length, err := bson.Length(front)
		if err != nil {
			return 0, errMsg
		}
		msg.Body = front[:length:length]
		return 1 + length, nil
	case kind == 1 && len(msg.Sequences) < most && len(front) >= 4:
		length := binary.LittleEndian.Uint32(front)
		if length < 5 || uint64(length) > uint64(len(front)) {
			return 0, errMsg
		}
		sequence, err := readSequence(front[4:length:length])
		msg.Sequences = append(msg.Sequences, sequence)
		return 1 + int(length), err
	}
	return 0, errMsg
}

// readSequence reads a name and whole documents to the end.
func readSequence(front []byte) (Sequence, error) {
	end := bytes.IndexByte(front, 0)
	if end < 0 {
		return Sequence{}, errMsg
	}
	sequence := Sequence{string(front[:end]), front[end+1:]}
	for rest := sequence.Documents; len(rest) > 0; {
		length, err := bson.Length(rest)
		if err != nil {
			return Sequence{}, errMsg
		}
		rest = rest[length:]
	}
	return sequence, nil
}

// Array makes an array of the first documents of a sequence, of not more than so many bytes but for one document, and
// answers how many it has and what is left.
func (sequence Sequence) Array(most int) (array []byte, count int, left []byte, err error) {
	var items []byte
	for left = sequence.Documents; len(left) > 0; count++ {
		length, err := bson.Length(left)
		if err != nil {
			return nil, 0, nil, errMsg
		}
		if count > 0 && len(items)+length > most {
			break
		}
		items = bson.Append(items, bson.Document, bson.Key(count), left[:length])
		left = left[length:]
	}
	return bson.Wrap(items), count, left, nil
}

// Size is how many bytes the message has.
func (msg Msg) Size() int {
	size := header + 4 + 1 + len(msg.Body)
	for _, sequence := range msg.Sequences {
		size += 1 + sequence.size()
	}
	return size
}

func (sequence Sequence) size() int {
	return 4 + len(sequence.Name) + 1 + len(sequence.Documents)
}

// Message spells an OP_MSG, without a checksum.
func (msg Msg) Message(id, to int32) Message {
	contents := make([]byte, 0, msg.Size()-header)
	for _, part := range msg.parts() {
		contents = append(contents, part...)
	}
	return Message{id, to, OpMsg, contents}
}

// SendTo writes the same to a connection, a long one with no copy of it.
func (msg Msg) SendTo(conn io.Writer, id, to int32) error {
	if msg.Size() <= atOnce {
		_, err := msg.Message(id, to).WriteTo(conn)
		return err
	}
	all := net.Buffers{Message{ID: id, To: to, Opcode: OpMsg}.head(msg.Size() - header)}
	all = append(all, msg.parts()...)
	_, err := all.WriteTo(conn)
	return err
}

// parts are the contents: the flags, and what each section has.
func (msg Msg) parts() [][]byte {
	var flags uint32
	if msg.MoreToCome {
		flags = moreToCome
	}
	all := [][]byte{append(binary.LittleEndian.AppendUint32(nil, flags), 0), msg.Body}
	for _, sequence := range msg.Sequences {
		before := binary.LittleEndian.AppendUint32([]byte{1}, uint32(sequence.size()))
		all = append(all, append(append(before, sequence.Name...), 0), sequence.Documents)
	}
	return all
}
