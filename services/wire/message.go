// Package wire reads and writes messages of MongoDB's wire protocol: OP_MSG, and of the legacy opcodes what a driver's
// first hello takes.
//
// A message is read whole, and memory grows with the bytes that came, not with the length that was stated. What isn't
// such a message is an error, behind which the connection is of no use. No compressed message is read.
package wire

import (
	"encoding/binary"
	"errors"
	"fmt"
	"io"
	"net"
)

// Opcodes.
const (
	OpReply = 1
	OpQuery = 2004
	OpMsg   = 2013
)

// Lengths of messages, header and all.
const (
	// MaxMessage is the longest message to a server, which states it as maxMessageSizeBytes.
	MaxMessage = 48_000_000
	// MaxReply is the longest reply: a document of 16 MiB, in one of the server's, which has 16 KiB more, in an OP_MSG.
	MaxReply = 16<<20 + 16<<10 + header + 4 + 1 + 4
)

const header, atFirst, atOnce = 16, 1 << 12, 1 << 16

// Message is a message: the fields of its header, and what stands behind them.
type Message struct {
	ID, To   int32 // requestID, responseTo
	Opcode   int32
	Contents []byte
}

// Read takes a message of so many bytes at most. The error is io.EOF where nothing came.
func Read(from io.Reader, most int) (Message, error) {
	var head [header]byte
	if _, err := io.ReadFull(from, head[:]); err != nil {
		return Message{}, err
	}
	word := func(number int) int32 { return int32(binary.LittleEndian.Uint32(head[4*number:])) }
	length := int(word(0))
	if length < header || length > most {
		return Message{}, fmt.Errorf("a message of %d bytes", length)
	}
	contents, err := take(from, length-header)
	if err != nil {
		return Message{}, err
	}
	return Message{word(1), word(2), word(3), contents}, nil
}

// take reads so many bytes: few at once, of more into twice as many as have come. An end before the last one is a fault.
func take(from io.Reader, length int) ([]byte, error) {
	first := length
	if length > atOnce {
		first = atFirst
	}
	contents, read := make([]byte, first), 0
	for {
		count, err := io.ReadFull(from, contents[read:])
		if errors.Is(err, io.EOF) {
			err = io.ErrUnexpectedEOF
		}
		if read += count; err != nil || read == length {
			return contents[:read], err
		}
		contents = append(make([]byte, 0, least(length, 2*read)), contents...)
		contents = contents[:cap(contents)]
	}
}

func least(one, other int) int {
	if one < other {
		return one
	}
	return other
}

// WriteTo writes a message.
func (message Message) WriteTo(to io.Writer) (int64, error) {
	parts := net.Buffers{message.head(len(message.Contents)), message.Contents}
	return parts.WriteTo(to)
}

// head spells the header of a message with so many bytes of contents.
func (message Message) head(length int) []byte {
	head := make([]byte, 0, header)
	for _, word := range []int32{int32(header + length), message.ID, message.To, message.Opcode} {
		head = binary.LittleEndian.AppendUint32(head, uint32(word))
	}
	return head
}
