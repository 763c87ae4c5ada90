package bson

import (
	"encoding/binary"
	"math"
	"strconv"
)

// Append spells an element behind these bytes.
func Append(behind []byte, tag byte, name string, value []byte) []byte {
	behind = append(append(append(behind, tag), name...), 0)
	return append(behind, value...)
}

// AppendText spells a string behind these bytes.
func AppendText(behind []byte, name, text string) []byte {
	value := binary.LittleEndian.AppendUint32(nil, uint32(len(text)+1))
	return Append(behind, String, name, append(append(value, text...), 0))
}

// AppendBool spells a bool behind these bytes.
func AppendBool(behind []byte, name string, is bool) []byte {
	value := []byte{0}
	if is {
		value[0] = 1
	}
	return Append(behind, Bool, name, value)
}

// AppendInt32 spells an int32 behind these bytes.
func AppendInt32(behind []byte, name string, number int32) []byte {
	return Append(behind, Int32, name, binary.LittleEndian.AppendUint32(nil, uint32(number)))
}

// AppendDouble spells a double behind these bytes.
func AppendDouble(behind []byte, name string, number float64) []byte {
	return Append(behind, Double, name, binary.LittleEndian.AppendUint64(nil, math.Float64bits(number)))
}

// Wrap is the document of elements that are spelled.
func Wrap(parts ...[]byte) []byte {
	size := least
	for _, part := range parts {
		size += len(part)
	}
	document := binary.LittleEndian.AppendUint32(make([]byte, 0, size), uint32(size))
	for _, part := range parts {
		document = append(document, part...)
	}
	return append(document, 0)
}

// Key is the name of an array's element.
func Key(number int) string {
	return strconv.Itoa(number)
}
