// Keeps `fle encrypt` and `fle decrypt` open and sends a command at a time through them: bytes of BSON in, bytes out.
// Goroutines may call at once: they take turns.
// Run from the top, with fle in PATH: go run examples/go/seal.go
package main

import (
	"bytes"
	"encoding/binary"
	"fmt"
	"io"
	"os"
	"os/exec"
	"sync"
)

const (
	keys    = "examples/keys.bson"
	schemas = "examples/people.schemas.json"
	master  = "examples/EXAMPLE-ONLY.master"
)

// Kept is one process: it answers each document before it takes the next. Its line, where it refuses one, goes to our
// own standard error.
type Kept struct {
	turn sync.Mutex
	in   io.WriteCloser
	out  io.Reader
}

// begin starts fle with these words.
func begin(words ...string) (*Kept, error) {
	command := exec.Command("fle", words...)
	command.Stderr = os.Stderr
	in, err := command.StdinPipe()
	if err != nil {
		return nil, err
	}
	out, err := command.StdoutPipe()
	if err != nil {
		return nil, err
	}
	return &Kept{in: in, out: out}, command.Start()
}

// ask gives the answer to one document; its first four bytes are its length. After an error begin a new process.
func (kept *Kept) ask(document []byte) ([]byte, error) {
	kept.turn.Lock()
	defer kept.turn.Unlock()
	if _, err := kept.in.Write(document); err != nil {
		return nil, err
	}
	head := make([]byte, 4)
	if _, err := io.ReadFull(kept.out, head); err != nil {
		return nil, err
	}
	answer := make([]byte, binary.LittleEndian.Uint32(head))
	copy(answer, head)
	_, err := io.ReadFull(kept.out, answer[4:])
	return answer, err
}

// askAll asks for all documents at once, each by a goroutine.
func (kept *Kept) askAll(documents [][]byte) [][]byte {
	var done sync.WaitGroup
	answers := make([][]byte, len(documents))
	for at, document := range documents {
		done.Add(1)
		go func(at int, document []byte) {
			defer done.Done()
			answer, err := kept.ask(document)
			check(err)
			answers[at] = answer
		}(at, document)
	}
	done.Wait()
	return answers
}

func main() {
	seal, err := begin("encrypt", "hr", keys, schemas, master)
	check(err)
	unseal, err := begin("decrypt", keys, master)
	check(err)
	var plain [][]byte
	for _, name := range []string{"insert", "find", "delete"} {
		command, err := os.ReadFile("examples/" + name + ".bson") // or bson.Marshal(command), of MongoDB's driver
		check(err)
		plain = append(plain, command)
	}
	sealed := seal.askAll(plain)
	again, err := seal.ask(plain[0])
	check(err)
	holds := bytes.Equal(again, sealed[0]) && !bytes.Contains(bytes.Join(sealed, nil), []byte("123-45-6789"))
	for at, opened := range unseal.askAll(sealed) {
		holds = holds && bytes.Equal(opened, plain[at])
	}
	if !holds {
		fmt.Println("NOT THE SAME")
		os.Exit(1)
	}
	fmt.Println("three at once, one twice alike, and opened to the same bytes")
}

func check(err error) {
	if err != nil {
		fmt.Fprintln(os.Stderr, err)
		os.Exit(1)
	}
}
