// Seal seals one command in process, opens it again and compares; it writes the sealed one:
//
//	go run ./seal DB KEYS INFOS MASTER < COMMAND
//
// The exit status is that of the call that came to no bytes; else 1 where the command comes back otherwise, 2 for other
// words, 5 where a file can't be read, 6 where the output can't be written.
package main

import (
	"bytes"
	"errors"
	"fmt"
	"io"
	"os"

	"fle"
)

// want ends the process where something failed: with the status of a call of fle, else with this one.
func want(err error, status int) {
	if err == nil {
		return
	}
	fmt.Fprintln(os.Stderr, err)
	if told := (*fle.Error)(nil); errors.As(err, &told) {
		status = int(told.Status)
	}
	os.Exit(status)
}

func main() {
	if len(os.Args) != 5 {
		os.Exit(2)
	}
	var files [3][]byte
	for number, path := range os.Args[2:] {
		contents, err := os.ReadFile(path)
		want(err, 5)
		files[number] = contents
	}
	command, err := io.ReadAll(os.Stdin)
	want(err, 5)

	engine, err := fle.Open(os.Args[1], files[0], files[1], files[2])
	want(err, 1)
	defer engine.Close()
	sealed, err := engine.Seal(os.Args[1], command)
	want(err, 1)
	opened, err := engine.Unseal(sealed)
	want(err, 1)
	if !bytes.Equal(opened, command) {
		want(errors.New("the command comes back otherwise"), 1)
	}
	_, err = os.Stdout.Write(sealed)
	want(err, 6)
}
