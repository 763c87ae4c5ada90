package main

import (
	"bytes"
	"net"
	"os"
	"path/filepath"
	"strings"
	"sync"
	"syscall"
	"testing"

	"fled/journal"
	"fled/mock"
	"fled/proxy"
)

// A broken file is said in the log, and SIGTERM ends the proxy.
func TestSignals(t *testing.T) {
	schemas := filepath.Join(t.TempDir(), "schemas")
	infos, err := os.ReadFile(examples + "people.schemas.json")
	if err != nil {
		t.Fatal(err)
	}
	write(t, schemas, infos)
	line := words()
	line[5] = "hr=" + schemas
	read, err := readOptions(line)
	if err != nil {
		t.Fatal(err)
	}
	rules, err := read.files.Read()
	if err != nil {
		t.Fatal(err)
	}
	said := &bytes.Buffer{}
	logger := journal.New(said)
	service := &service{options: read, proxy: proxy.New(rules, logger)}
	door, err := service.listen()
	if err != nil {
		t.Fatal(err)
	}
	signals := make(chan os.Signal, 3)
	signals <- syscall.SIGHUP
	service.heedOne(t, signals, door, logger)
	write(t, schemas, []byte("[{"))
	signals <- syscall.SIGHUP
	service.heedOne(t, signals, door, logger)
	signals <- syscall.SIGTERM
	service.heed(signals, door, logger)
	service.proxy.Serve(door) // ends, since the door is closed
	lines := strings.Split(strings.TrimSpace(said.String()), "\n")
	for number, part := range []string{`"event":"reread"`, `"event":"kept","why":"`, `"event":"ends"`} {
		if len(lines) != 3 || !strings.Contains(lines[number], part) {
			t.Fatalf("%q", lines)
		}
	}
	if !strings.Contains(lines[1], "Setup: Syntax of infos") {
		t.Errorf("%q", lines)
	}
}

// heedOne heeds the signal that has come, and returns.
func (service *service) heedOne(t *testing.T, signals chan os.Signal, door net.Listener, log *journal.Log) {
	t.Helper()
	come := make(chan os.Signal, 1)
	come <- <-signals
	close(come)
	service.heed(come, door, log)
}

// SIGHUP under load, with a broken file and a whole one in turn: each command is answered, and no value is sent.
func TestReloadUnderLoad(t *testing.T) {
	cert, key := made(t)
	schemas, bodies := filepath.Join(t.TempDir(), "schemas"), make(chan []byte, 10)
	infos, err := os.ReadFile(examples + "people.schemas.json")
	if err != nil {
		t.Fatal(err)
	}
	write(t, schemas, infos)
	line := words("--server", serverByTLS(t, cert, key, bodies), "--tls", "--ca", cert)
	line[5] = "hr=" + schemas
	service, address := started(t, journal.New(&mock.Lines{}), line)
	insert, _ := os.ReadFile(examples + "insert.bson")
	var clients sync.WaitGroup
	for worker := 0; worker < 8; worker++ {
		clients.Add(1)
		go func(client net.Conn) {
			defer clients.Done()
			for turn := 0; turn < 20; turn++ {
				if reply, err := askedAgain(client, insert); err != nil || !strings.Contains(reply, "ok") {
					t.Errorf("%q %v", reply, err)
				}
			}
		}(mock.Dial(t, address).Conn)
	}
	go func() { clients.Wait(); close(bodies) }()
	for count := 0; ; count++ {
		body, more := <-bodies
		if !more {
			break
		}
		if bytes.Contains(body, []byte("123-45")) {
			t.Fatalf("%q", body)
		}
		if count%20 == 0 {
			write(t, schemas, infos[:len(infos)-count%40])
			if err := service.reload(); (err == nil) != (count%40 == 0) {
				t.Fatal(err)
			}
		}
	}
}
