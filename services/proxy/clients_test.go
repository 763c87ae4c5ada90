package proxy

import (
	"bytes"
	"context"
	"os"
	"os/exec"
	"strings"
	"testing"
	"time"

	"fled/mock"
	"fled/wire"
)

// clients are what runs each driver's client, by the name of the driver.
var clients = map[string][]string{
	"pymongo": {"python3", "-W", "error", "../clients/pymongo_client.py"},
	"node":    {"node", "../clients/node_client.js"},
	"php":     {"php", "../clients/php_client.php"},
	"ruby":    {"ruby", "../clients/ruby_client.rb"},
	"c":       {"out/c_client"},
	"go":      {"out/go_client"},
}

// drivers are the drivers that FLED_CLIENTS names; a word of it is NAME or NAME=COMMAND.
func drivers() map[string][]string {
	chosen := map[string][]string{}
	for _, word := range strings.Fields(os.Getenv("FLED_CLIENTS")) {
		name, command, has := strings.Cut(word, "=")
		chosen[name] = append([]string(nil), clients[name]...)
		if has && len(chosen[name]) > 0 {
			chosen[name][0] = command
		}
	}
	return chosen
}

// Drivers without encryption write and read by a server alone, and by one of a set, whose hosts would lead them past
// the proxy. No value comes to the server, and each command that does is one that the client sent.
func TestDrivers(t *testing.T) {
	chosen := drivers()
	if len(chosen) == 0 {
		t.Skip("FLED_CLIENTS names no driver")
	}
	for name, words := range chosen {
		scram := "authMechanism=SCRAM-SHA-256"
		if name == "ruby" {
			scram = "authMechanism=SCRAM-SHA-1" // the one of driver 2.5
		}
		for _, options := range []string{"", "replicaSet=rs0", "compressors=zlib", scram, "authMechanism=PLAIN"} {
			t.Run(name+" "+options, func(t *testing.T) { runClient(t, words, options) })
		}
	}
}

// runClient runs a client with options of a URI: one that authenticates does so before a server that asks for it.
func runClient(t *testing.T, words []string, options string) {
	authenticates := strings.HasPrefix(options, "auth")
	rig := startRig(t, examples(t), func(rig *rig) {
		switch {
		case authenticates:
			rig.Users = map[string]string{"user": "pencil"}
		case options != "":
			rig.Hosts = []string{rig.Server.Address(), "127.0.0.1:1"}
		}
	})
	address := rig.address
	if authenticates {
		address = "user:pencil@" + address
	}
	ctx, cancel := context.WithTimeout(context.Background(), 2*time.Minute)
	defer cancel()
	command := exec.CommandContext(ctx, words[0], append(append([]string(nil), words[1:]...), address, options)...)
	said, err := command.CombinedOutput()
	if err != nil {
		t.Fatalf("%v\n%s\n%s", err, said, rig.log)
	}
	rig.wantNothingPlain(t)
	rig.wantWhatWasSent(t)
	for part, is := range map[string]bool{
		"startTransaction": options == "replicaSet=rs0", "saslStart": authenticates,
		"speculativeAuthenticate": strings.HasSuffix(options, "SCRAM-SHA-256"), "\x02count\x00": true,
	} {
		if rig.Saw(part) != is {
			t.Errorf("that %s came to the server is %v", part, !is)
		}
	}
}

// wantNothingPlain fails where a protected value, or a compressed message, came to the server or stands in the log.
func (rig *rig) wantNothingPlain(t testing.TB) {
	t.Helper()
	rig.Server.Lock.Lock()
	defer rig.Server.Lock.Unlock()
	for _, hidden := range []string{secret, "compression"} {
		if bytes.Contains(rig.Got, []byte(hidden)) || strings.Contains(rig.log.String(), hidden) {
			t.Errorf("%s came to the server, or stands in the log", hidden)
		}
	}
	if count := bytes.Count(rig.Got, []byte("\x05ssn\x00")) + bytes.Count(rig.Got, []byte("\x05salary\x00")); count < 20 {
		t.Errorf("the server has %d sealed values", count)
	}
	for _, documents := range rig.Collections {
		for _, document := range documents {
			if bytes.Contains(document, []byte("\x02ssn\x00")) || bytes.Contains(document, []byte("\x02salary\x00")) {
				t.Errorf("%q is stored", document)
			}
		}
	}
}

// wantWhatWasSent fails where a command that the server got doesn't open to one that a client sent, byte for byte, with
// its number and its way to be answered, or came more often.
func (rig *rig) wantWhatWasSent(t testing.TB) {
	t.Helper()
	sent, opens, judged := rig.commandsSent(t), examples(t)["hr"].engine(), 0
	var came, opened []byte
	rig.Server.Lock.Lock()
	defer rig.Server.Lock.Unlock()
	for _, message := range rig.Commands {
		msg, err := wire.ReadMsg(message)
		if err != nil {
			t.Fatal(err)
		}
		if wire.IsHello(mock.Fields(msg.Body)[0].Name) {
			continue
		}
		joined := mock.Joined(msg)
		whole, err := opens.Unseal(joined)
		if err != nil {
			t.Fatal(err)
		}
		came, opened = append(came, joined...), append(opened, whole...)
		key := keyOf(message, msg, whole)
		if sent[key]--; sent[key] < 0 {
			t.Errorf("%q came, and nobody sent it", whole)
		}
		judged++
	}
	if judged < 10 {
		t.Errorf("%d commands were compared", judged)
	}
	wantSameByProgram(t, came, opened)
}

// wantSameByProgram fails where `fle decrypt` opens what came otherwise; FLED_FLE names the program.
func wantSameByProgram(t testing.TB, came, opened []byte) {
	t.Helper()
	program := os.Getenv("FLED_FLE")
	if program == "" {
		return
	}
	command := exec.Command(program, "decrypt", "../../examples/keys.bson", "../../examples/EXAMPLE-ONLY.master")
	command.Stdin = bytes.NewReader(came)
	if said, err := command.Output(); err != nil || !bytes.Equal(said, opened) {
		t.Errorf("fle decrypt: %v, %d bytes of %d", err, len(said), len(opened))
	}
}

// keyOf is all that tells one command from another.
func keyOf(message wire.Message, msg wire.Msg, whole []byte) string {
	return string(mock.Spelled(wire.Msg{MoreToCome: msg.MoreToCome, Body: whole}.Message(message.ID, message.To)))
}

// commandsSent counts the commands that clients sent.
func (rig *rig) commandsSent(t testing.TB) map[string]int {
	t.Helper()
	rig.lock.Lock()
	defer rig.lock.Unlock()
	count := map[string]int{}
	for _, sent := range rig.sent {
		for from := bytes.NewReader(sent); from.Len() > 0; {
			message, err := wire.Read(from, wire.MaxMessage)
			if err != nil {
				t.Fatal(err)
			}
			if message.Opcode == wire.OpQuery {
				continue
			}
			msg, err := wire.ReadMsg(message)
			if err != nil {
				t.Fatal(err)
			}
			count[keyOf(message, msg, mock.Joined(msg))]++
		}
	}
	return count
}
