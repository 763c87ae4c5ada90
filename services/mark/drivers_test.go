package mark

import (
	"bytes"
	"context"
	"fmt"
	"net"
	"os"
	"os/exec"
	"path/filepath"
	"strconv"
	"strings"
	"syscall"
	"testing"
	"time"

	"fled/bson"
	"fled/mock"
)

// clients are what runs the client of each driver that has encryption of its own, by the name of the driver.
var clients = map[string][]string{
	"c":   {"out/c_encrypting"},
	"go":  {"out/go_encrypting"},
	"php": {"php", "../clients/php_encrypting.php"},
}

// drivers are the drivers that FLED_ENCRYPTING names; a word of it is NAME or NAME=COMMAND.
func drivers() map[string][]string {
	chosen := map[string][]string{}
	for _, word := range strings.Fields(os.Getenv("FLED_ENCRYPTING")) {
		name, command, has := strings.Cut(word, "=")
		chosen[name] = append([]string(nil), clients[name]...)
		if has && len(chosen[name]) > 0 {
			chosen[name][0] = command
		}
	}
	return chosen
}

// Drivers with encryption of their own write and read by what the service marks, whichever way they find it, under a
// schema map and under the server's own schemas; no value comes to the server, or to a log.
func TestDrivers(t *testing.T) {
	chosen, program := drivers(), os.Getenv("FLED_PROGRAM")
	if len(chosen) == 0 || program == "" {
		t.Skip("FLED_ENCRYPTING names no driver, or FLED_PROGRAM no fled")
	}
	for name, words := range chosen {
		for _, schemas := range []string{"map", "remote"} {
			words, schemas := words, schemas
			t.Run(name+" by URI, "+schemas, func(t *testing.T) { byURI(t, words, schemas) })
			if name != "php" { // whose client takes a URI alone
				t.Run(name+" spawned, "+schemas, func(t *testing.T) { spawned(t, words, schemas, program) })
			}
		}
	}
}

// stored is a server with the keys of examples/, and the schema of people.
func stored(t *testing.T, schemas string) (server *mock.Server, schemaMap string) {
	t.Helper()
	server, schemaMap = mock.New(t), "-"
	server.Collections["__keyVault"] = split(t, "keys.bson")
	if server.Infos = split(t, "people.schemas.bson"); schemas == "map" {
		schemaMap = filepath.Join(t.TempDir(), "map")
		contents := bson.Wrap(bson.Append(nil, bson.Document, "hr.people", schema(t)))
		if err := os.WriteFile(schemaMap, contents, 0o600); err != nil {
			t.Fatal(err)
		}
		server.Infos = nil
	}
	go server.Listen()
	return server, schemaMap
}

// split are the documents of an example.
func split(t *testing.T, name string) [][]byte {
	t.Helper()
	contents, err := os.ReadFile("../../examples/" + name)
	if err != nil {
		t.Fatal(err)
	}
	var all [][]byte
	for len(contents) > 0 {
		length, err := bson.Length(contents)
		if err != nil {
			t.Fatal(err)
		}
		all, contents = append(all, contents[:length]), contents[length:]
	}
	return all
}

// runClient runs a client against the server and the service, and looks at what came to the server.
func runClient(t *testing.T, words []string, server *mock.Server, service, schemaMap, path string) {
	t.Helper()
	ctx, cancel := context.WithTimeout(context.Background(), 2*time.Minute)
	defer cancel()
	arguments := append(append([]string(nil), words[1:]...), server.Address(), service, schemaMap, counts)
	command := exec.CommandContext(ctx, words[0], arguments...)
	command.Env = append(os.Environ(), "PATH="+path)
	if said, err := command.CombinedOutput(); err != nil {
		t.Fatalf("%v\n%s", err, said)
	}
	server.Lock.Lock()
	defer server.Lock.Unlock()
	if bytes.Contains(server.Got, []byte(secret)) {
		t.Error("a value came to the server")
	}
	if bytes.Contains(server.Got, []byte("jsonSchema")) {
		t.Error("what is beside a command came to the server")
	}
	sealed := 0
	for _, field := range []string{"\x05ssn\x00", "\x05salary\x00"} {
		sealed += bytes.Count(server.Got, []byte(field))
	}
	if sealed < 20 {
		t.Errorf("the server has %d sealed values", sealed)
	}
	for _, message := range server.Commands {
		if count := bytes.Count(message.Contents, []byte("\x02$db\x00")); count != 1 {
			t.Errorf("%d $db in %q", count, message.Contents)
		}
	}
}

// wantLog fails unless a log has the refusals, by their fields, and no value.
func wantLog(t *testing.T, said string) {
	t.Helper()
	for _, part := range []string{`OperatorOnProtected at \"filter.ssn.$gt\"`, `TypeNotAllowed at \"documents.0.ssn\"`} {
		if !strings.Contains(said, part) || strings.Contains(said, secret) {
			t.Errorf("%s doesn't stand in %s", part, said)
		}
	}
}

func byURI(t *testing.T, words []string, schemas string) {
	server, schemaMap := stored(t, schemas)
	rig := startRig(t, nil)
	runClient(t, words, server, "mongodb://"+rig.address, schemaMap, os.Getenv("PATH"))
	wantLog(t, rig.said.String())
}

// spawned has the driver start the service by the name mongocryptd, in the place where PATH leads first; it outlives the
// driver, and ends by a signal.
func spawned(t *testing.T, words []string, schemas, program string) {
	server, schemaMap := stored(t, schemas)
	folder := t.TempDir()
	if err := os.Symlink(program, filepath.Join(folder, "mongocryptd")); err != nil {
		t.Fatal(err)
	}
	service := fmt.Sprintf("spawn:%d:%s", freePort(t), folder)
	runClient(t, words, server, service, schemaMap, folder+":"+os.Getenv("PATH"))
	said := func(name string) string {
		contents, _ := os.ReadFile(filepath.Join(folder, name))
		return string(contents)
	}
	number, err := strconv.Atoi(strings.TrimSpace(said("pid")))
	if err != nil {
		t.Fatal(err)
	}
	syscall.Kill(number, syscall.SIGTERM)
	mock.Within10s(t, func() bool { return said("pid") == "" })
	wantLog(t, said("log"))
	if !strings.Contains(said("log"), `"event":"ends"`) {
		t.Error(said("log"))
	}
}

// freePort is a port that nobody listens at, at this moment.
func freePort(t *testing.T) int {
	t.Helper()
	door := mock.Door(t)
	defer door.Close()
	return door.Addr().(*net.TCPAddr).Port
}
