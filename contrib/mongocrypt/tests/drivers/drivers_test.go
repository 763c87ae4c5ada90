// Package drivers runs MongoDB's own drivers over libmongocrypt's interface of contrib/mongocrypt, against a mock server:
// clients of services/clients, and keys_client of tests. LD_LIBRARY_PATH leads the drivers to that library.
package drivers

import (
	"bytes"
	"context"
	"os"
	"os/exec"
	"path/filepath"
	"strings"
	"testing"
	"time"

	"fled/bson"
	"fled/mock"
)

// secret stands in each value that the clients protect.
const secret = "SEKRET"

// counts is what the clients are told that counting comes to.
const counts = "refused"

// clients are the programs of MONGOCRYPT_CLIENTS, whose words are NAME=PROGRAM.
func clients(t *testing.T) map[string]string {
	t.Helper()
	chosen := map[string]string{}
	for _, word := range strings.Fields(os.Getenv("MONGOCRYPT_CLIENTS")) {
		if name, program, has := strings.Cut(word, "="); has {
			chosen[name] = program
		}
	}
	return chosen
}

// split are the documents of an example.
func split(t *testing.T, name string) [][]byte {
	t.Helper()
	contents, err := os.ReadFile("../../../../examples/" + name)
	if err != nil {
		t.Fatal(err)
	}
	var all [][]byte
	for len(contents) > 0 {
		length, err := bson.Length(contents)
		if err != nil {
			t.Fatal(err)
		}
		all, contents = append(all, contents[:length]), contents[length:]
	}
	return all
}

// stored is a server with the keys of examples/, and the schema of people: its own, or in a file with a schema map.
func stored(t *testing.T, schemas string) (server *mock.Server, schemaMap string) {
	t.Helper()
	server, schemaMap = mock.New(t), "-"
	server.Collections["__keyVault"] = split(t, "keys.bson")
	if server.Infos = split(t, "people.schemas.bson"); schemas == "map" {
		schema := server.Infos[0]
		for _, name := range []string{"options", "validator", "$jsonSchema"} {
			schema = mock.Field(mock.Fields(schema), name).Value
		}
		schemaMap = filepath.Join(t.TempDir(), "map")
		if err := os.WriteFile(schemaMap, bson.Wrap(bson.Append(nil, bson.Document, "hr.people", schema)), 0o600); err != nil {
			t.Fatal(err)
		}
		server.Infos = nil
	}
	go server.Listen()
	return server, schemaMap
}

// run runs a client, and looks at what came to the server: sealed values, and no other.
func run(t *testing.T, server *mock.Server, least int, words ...string) {
	t.Helper()
	ctx, cancel := context.WithTimeout(context.Background(), time.Minute)
	defer cancel()
	if said, err := exec.CommandContext(ctx, words[0], words[1:]...).CombinedOutput(); err != nil {
		t.Fatalf("%v\n%s", err, said)
	}
	if server.Saw(secret) {
		t.Error("a value came to the server")
	}
	server.Lock.Lock()
	defer server.Lock.Unlock()
	sealed := bytes.Count(server.Got, []byte("\x05ssn\x00")) + bytes.Count(server.Got, []byte("\x05salary\x00"))
	if sealed < least {
		t.Errorf("the server has %d sealed values", sealed)
	}
}

// Drivers with encryption of their own write and read under a schema map, and under the server's own schemas; none asks
// the service in mongocryptd's place to mark a command.
func TestAutomatic(t *testing.T) {
	chosen := clients(t)
	delete(chosen, "keys")
	if len(chosen) == 0 {
		t.Skip("MONGOCRYPT_CLIENTS names no driver")
	}
	for name, program := range chosen {
		for _, schemas := range []string{"map", "remote"} {
			t.Run(name+", "+schemas, func(t *testing.T) {
				server, schemaMap := stored(t, schemas)
				service := mock.New(t)
				go service.Listen()
				run(t, server, 20, program, server.Address(), "mongodb://"+service.Address(), schemaMap, counts)
				for _, asked := range service.Names() {
					if !strings.EqualFold(asked, "ismaster") && asked != "hello" && asked != "endSessions" {
						t.Errorf("the driver asked a service for %s", asked)
					}
				}
			})
		}
	}
}

// libmongoc makes keys, seals values by themselves, rewraps keys, and writes by the threads of a pool.
func TestKeys(t *testing.T) {
	program := clients(t)["keys"]
	if program == "" {
		t.Skip("MONGOCRYPT_CLIENTS names no keys")
	}
	server := mock.New(t)
	go server.Listen()
	run(t, server, 200, program, server.Address())
	if stored := len(server.Collections["people"]); stored != 200 {
		t.Errorf("the server has %d documents", stored)
	}
}
