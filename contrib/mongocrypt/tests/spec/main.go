//go:build driver && cse

// MongoDB's own tests of client-side encryption, run by its driver for Go before a server in memory.
// Use: spec FOLDER DIFFERING
//
// FOLDER is data/client-side-encryption of the driver's source. Its keys are of AWS, which nobody can open here: a local
// one takes their place, under the same id and names, and payloads whose value the tests tell are sealed anew. Tests of
// other providers are left out. DIFFERING has a line `FILE: TEST: why` of each test that ends otherwise; whatever
// differs beside these, and a line of a test that passes, is told, and makes the status 1.
//
// It is built in GOPATH's mode with these tags, over Debian's golang-mongodb-mongo-driver-dev and libmongocrypt-dev.
package main

import (
	"context"
	"fmt"
	"os"
	"path/filepath"
	"strings"
	"sync"

	"go.mongodb.org/mongo-driver/bson"
	"go.mongodb.org/mongo-driver/event"
	"go.mongodb.org/mongo-driver/mongo"
	"go.mongodb.org/mongo-driver/mongo/options"
)

func must(err error) {
	if err != nil {
		panic(err)
	}
}

// get is the value that names lead to, or nil.
func get(document bson.D, names ...string) interface{} {
	for _, field := range document {
		if field.Key == names[0] {
			if inner, is := field.Value.(bson.D); is && len(names) > 1 {
				return get(inner, names[1:]...)
			}
			return field.Value
		}
	}
	return nil
}

// A run has a server, a client without encryption, and the keys and payloads in place of those of the tests.
type run struct {
	plain  *mongo.Client
	server *server
	local  local
	uri    string
}

// started are the commands of a client, but for greetings.
type started struct {
	lock     sync.Mutex
	commands []bson.D
}

func (s *started) add(_ context.Context, told *event.CommandStartedEvent) {
	s.lock.Lock()
	defer s.lock.Unlock()
	var command bson.D
	must(bson.Unmarshal(told.Command, &command))
	if name := told.CommandName; name != "isMaster" && name != "hello" && name != "endSessions" {
		s.commands = append(s.commands, command)
	}
}

// begin puts a test's documents, keys and schema on the server.
func (r *run) begin(file bson.D) (people *mongo.Collection) {
	name := get(file, "collection_name").(string)
	people = r.plain.Database(get(file, "database_name").(string)).Collection(name)
	r.server.lock.Lock()
	r.server.data, r.server.infos = map[string][]bson.D{}, map[string][]bson.D{}
	r.server.lock.Unlock()
	if keys, _ := get(file, "key_vault_data").(bson.A); len(keys) > 0 {
		_, err := r.plain.Database("keyvault").Collection("datakeys").InsertMany(ctx, keys)
		must(err)
	}
	if data, _ := get(file, "data").(bson.A); len(data) > 0 {
		_, err := people.InsertMany(ctx, data)
		must(err)
	}
	if schema, _ := get(file, "json_schema").(bson.D); len(schema) > 0 {
		must(people.Database().RunCommand(ctx, bson.D{{"create", name}, {"validator", bson.D{{"$jsonSchema", schema}}}}).Err())
	}
	return people
}

// encrypting is a client with the options of a test, which may be refused.
func (r *run) encrypting(test bson.D, space string, monitor *event.CommandMonitor) (*mongo.Client, error) {
	words, _ := get(test, "clientOptions", "autoEncryptOpts").(bson.D)
	encryption := options.AutoEncryption().SetKmsProviders(providers).SetKeyVaultNamespace(space).
		SetExtraOptions(map[string]interface{}{"mongocryptdBypassSpawn": true}).
		SetBypassAutoEncryption(get(words, "bypassAutoEncryption") == true)
	schemas := map[string]interface{}{}
	schemaMap, _ := get(words, "schemaMap").(bson.D)
	for _, field := range schemaMap {
		schemas[field.Key] = field.Value
	}
	if len(schemas) > 0 {
		encryption.SetSchemaMap(schemas)
	}
	return mongo.Connect(ctx, options.Client().ApplyURI(r.uri).SetMonitor(monitor).SetAutoEncryptionOptions(encryption))
}

// ended is what is wrong with the end of an operation, if anything; and whether the server lacks an operator.
func ended(operation bson.D, got interface{}, err error) (wrong string, unknown bool) {
	want := get(operation, "result")
	fields, _ := want.(bson.D)
	switch contains := get(fields, "errorContains"); {
	case contains != nil && err == nil:
		return fmt.Sprintf("%v isn't refused (%v)", get(operation, "name"), contains), false
	case contains != nil:
		return "", false
	case err != nil && strings.Contains(err.Error(), lacks):
		return "", true
	case err != nil:
		return fmt.Sprintf("%v: %v", get(operation, "name"), err), false
	case want != nil && got != nil:
		return unlike(want, got, "result"), false
	}
	return "", false
}

// judge is what is wrong with a test.
func (r *run) judge(file, test bson.D) (wrong []string, unknown bool) {
	space, named := get(test, "clientOptions", "autoEncryptOpts", "keyVaultNamespace").(string)
	if !named {
		space = "keyvault.datakeys"
	}
	plain, seen := r.begin(file), &started{}
	client, refused := r.encrypting(test, space, &event.CommandMonitor{Started: seen.add})
	for _, operation := range get(test, "operations").(bson.A) {
		got, err := interface{}(nil), refused
		if refused == nil {
			people := client.Database(plain.Database().Name()).Collection(plain.Name())
			got, err = operate(operation.(bson.D), people)
		}
		said, here := ended(operation.(bson.D), got, err)
		wrong, unknown = append(wrong, said), unknown || here
	}
	if refused == nil {
		must(client.Disconnect(ctx))
	}
	expected, _ := get(test, "expectations").(bson.A)
	if len(expected) > 0 && len(expected) != len(seen.commands) {
		wrong = append(wrong, fmt.Sprintf("%d commands of %d", len(seen.commands), len(expected)))
	}
	for at, one := range expected {
		if at < len(seen.commands) {
			wrong = append(wrong, unlike(get(one.(bson.D), "command_started_event", "command"), seen.commands[at], "command"))
		}
	}
	if data := get(test, "outcome", "collection", "data"); data != nil && !unknown {
		got, err := all(plain.Find(ctx, bson.D{}))
		must(err)
		wrong = append(wrong, unlike(data, got, "outcome"))
	}
	return wrong, unknown
}

// told has the lines of DIFFERING, by FILE: TEST.
func told(path string) map[string]string {
	contents, err := os.ReadFile(path)
	must(err)
	lines := map[string]string{}
	for _, line := range strings.Split(strings.TrimSpace(string(contents)), "\n") {
		parts := strings.Split(line, ": ")
		if len(parts) < 3 {
			continue
		}
		lines[strings.Join(parts[:len(parts)-1], ": ")] = parts[len(parts)-1]
	}
	return lines
}

func main() {
	server := &server{cursors: map[int64][]interface{}{}}
	uri := "mongodb://" + server.listen()
	plain, err := mongo.Connect(ctx, options.Client().ApplyURI(uri))
	must(err)
	r := run{plain, server, local{}, uri}
	server.data, server.infos = map[string][]bson.D{}, map[string][]bson.D{}
	r.local = newLocal(plain)
	differing, as, partly, bad := told(os.Args[2]), 0, 0, false
	files, err := filepath.Glob(os.Args[1] + "/*.json")
	must(err)
	for _, path := range files {
		file := r.local.read(path)
		if file == nil {
			continue
		}
		for _, test := range get(file, "tests").(bson.A) {
			name := filepath.Base(path) + ": " + get(test.(bson.D), "description").(string)
			wrong, unknown := r.judge(file, test.(bson.D))
			said := strings.TrimSpace(strings.Join(wrong, " "))
			if why := differing[name]; (said == "") != (why == "") {
				fmt.Printf("%s: %s (in DIFFERING: %q)\n", name, said, why)
				bad = true
			}
			delete(differing, name)
			if said == "" {
				as++
			}
			if unknown {
				partly++
			}
		}
	}
	for name := range differing {
		fmt.Println(name, "is no test")
		bad = true
	}
	fmt.Printf("%d tests end as they should, %d of them by refusals alone\n", as, partly)
	if bad {
		os.Exit(1)
	}
}
