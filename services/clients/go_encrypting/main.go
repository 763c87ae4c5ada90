//go:build driver && cse

// A client with encryption of its own: MongoDB's driver for Go, which asks a service what to seal.
// Use: go_encrypting HOST:PORT SERVICE SCHEMAS COUNTS
//
// SERVICE is the URI of one, or spawn:PORT:FOLDER to start mongocryptd there. SCHEMAS is a file with a schema map, or -
// for the server's own schemas. COUNTS is what counting comes to: refused, or counted.
//
// It is built in GOPATH's mode with these tags, over Debian's golang-mongodb-mongo-driver-dev and libmongocrypt-dev.
package main

import (
	"context"
	"fmt"
	"os"
	"strings"
	"sync"

	"go.mongodb.org/mongo-driver/bson"
	"go.mongodb.org/mongo-driver/mongo"
	"go.mongodb.org/mongo-driver/mongo/options"
)

func want(is bool, what string, err error) {
	if !is || err != nil {
		fmt.Println(what, "isn't so:", err)
		os.Exit(1)
	}
}

// refused fails unless an error says these, and no value.
func refused(err error, parts ...string) {
	want(err != nil && !strings.Contains(err.Error(), "SEKRET"), fmt.Sprint("a refusal ", err), nil)
	for _, part := range parts {
		want(strings.Contains(err.Error(), part), fmt.Sprint(err, " says ", part), nil)
	}
}

// extra are the options by which the driver finds or starts the service.
func extra(word string) map[string]interface{} {
	parts := strings.SplitN(word, ":", 3)
	if parts[0] != "spawn" {
		return map[string]interface{}{"mongocryptdURI": word, "mongocryptdBypassSpawn": true}
	}
	return map[string]interface{}{
		"mongocryptdURI": "mongodb://localhost:" + parts[1],
		"mongocryptdSpawnArgs": []string{"--idleShutdownTimeoutSecs=60", "--port", parts[1],
			"--pidfilepath=" + parts[2] + "/pid", "--logpath=" + parts[2] + "/log"},
	}
}

func connect(ctx context.Context, server, service, schemas string) *mongo.Client {
	master := make([]byte, 96)
	for i := range master {
		master[i] = byte(i)
	}
	encryption := options.AutoEncryption().SetKeyVaultNamespace("encryption.__keyVault").SetExtraOptions(extra(service)).
		SetKmsProviders(map[string]map[string]interface{}{"local": {"key": master}})
	if schemas != "-" {
		contents, err := os.ReadFile(schemas)
		want(true, "a schema map", err)
		elements, err := bson.Raw(contents).Elements()
		want(true, "its elements", err)
		schemaMap := map[string]interface{}{}
		for _, element := range elements {
			schemaMap[element.Key()] = element.Value().Document()
		}
		encryption.SetSchemaMap(schemaMap)
	}
	client, err := mongo.Connect(ctx, options.Client().ApplyURI("mongodb://"+server).SetAutoEncryptionOptions(encryption))
	want(true, "a connection", err)
	return client
}

func writeAndRead(ctx context.Context, people *mongo.Collection) {
	find := func(filter bson.M) (all []bson.M) {
		cursor, err := people.Find(ctx, filter)
		want(true, "a find", err)
		want(true, "its batches", cursor.All(ctx, &all))
		return all
	}
	var documents []interface{}
	for i := 0; i < 7; i++ {
		documents = append(documents, bson.D{{"_id", i}, {"ssn", "SEKRET-1"}, {"salary", fmt.Sprint("SEKRET-", i)}, {"n", i}})
	}
	_, err := people.InsertMany(ctx, documents)
	want(true, "seven inserts", err)
	found := find(bson.M{"ssn": "SEKRET-1"})
	want(len(found) == 7, "what was found", nil)
	for i, document := range found {
		want(document["salary"] == fmt.Sprint("SEKRET-", i), "a salary that was found", nil)
	}
	update := bson.M{"$set": bson.M{"salary": "SEKRET-new"}}
	changed, err := people.UpdateOne(ctx, bson.M{"ssn": "SEKRET-1", "n": 3}, update)
	want(changed.ModifiedCount == 1 && find(bson.M{"_id": 3})[0]["salary"] == "SEKRET-new", "an update", err)
	done, err := people.BulkWrite(ctx, []mongo.WriteModel{
		mongo.NewInsertOneModel().SetDocument(bson.M{"_id": 20, "ssn": "SEKRET-2"}),
		mongo.NewUpdateOneModel().SetFilter(bson.M{"_id": 20}).SetUpdate(bson.M{"$set": bson.M{"salary": "SEKRET-b"}}),
		mongo.NewDeleteOneModel().SetFilter(bson.M{"ssn": "SEKRET-1", "n": 6})})
	want(done.InsertedCount == 1 && done.ModifiedCount == 1 && done.DeletedCount == 1, "a bulk write", err)
	gone, err := people.DeleteOne(ctx, bson.M{"ssn": "SEKRET-2"})
	want(gone.DeletedCount == 1 && len(find(bson.M{"ssn": "SEKRET-2"})) == 0, "a delete", err)
	var counted struct{ N int }
	count := bson.D{{"count", "people"}, {"query", bson.M{"ssn": "SEKRET-1"}}}
	err = people.Database().RunCommand(ctx, count).Decode(&counted)
	want(counted.N == 6, "a count by a command", err)
}

// insertAtOnce writes by 16 goroutines.
func insertAtOnce(ctx context.Context, people *mongo.Collection) {
	var all sync.WaitGroup
	for i := 0; i < 16; i++ {
		all.Add(1)
		go func(i int) {
			defer all.Done()
			_, err := people.InsertOne(ctx, bson.M{"_id": 100 + i, "ssn": "SEKRET-g"})
			want(true, "an insert beside others", err)
		}(i)
	}
	all.Wait()
}

func main() {
	ctx := context.Background()
	client := connect(ctx, os.Args[1], os.Args[2], os.Args[3])
	people, free := client.Database("hr").Collection("people"), client.Database("hr").Collection("free")
	writeAndRead(ctx, people)
	_, err := people.Find(ctx, bson.M{"ssn": bson.M{"$gt": "SEKRET"}})
	refused(err, "OperatorOnProtected", "filter.ssn.$gt")
	_, err = people.InsertOne(ctx, bson.M{"ssn": nil, "salary": "SEKRET"})
	refused(err, "TypeNotAllowed", "documents.0.ssn")
	insertAtOnce(ctx, people)
	_, err = free.InsertOne(ctx, bson.M{"a": "b"})
	want(true, "an insert without rules", err)
	count, err := people.CountDocuments(ctx, bson.M{"ssn": "SEKRET-1"})
	if os.Args[4] == "refused" {
		refused(err, "NotACommand", "aggregate")
	} else {
		want(count == 6, "a count", err)
	}
	want(true, "an end", client.Disconnect(ctx))
}
