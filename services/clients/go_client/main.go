//go:build driver

// A client without encryption: MongoDB's driver for Go through the proxy. Use: go_client HOST:PORT OPTIONS
//
// It is built in GOPATH's mode with the tag driver, over Debian's golang-mongodb-mongo-driver-dev.
package main

import (
	"context"
	"errors"
	"fmt"
	"os"
	"strings"

	"go.mongodb.org/mongo-driver/bson"
	"go.mongodb.org/mongo-driver/mongo"
	"go.mongodb.org/mongo-driver/mongo/options"
)

func want(is bool, what string, err error) {
	if !is || err != nil {
		fmt.Println(what, "isn't so:", err)
		os.Exit(1)
	}
}

// refused fails unless an error of the proxy says these.
func refused(err error, parts ...string) {
	told := mongo.CommandError{}
	want(errors.As(err, &told) && told.Code == 8000 && told.Name == "FleRefused", fmt.Sprint("a refusal ", err), nil)
	for _, part := range parts {
		want(strings.Contains(told.Message, part) && !strings.Contains(told.Message, "SEKRET"), told.Message, nil)
	}
}

func writeAndRead(ctx context.Context, people *mongo.Collection) {
	find := func(filter bson.M) (all []bson.M) {
		cursor, err := people.Find(ctx, filter)
		want(true, "a find", err)
		want(true, "its batches", cursor.All(ctx, &all))
		return all
	}
	var documents []interface{}
	for i := 0; i < 7; i++ {
		documents = append(documents, bson.D{{"_id", i}, {"ssn", "SEKRET-1"}, {"salary", fmt.Sprint("SEKRET-", i)}, {"n", i}})
	}
	_, err := people.InsertMany(ctx, documents)
	want(true, "seven inserts", err)
	found := find(bson.M{"ssn": "SEKRET-1"})
	want(len(found) == 7, "what was found", nil)
	for i, document := range found {
		want(document["salary"] == fmt.Sprint("SEKRET-", i), "a salary that was found", nil)
	}
	update := bson.M{"$set": bson.M{"salary": "SEKRET-new"}}
	changed, err := people.UpdateOne(ctx, bson.M{"ssn": "SEKRET-1", "n": 3}, update)
	want(changed.ModifiedCount == 1 && find(bson.M{"_id": 3})[0]["salary"] == "SEKRET-new", "an update", err)
	done, err := people.BulkWrite(ctx, []mongo.WriteModel{
		mongo.NewInsertOneModel().SetDocument(bson.M{"_id": 20, "ssn": "SEKRET-2"}),
		mongo.NewUpdateOneModel().SetFilter(bson.M{"_id": 20}).SetUpdate(bson.M{"$set": bson.M{"salary": "SEKRET-b"}}),
		mongo.NewDeleteOneModel().SetFilter(bson.M{"ssn": "SEKRET-1", "n": 6})})
	want(done.InsertedCount == 1 && done.ModifiedCount == 1 && done.DeletedCount == 1, "a bulk write", err)
	five, upsert := bson.M{"$set": bson.M{"salary": 5}}, options.Update().SetUpsert(true)
	put, err := people.UpdateOne(ctx, bson.M{"ssn": "SEKRET-9"}, five, upsert)
	want(put.UpsertedCount == 1 && find(bson.M{"ssn": "SEKRET-9"})[0]["salary"] == int32(5), "an upsert", err)
	gone, err := people.DeleteOne(ctx, bson.M{"ssn": "SEKRET-2"})
	want(gone.DeletedCount == 1 && len(find(bson.M{"ssn": "SEKRET-2"})) == 0, "a delete", err)
}

// count counts by the command of this name, which is sealed; what counts by aggregate is refused.
func count(ctx context.Context, people *mongo.Collection) {
	counted := bson.M{}
	command := bson.D{{"count", "people"}, {"query", bson.M{"ssn": "SEKRET-1"}}}
	err := people.Database().RunCommand(ctx, command).Decode(&counted)
	want(counted["n"] == int32(6), "a count", err)
	_, err = people.CountDocuments(ctx, bson.M{"ssn": "SEKRET-1"})
	refused(err, "NotACommand", "aggregate")
}

// useATransaction writes and reads within one.
func useATransaction(ctx context.Context, client *mongo.Client, people *mongo.Collection) {
	session, err := client.StartSession()
	want(true, "a session", err)
	defer session.EndSession(ctx)
	_, err = session.WithTransaction(ctx, func(within mongo.SessionContext) (interface{}, error) {
		if _, err := people.InsertOne(within, bson.M{"_id": 30, "ssn": "SEKRET-t"}); err != nil {
			return nil, err
		}
		return nil, people.FindOne(within, bson.M{"ssn": "SEKRET-t"}).Err()
	})
	want(true, "a transaction", err)
}

func main() {
	ctx := context.Background()
	client, err := mongo.Connect(ctx, options.Client().ApplyURI("mongodb://"+os.Args[1]+"/?"+os.Args[2]))
	want(true, "a connection", err)
	people := client.Database("hr").Collection("people")
	writeAndRead(ctx, people)
	count(ctx, people)
	if strings.Contains(os.Args[2], "replicaSet") {
		useATransaction(ctx, client, people)
	}
	_, err = people.Find(ctx, bson.M{"ssn": bson.M{"$gt": "SEKRET"}})
	refused(err, "OperatorOnProtected", "filter.ssn.$gt")
	_, err = people.InsertOne(ctx, bson.M{"ssn": nil, "salary": "SEKRET"})
	refused(err, "TypeNotAllowed", "documents.0.ssn")
	_, err = client.Database("other").Collection("people").InsertOne(ctx, bson.M{"ssn": "SEKRET"})
	refused(err, "Unsupported", "other")
	want(true, "an end", client.Disconnect(ctx))
}
