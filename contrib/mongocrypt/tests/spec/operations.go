//go:build driver && cse

package main

import (
	"context"
	"fmt"

	"go.mongodb.org/mongo-driver/bson"
	"go.mongodb.org/mongo-driver/mongo"
	"go.mongodb.org/mongo-driver/mongo/options"
)

var ctx = context.Background()

// operate does what a test says by an encrypting client, and answers its result.
func operate(operation bson.D, people *mongo.Collection) (interface{}, error) {
	words, _ := get(operation, "arguments").(bson.D)
	does, known := operations[get(operation, "name").(string)]
	if !known {
		panic("no operation " + get(operation, "name").(string))
	}
	return does(people, words)
}

var operations = map[string]func(*mongo.Collection, bson.D) (interface{}, error){
	"insertOne": func(people *mongo.Collection, words bson.D) (interface{}, error) {
		how := options.InsertOne()
		if get(words, "bypassDocumentValidation") == true {
			how.SetBypassDocumentValidation(true)
		}
		_, err := people.InsertOne(ctx, get(words, "document"), how)
		return nil, err
	},
	"insertMany": func(people *mongo.Collection, words bson.D) (interface{}, error) {
		_, err := people.InsertMany(ctx, get(words, "documents").(bson.A))
		return nil, err
	},
	"find": func(people *mongo.Collection, words bson.D) (interface{}, error) {
		how := options.Find()
		if size := number(words, "batchSize"); size > 0 {
			how.SetBatchSize(int32(size))
		}
		return all(people.Find(ctx, get(words, "filter"), how))
	},
	"findOne": func(people *mongo.Collection, words bson.D) (interface{}, error) {
		return one(people.FindOne(ctx, get(words, "filter")))
	},
	"updateOne": func(people *mongo.Collection, words bson.D) (interface{}, error) {
		how := options.Update()
		if get(words, "upsert") == true {
			how.SetUpsert(true)
		}
		if filters, has := get(words, "arrayFilters").(bson.A); has {
			how.SetArrayFilters(options.ArrayFilters{Filters: filters})
		}
		return counted(people.UpdateOne(ctx, get(words, "filter"), get(words, "update"), how))
	},
	"updateMany": func(people *mongo.Collection, words bson.D) (interface{}, error) {
		return counted(people.UpdateMany(ctx, get(words, "filter"), get(words, "update")))
	},
	"replaceOne": func(people *mongo.Collection, words bson.D) (interface{}, error) {
		return counted(people.ReplaceOne(ctx, get(words, "filter"), get(words, "replacement")))
	},
	"deleteOne": func(people *mongo.Collection, words bson.D) (interface{}, error) {
		return removed(people.DeleteOne(ctx, get(words, "filter")))
	},
	"deleteMany": func(people *mongo.Collection, words bson.D) (interface{}, error) {
		return removed(people.DeleteMany(ctx, get(words, "filter")))
	},
	"bulkWrite": bulkWrite,
	"count": func(people *mongo.Collection, words bson.D) (interface{}, error) {
		command := bson.D{{"count", people.Name()}, {"query", get(words, "filter")}}
		reply, err := one(people.Database().RunCommand(ctx, command))
		return get(reply, "n"), err
	},
	"countDocuments": func(people *mongo.Collection, words bson.D) (interface{}, error) {
		return people.CountDocuments(ctx, get(words, "filter"))
	},
	"distinct": func(people *mongo.Collection, words bson.D) (interface{}, error) {
		values, err := people.Distinct(ctx, get(words, "fieldName").(string), get(words, "filter"))
		return bson.A(values), err
	},
	"findOneAndDelete": func(people *mongo.Collection, words bson.D) (interface{}, error) {
		return one(people.FindOneAndDelete(ctx, get(words, "filter")))
	},
	"findOneAndReplace": func(people *mongo.Collection, words bson.D) (interface{}, error) {
		how := options.FindOneAndReplace().SetReturnDocument(returned(words))
		return one(people.FindOneAndReplace(ctx, get(words, "filter"), get(words, "replacement"), how))
	},
	"findOneAndUpdate": func(people *mongo.Collection, words bson.D) (interface{}, error) {
		how := options.FindOneAndUpdate().SetReturnDocument(returned(words))
		return one(people.FindOneAndUpdate(ctx, get(words, "filter"), get(words, "update"), how))
	},
	"aggregate": func(people *mongo.Collection, words bson.D) (interface{}, error) {
		return all(people.Aggregate(ctx, get(words, "pipeline")))
	},
	"runCommand": func(people *mongo.Collection, words bson.D) (interface{}, error) {
		return one(people.Database().RunCommand(ctx, get(words, "command")))
	},
	"mapReduce": func(people *mongo.Collection, words bson.D) (interface{}, error) {
		return one(people.Database().RunCommand(ctx, append(bson.D{{"mapReduce", people.Name()}}, words...)))
	},
}

func all(cursor *mongo.Cursor, err error) (interface{}, error) {
	if err != nil {
		return nil, err
	}
	var documents []bson.D
	err = cursor.All(ctx, &documents)
	list := bson.A{}
	for _, document := range documents {
		list = append(list, document)
	}
	return list, err
}

func one(result *mongo.SingleResult) (bson.D, error) {
	var document bson.D
	err := result.Decode(&document)
	return document, err
}

func counted(result *mongo.UpdateResult, err error) (interface{}, error) {
	if err != nil {
		return nil, err
	}
	return bson.D{{"matchedCount", result.MatchedCount}, {"modifiedCount", result.ModifiedCount},
		{"upsertedCount", result.UpsertedCount}}, nil
}

func removed(result *mongo.DeleteResult, err error) (interface{}, error) {
	if err != nil {
		return nil, err
	}
	return bson.D{{"deletedCount", result.DeletedCount}}, nil
}

func returned(words bson.D) options.ReturnDocument {
	if get(words, "returnDocument") == "After" {
		return options.After
	}
	return options.Before
}

func bulkWrite(people *mongo.Collection, words bson.D) (interface{}, error) {
	var models []mongo.WriteModel
	for _, request := range get(words, "requests").(bson.A) {
		words := get(request.(bson.D), "arguments").(bson.D)
		switch name := get(request.(bson.D), "name"); name {
		case "insertOne":
			models = append(models, mongo.NewInsertOneModel().SetDocument(get(words, "document")))
		case "updateOne":
			update := mongo.NewUpdateOneModel().SetFilter(get(words, "filter")).SetUpdate(get(words, "update"))
			models = append(models, update)
		case "deleteOne":
			models = append(models, mongo.NewDeleteOneModel().SetFilter(get(words, "filter")))
		default:
			panic(fmt.Sprint("no operation ", name))
		}
	}
	_, err := people.BulkWrite(ctx, models)
	return nil, err
}
