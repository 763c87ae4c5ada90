//go:build driver && cse

package main

import (
	"bytes"
	"encoding/base64"
	"fmt"
	"os"
	"reflect"

	"go.mongodb.org/mongo-driver/bson"
	"go.mongodb.org/mongo-driver/bson/primitive"
	"go.mongodb.org/mongo-driver/mongo"
	"go.mongodb.org/mongo-driver/mongo/options"
)

const algorithm = "AEAD_AES_256_CBC_HMAC_SHA_512-"

// providers have the master key of MongoDB's tests.
var providers = func() map[string]map[string]interface{} {
	key, err := base64.StdEncoding.DecodeString("Mng0NCt4ZHVUYUJCa1kxNkVyNUR1QURhZ2h2UzR2d2RrZzh0cFBwM3R6NmdWMDFBMUN3YkQ" +
		"5aXRRMkhGRGdQV09wOGVNYUMxT2k3NjZKelhaQmRCZGJkTXVyZG9uSjFk")
	must(err)
	return map[string]map[string]interface{}{"local": {"key": key}}
}()

// known are payloads of the tests by how they begin, and their values.
var known = map[string][2]string{
	"AQAAAAAAAAAAAAAAAAAAAAACwj+3": {"Deterministic", "string0"},
	"AQAAAAAAAAAAAAAAAAAAAAACDdw4": {"Deterministic", "string1"},
	"AQAAAAAAAAAAAAAAAAAAAAACQ76H": {"Deterministic", "string2"},
	"AgAAAAAAAAAAAAAAAAAAAAACyfp+": {"Random", "abc"},
}

// local is the key that stands for those of AWS, and the known payloads under it.
type local struct {
	material primitive.Binary
	payloads map[string][]byte
}

// newLocal makes the key by the library under test. The id of a key isn't part of what its material is sealed with.
func newLocal(plain *mongo.Client) local {
	how := options.ClientEncryption().SetKmsProviders(providers).SetKeyVaultNamespace("made.keys")
	vault, err := mongo.NewClientEncryption(plain, how)
	must(err)
	_, err = vault.CreateDataKey(ctx, "local", options.DataKey().SetKeyAltNames([]string{"altname", "another_altname"}))
	must(err)
	keys := plain.Database("made").Collection("keys")
	key, err := one(keys.FindOne(ctx, bson.D{}))
	must(err)
	id := primitive.Binary{Subtype: 4, Data: make([]byte, 16)}
	_, err = keys.DeleteMany(ctx, bson.D{})
	must(err)
	_, err = keys.InsertOne(ctx, append(bson.D{{"_id", id}}, put(key, "_id", nil)...))
	must(err)
	made := local{get(key, "keyMaterial").(primitive.Binary), map[string][]byte{}}
	for begins, value := range known {
		kind, text, err := bson.MarshalValue(value[1])
		must(err)
		how := options.Encrypt().SetKeyID(id).SetAlgorithm(algorithm + value[0])
		payload, err := vault.Encrypt(ctx, bson.RawValue{Type: kind, Value: text}, how)
		must(err)
		made.payloads[begins] = payload.Data
	}
	return made
}

// read is a file of tests, or nil where its keys are of other providers than AWS and local.
func (l local) read(path string) bson.D {
	contents, err := os.ReadFile(path)
	must(err)
	var file bson.D
	must(bson.UnmarshalExtJSON(contents, false, &file))
	keys, _ := get(file, "key_vault_data").(bson.A)
	for _, key := range keys {
		if provider := get(key.(bson.D), "masterKey", "provider"); provider != "aws" && provider != "local" {
			return nil
		}
	}
	return l.put(file).(bson.D)
}

// put puts the key and the payloads in place of the tests' own.
func (l local) put(value interface{}) interface{} {
	switch old := value.(type) {
	case bson.D:
		if get(old, "masterKey", "provider") == "aws" && get(old, "keyMaterial") != nil {
			old = append(put(put(old, "masterKey", nil), "keyMaterial", nil), bson.E{Key: "keyMaterial", Value: l.material},
				bson.E{Key: "masterKey", Value: bson.D{{"provider", "local"}}})
		}
		made := bson.D{}
		for _, field := range old {
			made = append(made, bson.E{Key: field.Key, Value: l.put(field.Value)})
		}
		return made
	case bson.A:
		made := bson.A{}
		for _, one := range old {
			made = append(made, l.put(one))
		}
		return made
	case primitive.Binary:
		begins := base64.StdEncoding.EncodeToString(old.Data)
		if old.Subtype == 6 && len(begins) > 28 && l.payloads[begins[:28]] != nil {
			return primitive.Binary{Subtype: 6, Data: l.payloads[begins[:28]]}
		}
	}
	return value
}

// unlike says where a value isn't as it should be. Fields that aren't named may be there, {$eq: x} is x, and payloads
// are alike in what stands before their IV, and in length: of most the tests' own key isn't known.
func unlike(want, got interface{}, way string) string {
	switch wanted := want.(type) {
	case bson.D:
		return unlikeFields(wanted, got, way)
	case bson.A:
		list, _ := got.(bson.A)
		if len(list) != len(wanted) {
			return fmt.Sprintf("%s: %v for %v;", way, got, want)
		}
		for at := range wanted {
			if said := unlike(wanted[at], list[at], fmt.Sprint(way, ".", at)); said != "" {
				return said
			}
		}
		return ""
	case primitive.Binary:
		payload, _ := got.(primitive.Binary)
		is := wanted.Subtype == 6 && payload.Subtype == 6 && len(payload.Data) == len(wanted.Data)
		if is && bytes.Equal(payload.Data[:18], wanted.Data[:18]) {
			return ""
		}
	case int32, int64, int:
		if fmt.Sprint(want) == fmt.Sprint(got) {
			return ""
		}
	}
	if reflect.DeepEqual(want, got) {
		return ""
	}
	return fmt.Sprintf("%s: %v for %v;", way, got, want)
}

func unlikeFields(wanted bson.D, got interface{}, way string) string {
	document, is := got.(bson.D)
	if len(wanted) == 1 && wanted[0].Key == "$eq" && get(document, "$eq") == nil {
		return unlike(wanted[0].Value, got, way)
	}
	if len(wanted) == 1 && wanted[0].Key == "$$type" {
		if payload, is := got.(primitive.Binary); wanted[0].Value == "binData" && (!is || payload.Subtype != 6) {
			return way + " is no payload;"
		}
		return ""
	}
	if !is {
		return fmt.Sprintf("%s: %v for a document;", way, got)
	}
	for _, field := range wanted {
		if said := unlike(field.Value, get(document, field.Key), way+"."+field.Key); said != "" {
			return said
		}
	}
	return ""
}
