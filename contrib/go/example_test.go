package fle_test

import (
	"errors"
	"fmt"
	"os"

	"fle"
)

func Example() {
	keys, _ := os.ReadFile("../../examples/keys.bson")
	infos, _ := os.ReadFile("../../examples/people.schemas.json")
	master, _ := os.ReadFile("../../examples/EXAMPLE-ONLY.master")
	command, _ := os.ReadFile("../../examples/insert.bson") // or bson.Marshal(command), of MongoDB's driver

	engine, err := fle.Open("hr", keys, infos, master)
	if err != nil {
		fmt.Println(err)
		return
	}
	defer engine.Close()
	sealed, err := engine.Seal("hr", command) // send these bytes
	fmt.Println(len(command), len(sealed), err)
	opened, err := engine.Unseal(sealed)
	fmt.Println(string(opened) == string(command), err)
	// Output:
	// 88 175 <nil>
	// true <nil>
}

func ExampleError() {
	keys, _ := os.ReadFile("../../examples/keys.bson")
	infos, _ := os.ReadFile("../../examples/people.schemas.json")
	master, _ := os.ReadFile("../../examples/EXAMPLE-ONLY.master")
	command, _ := os.ReadFile("../../examples/refused/null-value.bson")

	engine, err := fle.Open("hr", keys, infos, master)
	if err != nil {
		fmt.Println(err)
		return
	}
	defer engine.Close()
	_, err = engine.Seal("hr", command)
	if told := (*fle.Error)(nil); errors.As(err, &told) {
		fmt.Println(told.Status, told.Reason, told.Fields, told.Place)
	}
	fmt.Println(err)
	// Output:
	// Refused TypeNotAllowed [documents 0 ssn] 50
	// fle: Refused: TypeNotAllowed at "documents.0.ssn"
}

func ExampleEngine_KeysWanted() {
	infos, _ := os.ReadFile("../../examples/people.schemas.json")
	master, _ := os.ReadFile("../../examples/EXAMPLE-ONLY.master")
	command, _ := os.ReadFile("../../examples/insert.bson")

	engine, err := fle.Open("hr", nil, infos, master)
	if err != nil {
		fmt.Println(err)
		return
	}
	defer engine.Close()
	filter, random, err := engine.KeysWanted("hr", command) // find by this in the key vault, put what comes
	fmt.Println(len(filter), random, err)
	// Output: 103 0 <nil>
}

func ExampleStart() {
	keys, _ := os.ReadFile("../../examples/keys.bson")
	info, _ := os.ReadFile("../../examples/people.schemas.bson")
	master, _ := os.ReadFile("../../examples/EXAMPLE-ONLY.master")
	command, _ := os.ReadFile("../../examples/insert.bson")

	engine, err := fle.Start(master)
	if err != nil {
		fmt.Println(err)
		return
	}
	defer engine.Close()
	_, err = engine.Seal("hr", command)
	fmt.Println(err)
	filter, err := engine.InfoWanted("hr", command) // for a listCollections of hr
	fmt.Println(len(filter), err, engine.PutInfo("hr", info))
	filter, _, err = engine.KeysWanted("hr", command) // for a find in the key vault
	fmt.Println(len(filter), err, engine.PutKey(keys[:331]))
	sealed, err := engine.Seal("hr", command)
	fmt.Println(len(command), len(sealed), err)
	// Output:
	// fle: NoInfo: the engine wasn't told of the collection
	// 22 <nil> <nil>
	// 103 <nil> <nil>
	// 88 175 <nil>
}

func ExampleEngine_SealValue() {
	keys, _ := os.ReadFile("../../examples/keys.bson")
	infos, _ := os.ReadFile("../../examples/people.schemas.json")
	master, _ := os.ReadFile("../../examples/EXAMPLE-ONLY.master")
	value := []byte("\x12\x00\x00\x00\x02v\x00\x06\x00\x00\x00hello\x00\x00") // or bson.Marshal(bson.M{"v": "hello"})

	engine, err := fle.Open("hr", keys, infos, master)
	if err != nil {
		fmt.Println(err)
		return
	}
	defer engine.Close()
	sealed, err := engine.SealValue(fle.ByName("hr-key"), fle.Random, value)
	fmt.Println(len(value), len(sealed), err)
	opened, err := engine.Unseal(sealed)
	fmt.Println(string(opened) == string(value), err)
	// Output:
	// 18 95 <nil>
	// true <nil>
}
