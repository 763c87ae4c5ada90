package mark

import (
	"bytes"
	"errors"
	"os"
	"sync"
	"testing"

	"fle"

	"fled/bson"
	"fled/mock"
	"fled/wire"
)

// withSchema is an example's command with a schema beside it, and what is marked of it.
func withSchema(t testing.TB, name string) (wire.Msg, []byte) {
	t.Helper()
	command, err := os.ReadFile("../../examples/" + name)
	if err != nil {
		t.Fatal(err)
	}
	var own []byte
	for _, element := range mock.Fields(command) {
		if element.Name != "$db" {
			own = append(own, element.Whole...)
		}
	}
	more := bson.Append(bson.AppendBool(nil, "isRemoteSchema", true), bson.Document, "jsonSchema", schema(t))
	return wire.Msg{Body: bson.Wrap(own, more, bson.AppendText(nil, "$db", "hr"))}, bson.Wrap(own)
}

// Under a schema that comes with a command there are the marks that the same infos make in a file, by 16 connections at
// once; without rules there are none.
func TestMarksOfExamples(t *testing.T) {
	infos, err := os.ReadFile("../../examples/people.schemas.bson")
	if err != nil {
		t.Fatal(err)
	}
	engine, err := fle.Open("hr", nil, infos, make([]byte, 96))
	if err != nil {
		t.Fatal(err)
	}
	rig, all := startRig(t, nil), sync.WaitGroup{}
	for _, name := range []string{"insert.bson", "find.bson", "delete.bson"} {
		msg, own := withSchema(t, name)
		wanted, err := engine.Mark("hr", own)
		if err != nil || !bytes.Contains(wanted, []byte("\x08hasEncryptionPlaceholders\x00\x01")) {
			t.Fatal(name, err)
		}
		for worker := 0; worker < 16; worker++ {
			all.Add(1)
			client := mock.Dial(t, rig.address)
			go func() {
				defer all.Done()
				for turn := 0; turn < 20; turn++ {
					fields := client.Command(msg)
					if !isOK(fields) || !bytes.Equal(whole(fields), wanted) {
						t.Errorf("%q in place of %q", fields, wanted)
						return
					}
				}
			}()
		}
	}
	all.Wait()
	client := mock.Dial(t, rig.address)
	fields := client.Command(beside("insert", "people", bson.Wrap(), documents(1, secret)))
	if !isOK(fields) || mock.Number(mock.Field(fields, "hasEncryptionPlaceholders")) != 0 ||
		mock.Number(mock.Field(fields, "schemaRequiresEncryption")) != 0 {
		t.Error(fields)
	}
}

// Without rules of its own collection a command isn't marked, and not taken for one without rules.
func TestRulesOfAnotherCollection(t *testing.T) {
	command, err := os.ReadFile("../../examples/insert.bson")
	if err != nil {
		t.Fatal(err)
	}
	for _, infos := range [][]byte{nil, bson.Wrap(bson.AppendText(nil, "name", "staff"))} {
		engine, err := open("hr", infos)
		if err != nil {
			t.Fatal(err)
		}
		reply, err := engine.Mark("hr", command)
		if told := (*fle.Error)(nil); !errors.As(err, &told) || told.Status != fle.NoInfo || reply != nil {
			t.Errorf("%d bytes, %v", len(reply), err)
		}
		engine.Close()
	}
}

// whole is the document of these fields.
func whole(fields []bson.Element) []byte {
	var all []byte
	for _, field := range fields {
		all = append(all, field.Whole...)
	}
	return bson.Wrap(all)
}

// More schemas than are kept: each command has the marks of its own.
func TestManySchemas(t *testing.T) {
	rig, rules := startRig(t, nil), schema(t)
	client := mock.Dial(t, rig.address)
	for turn := 0; turn < 3*mostEngines; turn++ {
		name := "people" + bson.Key(turn%(2*mostEngines))
		fields := client.Command(beside("insert", name, rules, documents(1, secret)))
		if mock.Number(mock.Field(fields, "hasEncryptionPlaceholders")) != 1 {
			t.Fatal(turn, fields)
		}
	}
	rig.engines.lock.Lock()
	defer rig.engines.lock.Unlock()
	if kept := len(rig.engines.kept); kept != mostEngines {
		t.Error(kept)
	}
}

// Markings a second, by one connection and by 16: go test -run=NONE -bench=Markings ./mark
func BenchmarkMarkings(b *testing.B) {
	for _, connections := range []int{1, 16} {
		b.Run(bson.Key(connections), func(b *testing.B) {
			rig := startRig(b, nil)
			msg, _ := withSchema(b, "insert.bson")
			message, all, turns := mock.Spelled(msg.Message(7, 0)), sync.WaitGroup{}, b.N/connections+1
			before := mock.Processed()
			b.ResetTimer()
			for worker := 0; worker < connections; worker++ {
				all.Add(1)
				client := mock.Dial(b, rig.address)
				go func() {
					defer all.Done()
					for turn := 0; turn < turns; turn++ {
						client.Write(message)
						if _, err := wire.Read(client.Conn, wire.MaxMessage); err != nil {
							b.Error(err)
							return
						}
					}
				}()
			}
			all.Wait()
			b.ReportMetric(float64(mock.Processed()-before)/float64(b.N), "cpu-ns/op")
		})
	}
}
