package proxy

import (
	"os"
	"path/filepath"
	"reflect"
	"testing"

	"fled/bson"
)

func TestCollectionsOfExamples(t *testing.T) {
	for file, wanted := range map[string]map[string]bool{
		"people.schemas.json":  {"people": true},
		"people.schemas.bson":  {"people": true},
		"clients.schemas.json": {"clients": true},
	} {
		infos, err := os.ReadFile(filepath.Join("../../examples", file))
		if err != nil {
			t.Fatal(err)
		}
		if names, err := collectionsOf(infos); err != nil || !reflect.DeepEqual(names, wanted) {
			t.Error(file, names, err)
		}
	}
}

func TestCollectionsThatAreListedOtherwise(t *testing.T) {
	view := bson.Wrap(bson.AppendText(nil, "name", "seen"), bson.AppendText(nil, "type", "view"))
	for infos, wanted := range map[string]map[string]bool{
		"":                                   {},
		string(view) + string(view):          {"seen": true},
		`[{"name":"a\u00e9"},{"name":"b"}]`:  {"aé": true, "b": true},
		` [ {"Name":"other", "name":"a"} ]`:  {"a": true},
		`[]`:                                 {},
		`[{"name":"a","type":"collection"}]`: {"a": true},
	} {
		if names, err := collectionsOf([]byte(infos)); err != nil || !reflect.DeepEqual(names, wanted) {
			t.Errorf("%q: %v %v", infos, names, err)
		}
	}
	for _, infos := range []string{`[{"Name":"a"}]`, `{"name":"a"}`, "[", string(view[:9]), string(view) + "x"} {
		if names, err := collectionsOf([]byte(infos)); err == nil {
			t.Errorf("%q: %v", infos, names)
		}
	}
}
