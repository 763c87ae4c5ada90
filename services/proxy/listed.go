package proxy

import (
	"encoding/json"
	"errors"

	"fled/bson"
)

var errNames = errors.New("collections whose names can't be read")

// collectionsOf gives the names of all infos, those of views too, of a file SCHEMAS that the library has taken.
func collectionsOf(infos []byte) (map[string]bool, error) {
	if isJSON(infos) {
		return collectionsOfJSON(infos)
	}
	names := map[string]bool{}
	for len(infos) > 0 {
		length, err := bson.Length(infos)
		if err != nil {
			return nil, errNames
		}
		walk := bson.Over(infos[:length])
		for element, has := walk.Next(); has; element, has = walk.Next() {
			if element.Name == "name" {
				name, _ := element.Text()
				names[name] = true
			}
		}
		if walk.Err() != nil {
			return nil, errNames
		}
		infos = infos[length:]
	}
	return names, nil
}

// isJSON tells a text from documents as the library does: by the fourth byte, which is that of a length below 16 MiB.
func isJSON(infos []byte) bool {
	return len(infos) > 0 && (len(infos) < 4 || infos[3] > 8)
}

// collectionsOfJSON reads the fields as they are spelled, which a struct would take in capitals too.
func collectionsOfJSON(infos []byte) (map[string]bool, error) {
	var all []map[string]json.RawMessage
	if err := json.Unmarshal(infos, &all); err != nil {
		return nil, errNames
	}
	names := map[string]bool{}
	for _, info := range all {
		var name string
		if err := json.Unmarshal(info["name"], &name); err != nil {
			return nil, errNames
		}
		names[name] = true
	}
	return names, nil
}
