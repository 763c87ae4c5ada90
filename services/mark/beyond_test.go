package mark

import (
	"testing"

	"fled/bson"
	"fled/mock"
)

// What the library comes to for a command that it doesn't take, and for one without a field that it has to have; and
// what counting comes to by it that is an aggregate, as the clients of ../clients are told.
const (
	unknown = "Refused: NotACommand"
	lacking = "Refused: BadField"
	counts  = "refused"
)

// beyond are commands beyond insert, update, delete and find, each with what it comes to with rules, and without.
func beyond() []struct{ name, ruled, free string } {
	return []struct{ name, ruled, free string }{
		{"aggregate", unknown, unknown}, {"count", "", ""}, {"distinct", lacking, ""}, {"findAndModify", lacking, ""},
		{"findandmodify", unknown, unknown}, {"createIndexes", lacking, ""}, {"create", unknown, unknown},
		{"collMod", unknown, unknown}, {"drop", "", ""}, {"listIndexes", "", ""}, {"explain", unknown, unknown},
		{"mapReduce", unknown, unknown},
	}
}

func TestCommandsBeyondTheFour(t *testing.T) {
	rig := startRig(t, nil)
	client := mock.Dial(t, rig.address)
	for _, one := range beyond() {
		for rules, comesTo := range map[string]string{string(schema(t)): one.ruled, string(bson.Wrap()): one.free} {
			fields := client.Command(beside(one.name, "people", []byte(rules)))
			switch {
			case comesTo == "" && !isOK(fields):
				t.Error(one.name, fields)
			case comesTo == unknown:
				wantRefused(t, fields, comesTo, `"`+one.name+`"`)
			case comesTo != "":
				wantRefused(t, fields, comesTo)
			}
		}
	}
}

// In a command that is taken no value stands where none belongs.
func TestValuesWhereNoneBelong(t *testing.T) {
	client := mock.Dial(t, startRig(t, nil).address)
	said := bson.Append(nil, bson.Document, "sort", bson.Wrap(bson.AppendText(nil, "ssn", secret)))
	wantRefused(t, client.Command(beside("find", "people", schema(t), said)), "Refused: FieldNotAllowed", `"sort.ssn"`)
}
