package fle

import (
	"bytes"
	"fmt"
	"os/exec"
	"strings"
	"testing"
)

// program is what fle answers to these words and this input: its output, and its line.
func program(t *testing.T, input []byte, words ...string) ([]byte, string) {
	t.Helper()
	path, err := exec.LookPath("fle")
	if err != nil {
		t.Skip("no fle in PATH")
	}
	command, out, line := exec.Command(path, words...), bytes.Buffer{}, bytes.Buffer{}
	command.Dir, command.Stdin, command.Stdout, command.Stderr = examples, bytes.NewReader(input), &out, &line
	if err := command.Run(); (err == nil) != (line.Len() == 0) {
		t.Fatal(err, line.String())
	}
	return out.Bytes(), line.String()
}

// explained is the first line that contrib/fle-explain says of a line of the program, where a document is its input.
func explained(t *testing.T, line, document string) string {
	t.Helper()
	explain := exec.Command("../fle-explain", "--input", examples+document)
	explain.Stdin = strings.NewReader(line)
	said, err := explain.Output()
	if err != nil {
		t.Fatal(err)
	}
	first, _, _ := strings.Cut(string(said), "\n")
	return first
}

// joined are names as fle-explain writes them behind a place: one with a dot in it stands in quotes.
func joined(names []string) string {
	var parts []string
	for _, name := range names {
		if strings.Contains(name, ".") {
			name = `"` + name + `"`
		}
		parts = append(parts, name)
	}
	if parts == nil {
		return ""
	}
	return ", " + strings.Join(parts, ".")
}

func TestTheProgramOpensWhatIsSealed(t *testing.T) {
	for command, infos := range map[string]string{
		"insert.bson": "people.schemas.bson", "update.bson": "staff.schemas.json",
		"insert-clients.bson": "clients.schemas.json",
	} {
		bytesOf := sealed(t, opened(t, infos), file(t, command))
		again, line := program(t, bytesOf, "decrypt", "keys.bson", "EXAMPLE-ONLY.master")
		if line != "" || !bytes.Equal(again, file(t, command)) {
			t.Errorf("%s comes back otherwise: %s", command, line)
		}
	}
}

func TestDeterministicValuesAreSealedAsByTheProgram(t *testing.T) {
	engine := opened(t, "people.schemas.bson")
	for _, name := range []string{"insert.bson", "find.bson", "delete.bson", "ping.bson"} {
		command := file(t, name)
		wanted, line := program(t, command, "encrypt", "hr", "keys.bson", "people.schemas.bson", "EXAMPLE-ONLY.master")
		if line != "" || !bytes.Equal(sealed(t, engine, command), wanted) {
			t.Errorf("%s is sealed otherwise: %s", name, line)
		}
		if again, err := engine.Unseal(wanted); err != nil || !bytes.Equal(again, command) {
			t.Error("what the program sealed opens otherwise", err)
		}
	}
}

// The example commands, each with infos that have rules for its collection.
var underRules = map[string]string{
	"insert.bson": "people.schemas.bson", "find.bson": "people.schemas.json", "delete.bson": "people.schemas.bson",
	"insert-staff.bson": "staff.schemas.bson", "update.bson": "staff.schemas.json", "ping.bson": "people.schemas.bson",
	"insert-scores.bson": "scores.schemas.json", "insert-clients.bson": "clients.schemas.json",
}

func TestMarkingRepliesAreTheProgramsOwn(t *testing.T) {
	for command, infos := range underRules {
		wanted, line := program(t, file(t, command), "mark", "hr", infos)
		reply, err := opened(t, infos).Mark("hr", file(t, command))
		if line != "" || err != nil || !bytes.Equal(reply, wanted) {
			t.Errorf("%s is marked otherwise: %s, %v", command, line, err)
		}
	}
}

// A value that is sealed by itself has the payload that it has in a command which the program sealed.
func TestValuesAreSealedAsByTheProgram(t *testing.T) {
	words := []string{"encrypt", "hr", "keys.bson", "people.schemas.bson", "EXAMPLE-ONLY.master"}
	command, line := program(t, file(t, "insert.bson"), words...)
	engine, plain := opened(t, "people.schemas.bson"), document(text("ssn", secret))
	for _, key := range []Key{ByID(idOf(vault(t)[0])), ByName("hr-key")} {
		bytesOf, err := engine.SealValue(key, Deterministic, plain)
		if line != "" || err != nil || !bytes.Contains(command, bytesOf[4:len(bytesOf)-1]) {
			t.Errorf("a value is sealed otherwise: %s, %v", line, err)
		}
	}
}

func TestTheProgramOpensValues(t *testing.T) {
	engine, plain := opened(t, "people.schemas.bson"), document(text("v", secret))
	for _, algorithm := range []Algorithm{Deterministic, Random} {
		bytesOf, err := engine.SealValue(ByName("audit"), algorithm, plain)
		if err != nil {
			t.Fatal(err)
		}
		again, line := program(t, bytesOf, "decrypt", "keys.bson", "EXAMPLE-ONLY.master")
		if line != "" || !bytes.Equal(again, plain) {
			t.Errorf("a value comes back otherwise: %s", line)
		}
	}
}

// A refusal has the status and the reason of the program's line, and the fields that fle-explain finds for it.
func TestRefusalsAreTheProgramsOwn(t *testing.T) {
	for _, one := range refused {
		name := "refused/" + one.file + ".bson"
		bytesOf, err := opened(t, one.infos).Seal("hr", file(t, name))
		told := refusal(t, bytesOf, err)
		_, line := program(t, file(t, name), "encrypt", "hr", "keys.bson", one.infos, "EXAMPLE-ONLY.master")
		var place string
		if _, err := fmt.Sscanf(line, fmt.Sprintf("fle: %d 1 %d %%s", told.Status, told.Number), &place); err != nil {
			t.Errorf("%s: %v, and the program says %s", name, told, line)
			continue
		}
		wanted := fmt.Sprintf("Document 1, place %s: reason %d, %s.", place+joined(told.Fields), told.Number, told.Reason)
		if said := explained(t, line, name); said != wanted {
			t.Errorf("%q in place of %q", said, wanted)
		}
	}
}
