package fle

import (
	"os"
	"regexp"
	"strings"
	"testing"
)

// The Go of README.md is that of the examples, which run.
func TestThePageShowsTheExample(t *testing.T) {
	page, err := os.ReadFile("README.md")
	if err != nil {
		t.Fatal(err)
	}
	example, err := os.ReadFile("example_test.go")
	if err != nil {
		t.Fatal(err)
	}
	blocks := regexp.MustCompile("(?s)```go\n(.*?)```").FindAllSubmatch(page, -1)
	if len(blocks) != 1 {
		t.Fatalf("%d blocks of Go", len(blocks))
	}
	for _, line := range strings.Split(strings.TrimSpace(string(blocks[0][1])), "\n") {
		if !strings.Contains(string(example), "\n\t"+line+"\n") {
			t.Errorf("no example has the line %s", line)
		}
	}
}
