package journal

import (
	"bytes"
	"encoding/json"
	"strings"
	"sync"
	"testing"
	"time"
)

func TestALine(t *testing.T) {
	var to bytes.Buffer
	New(&to).Say("refused", "client", "127.0.0.1:1", "why", "at \"a\n\xff\"")
	told := map[string]string{}
	if err := json.Unmarshal(to.Bytes(), &told); err != nil || strings.Count(to.String(), "\n") != 1 {
		t.Fatal(to.String(), err)
	}
	if at, err := time.Parse(time.RFC3339Nano, told["time"]); err != nil || time.Since(at) > time.Minute {
		t.Error(told["time"], err)
	}
	delete(told, "time")
	if len(told) != 3 || told["event"] != "refused" || told["client"] != "127.0.0.1:1" || told["why"] != "at \"a\n?\"" {
		t.Error(told)
	}
}

func TestALongText(t *testing.T) {
	var to bytes.Buffer
	New(&to).Say("refused", "why", strings.Repeat("\xff", 100_000))
	if to.Len() > 2*most {
		t.Error(to.Len())
	}
}

// Lines of many goroutines stand one behind the other.
func TestLinesAtOnce(t *testing.T) {
	var to bytes.Buffer
	log, all := New(&to), sync.WaitGroup{}
	for turn := 0; turn < 100; turn++ {
		all.Add(1)
		go func() { defer all.Done(); log.Say("refused", "why", strings.Repeat("x", 200)) }()
	}
	all.Wait()
	lines := strings.Split(strings.TrimSuffix(to.String(), "\n"), "\n")
	for _, line := range lines {
		if told := map[string]string{}; json.Unmarshal([]byte(line), &told) != nil {
			t.Error(line)
		}
	}
	if len(lines) != 100 {
		t.Error(len(lines))
	}
}
