// Package journal writes the log of a service: a line of JSON for each event.
package journal

import (
	"encoding/json"
	"io"
	"strings"
	"sync"
	"time"
)

// most is how many bytes of a text are told: names of fields and of commands may have any length.
const most = 1000

// Log writes lines, whichever goroutines say them.
type Log struct {
	lock sync.Mutex
	to   io.Writer
}

// New is a log that goes there.
func New(to io.Writer) *Log {
	return &Log{to: to}
}

// Say writes one line: when, what has happened, and more of it as names and texts in turn, each text cut.
func (log *Log) Say(event string, pairs ...string) {
	pairs = append([]string{"time", time.Now().UTC().Format(time.RFC3339Nano), "event", event}, pairs...)
	line := []byte{'{'}
	for at := 0; at+1 < len(pairs); at += 2 {
		if at > 0 {
			line = append(line, ',')
		}
		line = append(append(line, quoted(pairs[at])...), ':')
		line = append(line, quoted(Cut(pairs[at+1]))...)
	}
	line = append(line, '}', '\n')
	log.lock.Lock()
	defer log.lock.Unlock()
	log.to.Write(line)
}

// quoted is a text as JSON has it. A text has one, so that there is no error.
func quoted(text string) []byte {
	spelled, _ := json.Marshal(text)
	return spelled
}

// Cut is a text of UTF-8 with no more than so many bytes that are told.
func Cut(text string) string {
	if len(text) > most {
		text = text[:most] + ".."
	}
	return strings.ToValidUTF8(text, "?")
}
