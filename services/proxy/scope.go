package proxy

import (
	"fmt"
	"strings"

	"fled/bson"
	"fled/refusal"
)

// The names of commands that are looked at, each as a server spells it.
var (
	// passing commands are of the handshake, of authentication, sessions and transactions: they pass to a database
	// without rules, with the names of their own that the library knows. Those of hellos are helloNames.
	passing = words(`abortTransaction authenticate buildInfo commitTransaction endSessions getnonce killAllSessions
		killAllSessionsByPattern killSessions logout ping refreshSessions saslContinue saslStart startSession`)
	// unlisted commands may name no collection, or one that SCHEMAS doesn't list: the library says which pass.
	unlisted = words(`abortTransaction authenticate buildInfo commitTransaction endSessions getMore getnonce
		killAllSessions killAllSessionsByPattern killCursors killSessions listCollections listDatabases logout ping
		refreshSessions saslContinue saslStart startSession`)
)

func words(text string) map[string]bool {
	found := map[string]bool{}
	for _, word := range strings.Fields(text) {
		found[word] = true
	}
	return found
}

// command is what a command's body says of where it goes.
type command struct {
	name       string // of its first element, which is that of the command
	collection string // the text of that element, where it is one
	isNamed    bool   // whether it is
	db         string
}

// readCommand reads a body as far as its own elements.
func readCommand(body []byte) (command, error) {
	walk := bson.Over(body)
	first, has := walk.Next()
	if !has {
		return command{}, refusal.ErrBody
	}
	read, found := command{name: first.Name}, 0
	read.collection, read.isNamed = first.Text()
	for element, has := walk.Next(); has; element, has = walk.Next() {
		if element.Name != "$db" {
			continue
		}
		text, isText := element.Text()
		if found++; !isText {
			return read, refusal.ErrDb
		}
		read.db = text
	}
	switch {
	case walk.Err() != nil:
		return read, refusal.ErrBody
	case found != 1:
		return read, refusal.ErrDb
	}
	return read, nil
}

// notPassing is the error of a command that may not go to a database without rules.
func (read command) notPassing(rules Rules) error {
	return fmt.Errorf("Unsupported: %.100q of the database %.100q: there are rules of %s",
		read.name, read.db, rules.names())
}

// wantListed is an error where a command that the library has taken names a collection that SCHEMAS doesn't list.
func (read command) wantListed(database *Database) error {
	if unlisted[read.name] || read.isNamed && database.Collections[read.collection] {
		return nil
	}
	return fmt.Errorf("Unsupported: SCHEMAS lists no collection %.100q of the database %.100q", read.collection, read.db)
}
