package proxy

import (
	"fmt"
	"os"
	"sort"
	"strings"
	"sync/atomic"

	"fle"
)

// Engine is what seals commands and opens replies: a *fle.Engine. Goroutines may call one at once.
type Engine interface {
	Seal(db string, command []byte) ([]byte, error)
	Unseal(document []byte) ([]byte, error)
}

// Database has what seals the commands of one database, and the names of the collections that its SCHEMAS lists.
type Database struct {
	Engines     []Engine
	Collections map[string]bool

	turn uint32
}

// engine is the next of the engines.
func (database *Database) engine() Engine {
	turn := atomic.AddUint32(&database.turn, 1)
	return database.Engines[turn%uint32(len(database.Engines))]
}

// Rules are the databases that commands may be sent to. All have one vault and one master key, so that each engine
// opens what any of them sealed.
type Rules map[string]*Database

// engine is what opens a reply to a command of a database: its own engine, or for another one any.
func (rules Rules) engine(db string) Engine {
	if database := rules[db]; database != nil {
		return database.engine()
	}
	for _, database := range rules {
		return database.engine()
	}
	return nil
}

// names are the databases as an error tells them.
func (rules Rules) names() string {
	var names []string
	for name := range rules {
		names = append(names, fmt.Sprintf("%q", name))
	}
	sort.Strings(names)
	return strings.Join(names, ", ")
}

// Files names the files that rules are read from.
type Files struct {
	Keys, Master string
	Schemas      map[string]string // by database
	Engines      int               // of each database
}

// Read reads the files, and opens engines over what they hold. What an error names is a file, or what it has at fault.
func (files Files) Read() (Rules, error) {
	keys, err := os.ReadFile(files.Keys)
	if err != nil {
		return nil, err
	}
	master, err := os.ReadFile(files.Master)
	if err != nil {
		return nil, err
	}
	rules := Rules{}
	for db, path := range files.Schemas {
		infos, err := os.ReadFile(path)
		if err != nil {
			return nil, err
		}
		database := &Database{}
		for len(database.Engines) < files.Engines {
			engine, err := fle.Open(db, keys, infos, master, fle.CommandsMore)
			if err != nil {
				return nil, fmt.Errorf("the database %q by %s, %s, %s: %w", db, files.Keys, path, files.Master, err)
			}
			database.Engines = append(database.Engines, engine)
		}
		if database.Collections, err = collectionsOf(infos); err != nil {
			return nil, fmt.Errorf("%s: %w", path, err)
		}
		rules[db] = database
	}
	return rules, nil
}
