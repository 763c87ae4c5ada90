// Fled has two services of fle for drivers: one between a driver without encryption and a MongoDB server, and one in
// mongocryptd's place.
//
//	fled proxy --server SERVER --db DB=SCHEMAS [--db ..] [OPTIONS] KEYS MASTER
//	fled mark [--listen ADDRESS] [OPTIONS]
//
// Called by the name mongocryptd it does as the second. It ends with 0 once SIGTERM or SIGINT has come, or nothing has
// for as long as is said, and its connections have ended; with 1 where it can't begin, and with 2 for other words.
package main

import (
	"fmt"
	"os"
	"path/filepath"

	"fled/journal"
)

const usage = `usage: fled proxy --server SERVER --db DB=SCHEMAS [--db ..] [OPTIONS] KEYS MASTER
  --server SERVER   HOST:PORT, or mongodb://HOST:PORT/?tls=true
  --db DB=SCHEMAS   a database, and the file of its rules
  --listen ADDRESS  HOST:PORT (127.0.0.1:27018)
  --others pass     send commands to other databases as they are
  --tls             TLS to the server, by the system's roots or
  --ca FILE         by these
  --cert FILE       TLS to clients: the certificate, and
  --key FILE        its key
  --plain           take clients without TLS from elsewhere than this machine
  --plain-server    reach a server elsewhere than on this machine without TLS
  --name HOST:PORT  how clients reach the proxy, where it isn't by the address that they dial
  --engines N       engines of each database (4)

       fled mark [OPTIONS], or mongocryptd [OPTIONS] by a link of that name
  --listen ADDRESS              HOST:PORT or unix:PATH, and may come again (localhost:27020)
  --port N                      another port of localhost
  --plain                       take clients from elsewhere than this machine
  --idleShutdownTimeoutSecs N   end where no message has come for so long; 0: never (0; of mongocryptd 60)
  --pidfilepath FILE            a file for the number of the process
  --logpath FILE                a file that lines of the log are appended to, in place of standard error
`

// cryptd is the name that drivers call.
const cryptd = "mongocryptd"

func main() {
	os.Exit(run(os.Args))
}

// run does as the words of a command line say, and answers the exit status.
func run(words []string) int {
	switch {
	case filepath.Base(words[0]) == cryptd:
		options, err := readMarkOptions(words[1:], idleOfCryptd)
		return done(err, func() error { return options.run() })
	case len(words) > 1 && words[1] == "mark":
		options, err := readMarkOptions(words[2:], 0)
		return done(err, func() error { return options.run() })
	case len(words) > 1 && words[1] == "proxy":
		options, err := readOptions(words[2:])
		return done(err, func() error { return serve(options, journal.New(os.Stderr)) })
	}
	return done(errService, nil)
}

// done runs a service, unless its words have a fault, and answers the exit status.
func done(fault error, service func() error) int {
	if fault != nil {
		fmt.Fprintf(os.Stderr, "fled: %v\n%s", fault, usage)
		return 2
	}
	if err := service(); err != nil {
		journal.New(os.Stderr).Say("failed", "why", err.Error())
		return 1
	}
	return 0
}
