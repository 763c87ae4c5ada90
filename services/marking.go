package main

import (
	"errors"
	"flag"
	"fmt"
	"io"
	"net"
	"os"
	"os/signal"
	"strconv"
	"syscall"
	"time"

	"fled/journal"
	"fled/mark"
)

const (
	portOfCryptd = 27020
	idleOfCryptd = 60 // seconds
)

var errService = errors.New("proxy or mark is wanted")

// markOptions are the words behind `fled mark`.
type markOptions struct {
	listen           []string
	plain            bool
	idle             time.Duration // 0 for ever
	pidFile, logFile string
}

// readMarkOptions reads them, with so many idle seconds where they say none; an error where they have no form.
func readMarkOptions(words []string, idle int) (markOptions, error) {
	var read markOptions
	var port int
	flags := flag.NewFlagSet("fled mark", flag.ContinueOnError)
	flags.SetOutput(io.Discard)
	flags.Func("listen", "", func(address string) error {
		read.listen = append(read.listen, address)
		return nil
	})
	flags.IntVar(&port, "port", portOfCryptd, "")
	flags.BoolVar(&read.plain, "plain", false, "")
	flags.IntVar(&idle, "idleShutdownTimeoutSecs", idle, "")
	flags.StringVar(&read.pidFile, "pidfilepath", "", "")
	flags.StringVar(&read.logFile, "logpath", "", "")
	flags.Bool("logappend", true, "") // as mongocryptd may be told, and as is always done
	if err := flags.Parse(words); err != nil {
		return read, err
	}
	if flags.NArg() > 0 {
		return read, fmt.Errorf("%q: no argument is wanted", flags.Arg(0))
	}
	read.idle = time.Duration(idle) * time.Second
	return read, read.listenAtPort(port, idle)
}

// listenAtPort takes a port of localhost, where no other address is named; an error where a number is none.
func (read *markOptions) listenAtPort(port, idle int) error {
	switch {
	case port < 1 || port > 65535:
		return errors.New("--port: 1 to 65535")
	case idle < 0:
		return errors.New("--idleShutdownTimeoutSecs: 0 or more")
	case len(read.listen) > 0 && port != portOfCryptd:
		return errors.New("--port doesn't go with --listen")
	case len(read.listen) == 0:
		read.listen = []string{net.JoinHostPort("localhost", strconv.Itoa(port))}
	}
	return nil
}

// run runs the service to its end. Where it can't begin, the log has a line of it.
func (options markOptions) run() error {
	log, err := options.log()
	if err != nil {
		return err
	}
	if err := options.serve(journal.New(log)); err != nil {
		if options.logFile != "" { // else the caller says it there
			journal.New(log).Say("failed", "why", err.Error())
		}
		return err
	}
	return nil
}

// log opens the log: drivers that call mongocryptd throw away what it says otherwise.
func (options markOptions) log() (io.Writer, error) {
	if options.logFile == "" {
		return os.Stderr, nil
	}
	return os.OpenFile(options.logFile, os.O_APPEND|os.O_CREATE|os.O_WRONLY, 0o600)
}

func (options markOptions) serve(log *journal.Log) error {
	listeners, err := listenAt(options.listen, options.plain)
	if err != nil {
		return err
	}
	defer closeAll(listeners)
	if options.pidFile != "" {
		number := strconv.Itoa(os.Getpid()) + "\n"
		if err := os.WriteFile(options.pidFile, []byte(number), 0o644); err != nil {
			return err
		}
		defer os.Remove(options.pidFile)
	}
	for _, listener := range listeners {
		log.Say("listens", "address", listener.Addr().String())
	}
	service, signals := mark.New(log), make(chan os.Signal, 1)
	signal.Notify(signals, syscall.SIGTERM, syscall.SIGINT)
	go func() {
		log.Say("ends", "why", waited(signals, service, options.idle))
		closeAll(listeners)
	}()
	service.Serve(listeners...)
	return nil
}

// waited waits for a signal, or until no message has come for so long, and says which.
func waited(signals <-chan os.Signal, service *mark.Service, idle time.Duration) string {
	for {
		wait := (<-chan time.Time)(nil)
		if idle > 0 {
			wait = time.After(idle - service.Idle())
		}
		select {
		case told := <-signals:
			return told.String()
		case <-wait:
			if service.Idle() >= idle {
				return "idle"
			}
		}
	}
}

func closeAll(listeners []net.Listener) {
	for _, listener := range listeners {
		listener.Close()
	}
}
