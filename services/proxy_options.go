package main

import (
	"crypto/tls"
	"crypto/x509"
	"errors"
	"flag"
	"fmt"
	"io"
	"net"
	"net/url"
	"os"
	"strings"

	"fled/proxy"
)

// options are the words behind `fled proxy`.
type options struct {
	server, listen, name string
	tls, plain, others   bool
	plainServer          bool
	ca, cert, key        string
	files                proxy.Files
}

// readOptions reads them; an error where they have no form.
func readOptions(words []string) (options, error) {
	read := options{files: proxy.Files{Schemas: map[string]string{}}}
	flags := flag.NewFlagSet("fled proxy", flag.ContinueOnError)
	flags.SetOutput(io.Discard)
	flags.Func("server", "", read.takeServer)
	flags.StringVar(&read.listen, "listen", "127.0.0.1:27018", "")
	flags.StringVar(&read.name, "name", "", "")
	flags.BoolVar(&read.tls, "tls", false, "")
	flags.BoolVar(&read.plain, "plain", false, "")
	flags.BoolVar(&read.plainServer, "plain-server", false, "")
	flags.StringVar(&read.ca, "ca", "", "")
	flags.StringVar(&read.cert, "cert", "", "")
	flags.StringVar(&read.key, "key", "", "")
	flags.IntVar(&read.files.Engines, "engines", 4, "")
	flags.Func("db", "", read.addDatabase)
	flags.Func("others", "", read.takeOthers)
	if err := flags.Parse(words); err != nil {
		return read, err
	}
	if flags.NArg() != 2 {
		return read, errors.New("KEYS and MASTER are wanted, behind the options")
	}
	read.files.Keys, read.files.Master = flags.Arg(0), flags.Arg(1)
	return read, read.fault()
}

// takeServer takes HOST:PORT, or the URI of one server, which may say tls and tlsCAFile.
func (read *options) takeServer(word string) error {
	if !strings.Contains(word, "/") {
		read.server = word
		return nil
	}
	uri, err := url.Parse(word)
	if err != nil || uri.Scheme != "mongodb" || uri.User != nil || uri.Hostname() == "" || strings.Trim(uri.Path, "/") != "" {
		return errors.New("mongodb://HOST[:PORT][/?tls=true[&tlsCAFile=FILE]] is wanted: clients authenticate")
	}
	if read.server = uri.Host; uri.Port() == "" {
		read.server = net.JoinHostPort(uri.Hostname(), "27017")
	}
	for name, values := range uri.Query() {
		switch value := values[len(values)-1]; {
		case (name == "tls" || name == "ssl") && (value == "true" || value == "false"):
			read.tls = value == "true"
		case name == "tlsCAFile":
			read.tls, read.ca = true, value
		default:
			return fmt.Errorf("the option %q of a URI isn't known", name)
		}
	}
	return nil
}

// takeOthers takes pass or refuse.
func (read *options) takeOthers(word string) error {
	if read.others = word == "pass"; !read.others && word != "refuse" {
		return errors.New("pass or refuse is wanted")
	}
	return nil
}

// addDatabase takes DB=SCHEMAS.
func (read *options) addDatabase(word string) error {
	db, path, has := strings.Cut(word, "=")
	if _, twice := read.files.Schemas[db]; !has || twice {
		return errors.New("DB=SCHEMAS is wanted, once for each database")
	}
	read.files.Schemas[db] = path
	return nil
}

// fault is what is missing, or doesn't go together.
func (read *options) fault() error {
	for name, address := range map[string]string{"--server": read.server, "--listen": read.listen, "--name": read.name} {
		if _, _, err := net.SplitHostPort(address); err != nil && (address != "" || name != "--name") {
			return fmt.Errorf("%s: HOST:PORT is wanted", name)
		}
	}
	switch {
	case len(read.files.Schemas) == 0:
		return errors.New("--db is wanted")
	case read.files.Engines < 1:
		return errors.New("--engines: 1 or more")
	case read.ca != "" && !read.tls:
		return errors.New("--ca goes with --tls")
	case (read.cert == "") != (read.key == ""):
		return errors.New("--cert and --key go together")
	case read.cert != "" && read.plain:
		return errors.New("--plain doesn't go with --cert")
	case read.tls && read.plainServer:
		return errors.New("--plain-server doesn't go with --tls")
	}
	return nil
}

// toServer is TLS to the server, nil for none: where the server is on this machine, or with --plain-server.
func (read *options) toServer() (*tls.Config, error) {
	if !read.tls {
		return nil, read.wantPlainHere()
	}
	host, _, _ := net.SplitHostPort(read.server)
	config := &tls.Config{ServerName: host, MinVersion: tls.VersionTLS12}
	if read.ca == "" {
		return config, nil
	}
	pem, err := os.ReadFile(read.ca)
	if err != nil {
		return nil, err
	}
	config.RootCAs = x509.NewCertPool()
	if !config.RootCAs.AppendCertsFromPEM(pem) {
		return nil, fmt.Errorf("%s: no certificate", read.ca)
	}
	return config, nil
}

// wantPlainHere is an error where the server would be reached without TLS, elsewhere and with no word that says so.
func (read *options) wantPlainHere() error {
	if read.plainServer {
		return nil
	}
	address, err := net.ResolveTCPAddr("tcp", read.server)
	if err != nil {
		return err
	}
	if !address.IP.IsLoopback() {
		return errPlainServer
	}
	return nil
}
