package main

import (
	"bytes"
	"crypto/ecdsa"
	"crypto/elliptic"
	"crypto/rand"
	"crypto/tls"
	"crypto/x509"
	"crypto/x509/pkix"
	"encoding/pem"
	"math/big"
	"net"
	"os"
	"path/filepath"
	"strings"
	"testing"
	"time"

	"fled/bson"
	"fled/journal"
	"fled/proxy"
	"fled/wire"
)

const examples = "../examples/"

// words are those of a command line, with a server and a listener of this machine.
func words(more ...string) []string {
	front := []string{"--server", "127.0.0.1:1", "--listen", "127.0.0.1:0", "--db",
		"hr=" + examples + "people.schemas.json"}
	return append(append(front, more...), examples+"keys.bson", examples+"EXAMPLE-ONLY.master")
}

func TestWords(t *testing.T) {
	read, err := readOptions(words("--tls", "--ca", "ca.pem", "--db", "other=x=y", "--name", "a:1"))
	if err != nil || read.server != "127.0.0.1:1" || !read.tls || read.ca != "ca.pem" || read.name != "a:1" ||
		read.files.Schemas["other"] != "x=y" || read.files.Schemas["hr"] != examples+"people.schemas.json" ||
		read.files.Keys != examples+"keys.bson" || read.files.Master != examples+"EXAMPLE-ONLY.master" {
		t.Errorf("%+v %v", read, err)
	}
	for word, wanted := range map[string]options{
		"mongodb://a":                        {server: "a:27017"},
		"mongodb://a:1/":                     {server: "a:1"},
		"mongodb://[::1]:1":                  {server: "[::1]:1"},
		"mongodb://a:1/?tls=true":            {server: "a:1", tls: true},
		"mongodb://a:1/?tlsCAFile=%2Fca.pem": {server: "a:1", tls: true, ca: "/ca.pem"},
	} {
		read, err := readOptions([]string{"--server", word, "--others", "pass", "--db", "hr=x", "KEYS", "MASTER"})
		if err != nil || read.server != wanted.server || read.tls != wanted.tls || read.ca != wanted.ca || !read.others ||
			read.listen != "127.0.0.1:27018" {
			t.Errorf("%s: %+v %v", word, read, err)
		}
	}
	for _, wrong := range [][]string{
		nil, {"KEYS", "MASTER"}, words("--db", "hr=twice"), words("--db", "none"), words("--ca", "x"), words("--cert", "x"),
		words("--key", "x"), words("--cert", "x", "--key", "y", "--plain"), words("--engines", "0"), words("--unknown"),
		words("--server", "nowhere"), words("--listen", "1"), words("--name", "x"), append(words(), "more"),
		{"--server", "a:1", "--listen", "b:1", "KEYS", "MASTER"},
		{"--listen", "a:1", "--db", "a=b", "KEYS", "MASTER"}, words("--others", "some"),
		words("--server", "mongodb://a:1,b:1"), words("--server", "mongodb://user:word@a:1"), words("--server", "mongodb://"),
		words("--server", "mongodb+srv://a"), words("--server", "mongodb://a/?w=1"), words("--server", "mongodb://a/db"),
	} {
		if read, err := readOptions(wrong); err == nil {
			t.Errorf("%q is read as %+v", wrong, read)
		}
	}
}

// made makes a certificate of this machine that its own key signed, and answers the two files.
func made(t *testing.T) (cert, key string) {
	t.Helper()
	private, err := ecdsa.GenerateKey(elliptic.P256(), rand.Reader)
	if err != nil {
		t.Fatal(err)
	}
	form := &x509.Certificate{SerialNumber: big.NewInt(1), Subject: pkix.Name{CommonName: "test"}, IsCA: true,
		BasicConstraintsValid: true, NotAfter: time.Now().Add(time.Hour), IPAddresses: []net.IP{net.IPv4(127, 0, 0, 1)}}
	signed, err := x509.CreateCertificate(rand.Reader, form, form, &private.PublicKey, private)
	if err != nil {
		t.Fatal(err)
	}
	bytesOf, err := x509.MarshalECPrivateKey(private)
	if err != nil {
		t.Fatal(err)
	}
	folder := t.TempDir()
	cert, key = filepath.Join(folder, "cert.pem"), filepath.Join(folder, "key.pem")
	write(t, cert, pem.EncodeToMemory(&pem.Block{Type: "CERTIFICATE", Bytes: signed}))
	write(t, key, pem.EncodeToMemory(&pem.Block{Type: "EC PRIVATE KEY", Bytes: bytesOf}))
	return cert, key
}

func write(t *testing.T, path string, contents []byte) {
	t.Helper()
	if err := os.WriteFile(path, contents, 0o600); err != nil {
		t.Fatal(err)
	}
}

func TestAPlainServerIsHere(t *testing.T) {
	for _, one := range []struct {
		words []string
		goes  bool
	}{
		{[]string{"--server", "127.0.0.1:27017"}, true}, {[]string{"--server", "[::1]:27017"}, true},
		{[]string{"--server", "192.0.2.1:27017"}, false}, {[]string{"--server", "mongodb://192.0.2.1"}, false},
		{[]string{"--server", "192.0.2.1:27017", "--tls"}, true},
		{[]string{"--server", "192.0.2.1:27017", "--plain-server"}, true},
		{[]string{"--server", "nowhere.invalid:27017"}, false},
	} {
		read, err := readOptions(words(one.words...))
		if err != nil {
			t.Fatal(err)
		}
		if _, err := read.toServer(); (err == nil) != one.goes {
			t.Errorf("%q: %v", one.words, err)
		}
	}
}

func TestPlainListeningStaysHere(t *testing.T) {
	cert, key := made(t)
	for _, one := range []struct {
		listen string
		more   []string
		opens  bool
	}{
		{"127.0.0.1:0", nil, true}, {"0.0.0.0:0", nil, false}, {":0", nil, false}, {"[::]:0", nil, false},
		{"0.0.0.0:0", []string{"--plain"}, true}, {"0.0.0.0:0", []string{"--cert", cert, "--key", key}, true},
		{"127.0.0.1:0", []string{"--cert", key, "--key", cert}, false},
	} {
		read, err := readOptions(words(append([]string{"--listen", one.listen}, one.more...)...))
		if err != nil {
			t.Fatal(err)
		}
		door, err := (&service{options: read}).listen()
		if (err == nil) != one.opens {
			t.Errorf("%s %q: %v", one.listen, one.more, err)
		}
		if err == nil {
			door.Close()
		}
	}
}

// An echo of a server by TLS: it answers each message {ok: 1}, and tells the bodies.
func serverByTLS(t *testing.T, cert, key string, bodies chan<- []byte) string {
	t.Helper()
	pair, err := tls.LoadX509KeyPair(cert, key)
	if err != nil {
		t.Fatal(err)
	}
	door, err := tls.Listen("tcp", "127.0.0.1:0", &tls.Config{Certificates: []tls.Certificate{pair}})
	if err != nil {
		t.Fatal(err)
	}
	t.Cleanup(func() { door.Close() })
	go func() {
		for {
			conn, err := door.Accept()
			if err != nil {
				return
			}
			go answer(conn, bodies)
		}
	}()
	return door.Addr().String()
}

func answer(conn net.Conn, bodies chan<- []byte) {
	defer conn.Close()
	for {
		message, err := wire.Read(conn, wire.MaxMessage)
		if err != nil {
			return
		}
		msg, err := wire.ReadMsg(message)
		if err != nil {
			return
		}
		bodies <- msg.Body
		wire.Msg{Body: bson.Wrap(bson.AppendDouble(nil, "ok", 1))}.Message(1, message.ID).WriteTo(conn)
	}
}

// started is a service with these words, and where clients reach it.
func started(t *testing.T, log *journal.Log, words []string) (*service, string) {
	t.Helper()
	read, err := readOptions(words)
	if err != nil {
		t.Fatal(err)
	}
	rules, err := read.files.Read()
	if err != nil {
		t.Fatal(err)
	}
	service := &service{options: read, proxy: proxy.New(rules, log)}
	service.proxy.Server = read.server
	if service.proxy.TLS, err = read.toServer(); err != nil {
		t.Fatal(err)
	}
	door, err := service.listen()
	if err != nil {
		t.Fatal(err)
	}
	t.Cleanup(func() { door.Close() })
	go service.proxy.Serve(door)
	return service, door.Addr().String()
}

// asked is the reply to one command, by a connection of its own.
func asked(conn net.Conn, command []byte) (string, error) {
	defer conn.Close()
	return askedAgain(conn, command)
}

// askedAgain is the same over a connection that stays.
func askedAgain(conn net.Conn, command []byte) (string, error) {
	conn.SetDeadline(time.Now().Add(10 * time.Second))
	if _, err := (wire.Msg{Body: command}).Message(7, 0).WriteTo(conn); err != nil {
		return "", err
	}
	reply, err := wire.Read(conn, wire.MaxMessage)
	return string(reply.Contents), err
}

func TestTLSOnBothSides(t *testing.T) {
	cert, key := made(t)
	bodies := make(chan []byte, 10)
	server := serverByTLS(t, cert, key, bodies)
	insert, err := os.ReadFile(examples + "insert.bson")
	if err != nil {
		t.Fatal(err)
	}
	quiet := journal.New(&bytes.Buffer{})
	_, address := started(t, quiet, words("--server", server, "--tls", "--ca", cert, "--cert", cert, "--key", key))
	roots := x509.NewCertPool()
	bytesOf, _ := os.ReadFile(cert)
	roots.AppendCertsFromPEM(bytesOf)
	conn, err := tls.Dial("tcp", address, &tls.Config{RootCAs: roots})
	if err != nil {
		t.Fatal(err)
	}
	if reply, err := asked(conn, insert); err != nil || !strings.Contains(reply, "ok") {
		t.Errorf("%q %v", reply, err)
	}
	if body := <-bodies; bytes.Contains(body, []byte("123-45")) || !bytes.Contains(body, []byte("ssn")) {
		t.Errorf("%q", body)
	}
	plain, err := net.Dial("tcp", address)
	if err != nil {
		t.Fatal(err)
	}
	if reply, err := asked(plain, insert); err == nil {
		t.Errorf("a client without TLS is answered %q", reply)
	}
	other, _ := made(t)
	_, address = started(t, quiet, words("--server", server, "--tls", "--ca", other))
	if plain, err = net.Dial("tcp", address); err != nil {
		t.Fatal(err)
	}
	if reply, err := asked(plain, insert); err == nil || len(bodies) > 0 {
		t.Errorf("a server with another certificate is believed: %q", reply)
	}
}

// A broken file leaves the rules that are there; whole files are taken.
func TestReload(t *testing.T) {
	cert, key := made(t)
	bodies := make(chan []byte, 10)
	folder := t.TempDir()
	schemas, infos := filepath.Join(folder, "schemas"), []byte(nil)
	infos, err := os.ReadFile(examples + "people.schemas.json")
	if err != nil {
		t.Fatal(err)
	}
	write(t, schemas, infos)
	line := words("--server", serverByTLS(t, cert, key, bodies), "--tls", "--ca", cert)
	line[5] = "hr=" + schemas
	service, address := started(t, journal.New(&bytes.Buffer{}), line)
	insert, _ := os.ReadFile(examples + "insert.bson")
	for _, one := range []struct {
		infos   string
		reloads bool
		reply   string
	}{
		{string(infos), true, "ok"},
		{string(infos)[:100], false, "ok"},
		{strings.Replace(string(infos), `"people"`, `"others"`, 1), true, `no collection "people"`},
		{"[{", false, `no collection "people"`},
		{string(infos), true, "ok"},
	} {
		write(t, schemas, []byte(one.infos))
		if err := service.reload(); (err == nil) != one.reloads {
			t.Error(err)
		}
		conn, err := net.Dial("tcp", address)
		if err != nil {
			t.Fatal(err)
		}
		if reply, err := asked(conn, insert); err != nil || !strings.Contains(reply, one.reply) {
			t.Errorf("%q %v in place of %s", reply, err, one.reply)
		}
	}
	for len(bodies) > 0 {
		if body := <-bodies; bytes.Contains(body, []byte("123-45")) {
			t.Errorf("%q", body)
		}
	}
}
