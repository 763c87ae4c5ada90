// Package proxy stands between a driver without encryption and a MongoDB server: it seals each command and opens each
// reply, by the library libfle.
//
// A [Proxy] has rules, which [Files] are read as, and serves a listener. Each connection of a client has one to the
// server. What may be sent, and in which bytes, the library says, which is proved; this package moves bytes, and is
// tested. What it can't read, or doesn't know, ends the connection, and what is refused isn't sent.
package proxy

import (
	"context"
	"crypto/tls"
	"fmt"
	"net"
	"sync/atomic"

	"fled/door"
	"fled/journal"
)

// Proxy serves connections. Its fields are set before, and don't change.
type Proxy struct {
	Server string      // HOST:PORT
	TLS    *tls.Config // to the server; nil for none
	Name   string      // HOST:PORT by which clients know the proxy; empty for the address that a client has dialled
	Log    *journal.Log

	OthersPass bool // whether commands to databases without rules are sent as they are

	rules atomic.Pointer[Rules]
	door  *door.Door
}

// New is a proxy by these rules, with no connection yet.
func New(rules Rules, log *journal.Log) *Proxy {
	proxy := &Proxy{Log: log, door: door.New(log)}
	proxy.Use(rules)
	return proxy
}

// Use has messages that are judged from here on go by other rules. Those at hand end with the rules that they began
// with, whose engines go when nothing names them any more.
func (proxy *Proxy) Use(rules Rules) {
	proxy.rules.Store(&rules)
}

// Serve serves clients until the listener is closed, and then waits, not for ever, until they have been answered.
func (proxy *Proxy) Serve(front net.Listener) {
	proxy.door.Serve(proxy.connect, front)
}

// connect serves one connection of a client to its end.
func (proxy *Proxy) connect(client net.Conn) error {
	if err := shaken(client); err != nil {
		return err
	}
	server, err := proxy.dial()
	if err != nil {
		return fmt.Errorf("server %s: %w", proxy.Server, err)
	}
	defer server.Close()
	address := proxy.Name
	if address == "" {
		address = client.LocalAddr().String()
	}
	session := &session{proxy: proxy, client: client, server: server, address: address}
	defer session.sayServed()
	return session.run()
}

// shaken makes the handshake of a client's TLS, so that the server isn't asked for one who has none.
func shaken(client net.Conn) error {
	secure, is := client.(*tls.Conn)
	if !is {
		return nil
	}
	ctx, cancel := context.WithTimeout(context.Background(), door.Patience)
	defer cancel()
	return secure.HandshakeContext(ctx)
}

func (proxy *Proxy) dial() (net.Conn, error) {
	dialer := &net.Dialer{Timeout: door.Patience}
	if proxy.TLS != nil {
		return tls.DialWithDialer(dialer, "tcp", proxy.Server, proxy.TLS)
	}
	return dialer.Dial("tcp", proxy.Server)
}
