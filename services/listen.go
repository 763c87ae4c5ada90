package main

import (
	"crypto/tls"
	"errors"
	"fmt"
	"net"
	"os"
	"strconv"
	"strings"
	"syscall"
)

var (
	errPlain       = errors.New("clients would come from elsewhere without TLS: --cert and --key, or --plain")
	errPlainServer = errors.New("the server is elsewhere, and would be reached without TLS: --tls, or --plain-server")
	errElsewhere   = errors.New("clients would come from elsewhere than this machine: --plain takes them")
)

// listen opens the door to the proxy's clients. Without TLS, and without --plain, it is on this machine alone.
func (service *service) listen() (net.Listener, error) {
	address, err := net.ResolveTCPAddr("tcp", service.options.listen)
	if err != nil {
		return nil, err
	}
	if service.options.cert == "" && !service.options.plain && !address.IP.IsLoopback() {
		return nil, errPlain
	}
	if err := service.loadCertificate(); err != nil {
		return nil, err
	}
	door, err := net.ListenTCP("tcp", address)
	if err != nil || service.options.cert == "" {
		return door, err
	}
	return tls.NewListener(door, &tls.Config{
		MinVersion: tls.VersionTLS12,
		GetCertificate: func(*tls.ClientHelloInfo) (*tls.Certificate, error) {
			return service.certificate.Load(), nil
		},
	}), nil
}

// loadCertificate reads the certificate for clients and its key, where they are named.
func (service *service) loadCertificate() error {
	if service.options.cert == "" {
		return nil
	}
	pair, err := tls.LoadX509KeyPair(service.options.cert, service.options.key)
	if err != nil {
		return err
	}
	service.certificate.Store(&pair)
	return nil
}

// listenAt opens all these addresses, HOST:PORT or unix:PATH, or none where one can't be: who listens at the other
// address of a name would be sent values in clear.
func listenAt(addresses []string, plain bool) ([]net.Listener, error) {
	var all []net.Listener
	for _, address := range addresses {
		opened, err := listenAtOne(address, plain)
		all = append(all, opened...)
		if err != nil {
			closeAll(all)
			return nil, err
		}
	}
	return all, nil
}

func listenAtOne(address string, plain bool) ([]net.Listener, error) {
	if path := strings.TrimPrefix(address, "unix:"); path != address {
		one, err := listenAtPath(path)
		if err != nil {
			return nil, err
		}
		return []net.Listener{one}, nil
	}
	host, service, err := net.SplitHostPort(address)
	if err != nil {
		return nil, err
	}
	port, err := strconv.ParseUint(service, 10, 16)
	if err != nil {
		return nil, fmt.Errorf("%q: a port is wanted", service)
	}
	hosts, err := addressesOf(host)
	if err != nil {
		return nil, err
	}
	return listenAtEach(hosts, int(port), plain)
}

// addressesOf are the addresses of a host; of localhost both, whatever a file of hosts says.
func addressesOf(host string) ([]net.IP, error) {
	switch host {
	case "localhost":
		return []net.IP{net.IPv4(127, 0, 0, 1), net.IPv6loopback}, nil
	case "":
		return []net.IP{net.IPv6unspecified}, nil
	}
	return net.LookupIP(host)
}

// listenAtEach opens a port at each of these addresses that this machine has.
func listenAtEach(hosts []net.IP, port int, plain bool) ([]net.Listener, error) {
	var all []net.Listener
	var fault error
	for _, host := range hosts {
		if !host.IsLoopback() && !plain {
			return all, errElsewhere
		}
		one, err := net.ListenTCP("tcp", &net.TCPAddr{IP: host, Port: port})
		switch {
		case err == nil:
			all = append(all, one)
		case errors.Is(err, syscall.EADDRNOTAVAIL) || errors.Is(err, syscall.EAFNOSUPPORT):
			fault = err
		default:
			return all, err
		}
	}
	if len(all) > 0 {
		fault = nil
	}
	return all, fault
}

// listenAtPath opens a socket of this machine, in the place of one that nobody listens at any more.
func listenAtPath(path string) (net.Listener, error) {
	if found, err := os.Lstat(path); err == nil && found.Mode()&os.ModeSocket != 0 {
		other, err := net.Dial("unix", path)
		if err == nil {
			other.Close()
			return nil, fmt.Errorf("%s: another one listens there", path)
		}
		if errors.Is(err, syscall.ECONNREFUSED) {
			os.Remove(path)
		}
	}
	return net.Listen("unix", path)
}
