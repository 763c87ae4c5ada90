package main

import (
	"crypto/tls"
	"net"
	"os"
	"os/signal"
	"sync/atomic"
	"syscall"

	"fled/journal"
	"fled/proxy"
)

// service is a proxy and what is read anew.
type service struct {
	options     options
	proxy       *proxy.Proxy
	certificate atomic.Pointer[tls.Certificate]
}

// serve runs the proxy to its end.
func serve(options options, log *journal.Log) error {
	rules, err := options.files.Read()
	if err != nil {
		return err
	}
	service := &service{options: options, proxy: proxy.New(rules, log)}
	service.proxy.Server, service.proxy.Name = options.server, options.name
	service.proxy.OthersPass = options.others
	if service.proxy.TLS, err = options.toServer(); err != nil {
		return err
	}
	door, err := service.listen()
	if err != nil {
		return err
	}
	log.Say("listens", "address", door.Addr().String())
	signals := make(chan os.Signal, 1)
	signal.Notify(signals, syscall.SIGHUP, syscall.SIGTERM, syscall.SIGINT)
	go service.heed(signals, door, log)
	service.proxy.Serve(door)
	return nil
}

// heed reads the files anew at SIGHUP, and closes the listener at another signal.
func (service *service) heed(signals <-chan os.Signal, door net.Listener, log *journal.Log) {
	for told := range signals {
		if told != syscall.SIGHUP {
			log.Say("ends")
			door.Close()
			return
		}
		if err := service.reload(); err != nil {
			log.Say("kept", "why", err.Error())
		} else {
			log.Say("reread")
		}
	}
}

// reload takes all files, or none where one is at fault.
func (service *service) reload() error {
	rules, err := service.options.files.Read()
	if err != nil {
		return err
	}
	if err := service.loadCertificate(); err != nil {
		return err
	}
	service.proxy.Use(rules)
	return nil
}
