package proxy

import (
	"encoding/binary"
	"io"
	"net"
	"os"
	"sync"
	"testing"

	"fled/bson"
	"fled/journal"
	"fled/mock"
	"fled/wire"
)

// served serves each connection that comes to a new address.
func served(t testing.TB, serve func(net.Conn)) string {
	door := mock.Door(t)
	go func() {
		for {
			client, err := door.Accept()
			if err != nil {
				return
			}
			go serve(client)
		}
	}()
	return door.Addr().String()
}

// answers answers each message {n: 1, ok: 1}, and keeps nothing.
func answers(client net.Conn) {
	defer client.Close()
	reply := mock.Spelled(wire.Msg{Body: mock.OK(bson.AppendInt32(nil, "n", 1))}.Message(1, 0))
	for {
		message, err := wire.Read(client, wire.MaxMessage)
		if err != nil {
			return
		}
		binary.LittleEndian.PutUint32(reply[8:], uint32(message.ID))
		client.Write(reply)
	}
}

// relays hands on what either side sends, and reads none of it.
func relays(to string) func(net.Conn) {
	return func(client net.Conn) {
		defer client.Close()
		server, err := net.Dial("tcp", to)
		if err != nil {
			return
		}
		defer server.Close()
		go io.Copy(client, server)
		io.Copy(server, client)
	}
}

// proxied is a proxy by the rules of examples/, as the program has it.
func proxied(t testing.TB, to string) string {
	const folder = "../../examples/"
	rules, err := Files{folder + "keys.bson", folder + "EXAMPLE-ONLY.master",
		map[string]string{"hr": folder + "people.schemas.json"}, 4}.Read()
	if err != nil {
		t.Fatal(err)
	}
	door, proxy := mock.Door(t), New(rules, journal.New(io.Discard))
	proxy.Server = to
	go proxy.Serve(door)
	return door.Addr().String()
}

// Round trips of examples/insert.bson to a server that answers at once: to it, by a relay that reads nothing, and by
// the proxy, over so many connections at once. go test -run=NONE -bench=RoundTrips ./proxy
func BenchmarkRoundTrips(b *testing.B) {
	command, err := os.ReadFile("../../examples/insert.bson")
	if err != nil {
		b.Fatal(err)
	}
	server := served(b, answers)
	message := mock.Spelled(wire.Msg{Body: command}.Message(7, 0))
	for _, way := range []struct{ name, address string }{
		{"bare", server}, {"relay", served(b, relays(server))}, {"proxy", proxied(b, server)},
	} {
		for _, connections := range []int{1, 16, 256} {
			b.Run(way.name+"/"+bson.Key(connections), func(b *testing.B) { trips(b, way.address, message, connections) })
		}
	}
}

// trips makes round trips over so many connections at once.
func trips(b *testing.B, address string, message []byte, connections int) {
	all, turns := sync.WaitGroup{}, b.N/connections+1
	var clients []mock.Client
	for len(clients) < connections {
		clients = append(clients, mock.Dial(b, address))
	}
	before := mock.Processed()
	b.ResetTimer()
	for _, client := range clients {
		all.Add(1)
		go func(client mock.Client) {
			defer all.Done()
			for turn := 0; turn < turns; turn++ {
				client.Write(message)
				if _, err := wire.Read(client.Conn, wire.MaxMessage); err != nil {
					b.Error(err)
					return
				}
			}
		}(client)
	}
	all.Wait()
	b.ReportMetric(float64(mock.Processed()-before)/float64(b.N), "cpu-ns/op")
}
