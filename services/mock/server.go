// Package mock has what the tests of the services stand before: a server, a client of bytes, a log.
package mock

import (
	"bytes"
	"net"
	"sync"
	"testing"

	"fled/bson"
	"fled/wire"
)

// Server is a server that keeps every byte that it got, and each document that it stores. It compares values by their
// bytes, and answers batches of three.
type Server struct {
	Door   net.Listener
	Hosts  []string                                         // what its hello says; empty for a server alone
	Infos  [][]byte                                         // what it lists as its collections
	Users  map[string]string                                // names and passwords; empty where anyone may ask
	Answer func(name string, msg wire.Msg, id int32) []byte // in its place, where it isn't nil

	Lock        sync.Mutex // of what stands below
	Got         []byte
	Commands    []wire.Message
	Collections map[string][][]byte
	open        int
	cursors     map[int64][][]byte
}

const batch = 3

// New is a server that doesn't listen yet.
func New(t testing.TB) *Server {
	t.Helper()
	return &Server{Door: Door(t), Collections: map[string][][]byte{}, cursors: map[int64][][]byte{}}
}

// Listen serves whoever connects.
func (server *Server) Listen() {
	for {
		client, err := server.Door.Accept()
		if err != nil {
			return
		}
		go server.serve(client)
	}
}

// Door is a listener of this machine, until the test ends.
func Door(t testing.TB) net.Listener {
	t.Helper()
	door, err := net.Listen("tcp", "127.0.0.1:0")
	if err != nil {
		t.Fatal(err)
	}
	t.Cleanup(func() { door.Close() })
	return door
}

// Address is where the server listens.
func (server *Server) Address() string {
	return server.Door.Addr().String()
}

// Kept is a connection of which is kept what it brings.
type Kept struct {
	net.Conn
	Keep func([]byte)
}

// Read hands on what has come.
func (conn Kept) Read(into []byte) (int, error) {
	n, err := conn.Conn.Read(into)
	conn.Keep(into[:n])
	return n, err
}

// Connections is how many are open.
func (server *Server) Connections() int {
	server.Lock.Lock()
	defer server.Lock.Unlock()
	return server.open
}

func (server *Server) count(change int) {
	server.Lock.Lock()
	defer server.Lock.Unlock()
	server.open += change
}

func (server *Server) serve(client net.Conn) {
	defer client.Close()
	server.count(1)
	defer server.count(-1)
	from := Kept{client, func(part []byte) {
		server.Lock.Lock()
		defer server.Lock.Unlock()
		server.Got = append(server.Got, part...)
	}}
	for login := (&login{}); ; {
		message, err := wire.Read(from, wire.MaxMessage)
		if err != nil {
			return
		}
		if reply := server.take(login, message); reply != nil {
			if _, err := client.Write(reply); err != nil {
				return
			}
		}
	}
}

// take answers a message; nil where it wants no reply.
func (server *Server) take(login *login, message wire.Message) []byte {
	if message.Opcode == wire.OpQuery {
		query, err := wire.ReadQuery(message)
		if err != nil {
			return []byte("no reply")
		}
		return Spelled(wire.NewReply(server.hello(login, query.Document)).Message(1, message.ID))
	}
	msg, err := wire.ReadMsg(message)
	if err != nil {
		return []byte("no reply")
	}
	server.Lock.Lock()
	defer server.Lock.Unlock()
	server.Commands = append(server.Commands, message)
	name := Fields(msg.Body)[0].Name
	if server.Answer != nil {
		if reply := server.Answer(name, msg, message.ID); reply != nil {
			return reply
		}
	}
	body := server.runAs(login, name, Joined(msg))
	if msg.MoreToCome {
		return nil
	}
	return Spelled(wire.Msg{Body: body}.Message(1, message.ID))
}

// Saw is whether these bytes came.
func (server *Server) Saw(part string) bool {
	server.Lock.Lock()
	defer server.Lock.Unlock()
	return bytes.Contains(server.Got, []byte(part))
}

// Names are the commands that came.
func (server *Server) Names() []string {
	server.Lock.Lock()
	defer server.Lock.Unlock()
	var names []string
	for _, message := range server.Commands {
		msg, _ := wire.ReadMsg(message)
		names = append(names, Fields(msg.Body)[0].Name)
	}
	return names
}

// runAs is the reply to a command of a client that has logged in, or has to.
func (server *Server) runAs(login *login, name string, command []byte) []byte {
	if reply := login.sasl(server.Users, name, Fields(command)); reply != nil {
		return reply
	}
	if !login.may(server.Users, name) {
		return refused("command "+name+" requires authentication", 13)
	}
	if wire.IsHello(name) {
		return server.hello(login, command)
	}
	return server.run(name, command)
}

// begunBy is what a hello says to a client that authenticates in it, or asks by which mechanism it may.
func (server *Server) begunBy(login *login, command []byte) []byte {
	var said []byte
	fields := Fields(command)
	if Field(fields, "saslSupportedMechs").Whole != nil {
		said = bson.Append(said, bson.Array, "saslSupportedMechs", Texts(sha256Way, sha1Way))
	}
	if begins := Field(fields, "speculativeAuthenticate"); begins.Whole != nil && len(server.Users) > 0 {
		reply := login.sasl(server.Users, "saslStart", Fields(begins.Value))
		said = bson.Append(said, bson.Document, "speculativeAuthenticate", reply)
	}
	return said
}

// hello is what the server says of itself: with hosts one of a set, which compresses and knows other hosts.
func (server *Server) hello(login *login, command []byte) []byte {
	said := append(bson.AppendBool(nil, "ismaster", true), bson.AppendBool(nil, "isWritablePrimary", true)...)
	said = append(append(said, bson.AppendBool(nil, "helloOk", true)...), bson.AppendBool(nil, "readOnly", false)...)
	for name, number := range map[string]int32{"maxWireVersion": 13, "minWireVersion": 0, "maxBsonObjectSize": 16 << 20,
		"maxMessageSizeBytes": 48_000_000, "maxWriteBatchSize": 100_000, "logicalSessionTimeoutMinutes": 30,
		"connectionId": 1} {
		said = bson.AppendInt32(said, name, number)
	}
	if len(server.Hosts) > 0 {
		for _, name := range []string{"hosts", "passives", "arbiters"} {
			said = bson.Append(said, bson.Array, name, Texts(server.Hosts...))
		}
		said = bson.AppendText(bson.AppendText(said, "me", server.Hosts[0]), "primary", server.Hosts[0])
		said = bson.AppendInt32(bson.AppendText(said, "setName", "rs0"), "setVersion", 1)
		said = append(said, bson.AppendBool(nil, "secondary", false)...)
		said = bson.Append(said, bson.Array, "compression", Texts("zlib"))
		topology := bson.Append(nil, 0x07, "processId", make([]byte, 12))
		said = bson.Append(said, bson.Document, "topologyVersion", bson.Wrap(append(topology, Int64("counter", 1)...)))
	}
	return OK(append(said, server.begunBy(login, command)...))
}

// run is the reply to a command.
func (server *Server) run(name string, command []byte) []byte {
	fields := Fields(command)
	collection, _ := fields[0].Text()
	switch name {
	case "insert":
		return server.insert(collection, Values(fields, "documents"))
	case "find":
		found := server.matching(collection, Field(fields, "filter").Value)
		limit := Number(Field(fields, "limit"))
		if limit < 0 {
			limit = -limit
		}
		if limit > 0 && limit < len(found) {
			found = found[:limit]
		}
		return server.batch("firstBatch", collection, found)
	case "count":
		found := server.matching(collection, Field(fields, "query").Value)
		return OK(bson.AppendInt32(nil, "n", int32(len(found))))
	case "getMore":
		id := int64(Number(fields[0]))
		rest := server.cursors[id]
		delete(server.cursors, id)
		of, _ := Field(fields, "collection").Text()
		return server.batch("nextBatch", of, rest)
	case "update":
		return server.update(collection, Values(fields, "updates"))
	case "delete":
		return server.remove(collection, Values(fields, "deletes"))
	case "listCollections":
		return server.listed(Field(fields, "filter").Value)
	case "ping", "endSessions", "killCursors", "buildInfo", "saslStart", "saslContinue", "commitTransaction",
		"abortTransaction":
		return OK(nil)
	}
	return bson.Wrap(bson.AppendDouble(nil, "ok", 0), bson.AppendText(nil, "errmsg", "no such command: "+name),
		bson.AppendInt32(nil, "code", 59))
}

func (server *Server) batch(name, collection string, found [][]byte) []byte {
	rest, id := [][]byte(nil), int64(0)
	if len(found) > batch {
		found, rest = found[:batch], found[batch:]
		id = int64(len(server.Got)) // another one each time
		server.cursors[id] = rest
	}
	cursor := append(Int64("id", id), bson.AppendText(nil, "ns", "hr."+collection)...)
	return OK(bson.Append(nil, bson.Document, "cursor", bson.Wrap(bson.Append(cursor, bson.Array, name, Array(found)))))
}

// listed is the reply to a listCollections.
func (server *Server) listed(filter []byte) []byte {
	var found [][]byte
	for _, info := range server.Infos {
		if matches(info, filter) {
			found = append(found, info)
		}
	}
	return server.batch("firstBatch", "$cmd.listCollections", found)
}

func (server *Server) insert(collection string, documents [][]byte) []byte {
	server.Collections[collection] = append(server.Collections[collection], documents...)
	return OK(bson.AppendInt32(nil, "n", int32(len(documents))))
}

// Spelled is a message's bytes.
func Spelled(message wire.Message) []byte {
	var all bytes.Buffer
	if _, err := message.WriteTo(&all); err != nil {
		panic(err)
	}
	return all.Bytes()
}
