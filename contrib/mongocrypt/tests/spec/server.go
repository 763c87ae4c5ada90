//go:build driver && cse

package main

import (
	"fmt"
	"io"
	"net"
	"sync"

	"go.mongodb.org/mongo-driver/bson"
	"go.mongodb.org/mongo-driver/x/bsonx/bsoncore"
	"go.mongodb.org/mongo-driver/x/mongo/driver/wiremessage"
)

// A server in memory, of all databases.
type server struct {
	lock    sync.Mutex
	data    map[string][]bson.D // by DATABASE.COLLECTION
	infos   map[string][]bson.D // by database
	cursors map[int64][]interface{}
}

// listen serves whoever connects, and answers the address.
func (s *server) listen() string {
	door, err := net.Listen("tcp", "127.0.0.1:0")
	must(err)
	go func() {
		for {
			conn, err := door.Accept()
			must(err)
			go s.serve(conn)
		}
	}()
	return door.Addr().String()
}

// serve answers OP_MSG, and the OP_QUERY that a driver begins with.
func (s *server) serve(conn net.Conn) {
	defer conn.Close()
	for {
		head := make([]byte, 16)
		if _, err := io.ReadFull(conn, head); err != nil {
			return
		}
		length, id, _, opcode, _, _ := wiremessage.ReadHeader(head)
		body := make([]byte, length-16)
		if _, err := io.ReadFull(conn, body); err != nil {
			return
		}
		index, reply := int32(0), []byte(nil)
		if opcode == wiremessage.OpQuery {
			index, reply = wiremessage.AppendHeaderStart(nil, 1, id, wiremessage.OpReply)
			reply = wiremessage.AppendReplyNumberReturned(append(reply, make([]byte, 16)...), 1)
			reply = append(reply, spelled(hello())...)
		} else {
			index, reply = wiremessage.AppendHeaderStart(nil, 1, id, wiremessage.OpMsg)
			reply = wiremessage.AppendMsgSectionType(wiremessage.AppendMsgFlags(reply, 0), wiremessage.SingleDocument)
			reply = append(reply, spelled(s.answer(command(body)))...)
		}
		if _, err := conn.Write(bsoncore.UpdateLength(reply, index, int32(len(reply)))); err != nil {
			return
		}
	}
}

func spelled(document bson.D) []byte {
	all, err := bson.Marshal(document)
	must(err)
	return all
}

// command is the one document that an OP_MSG stands for.
func command(body []byte) (whole bson.D) {
	_, rest, _ := wiremessage.ReadMsgFlags(body)
	var behind bson.D
	for len(rest) > 0 {
		var kind wiremessage.SectionType
		kind, rest, _ = wiremessage.ReadMsgSectionType(rest)
		if kind == wiremessage.SingleDocument {
			var document bsoncore.Document
			document, rest, _ = wiremessage.ReadMsgSectionSingleDocument(rest)
			must(bson.Unmarshal(document, &whole))
			continue
		}
		name, documents, left, _ := wiremessage.ReadMsgSectionDocumentSequence(rest)
		list := bson.A{}
		for _, one := range documents {
			var document bson.D
			must(bson.Unmarshal(one, &document))
			list = append(list, document)
		}
		behind, rest = append(behind, bson.E{Key: name, Value: list}), left
	}
	return append(whole, behind...)
}

func hello() bson.D {
	return bson.D{{"ismaster", true}, {"helloOk", true}, {"maxBsonObjectSize", int32(16 << 20)},
		{"maxMessageSizeBytes", int32(48000000)}, {"maxWriteBatchSize", int32(100000)}, {"minWireVersion", int32(0)},
		{"logicalSessionTimeoutMinutes", int32(30)}, {"maxWireVersion", int32(13)}, {"ok", 1.0}}
}

// lacks is how an answer begins where the server doesn't know an operator.
const lacks = "the mock server lacks"

func (s *server) answer(command bson.D) (reply bson.D) {
	s.lock.Lock()
	defer s.lock.Unlock()
	defer func() {
		if why := recover(); why != nil {
			reply = bson.D{{"ok", 0.0}, {"errmsg", fmt.Sprint(lacks, " ", why)}, {"code", int32(59)}}
		}
	}()
	return append(s.run(command), bson.E{Key: "ok", Value: 1.0})
}

func (s *server) run(command bson.D) bson.D {
	database, _ := get(command, "$db").(string)
	collection, _ := command[0].Value.(string)
	space, name := database+"."+collection, command[0].Key
	switch name {
	case "hello", "isMaster", "ismaster":
		return hello()
	case "insert":
		for _, document := range get(command, "documents").(bson.A) {
			s.data[space] = append(s.data[space], document.(bson.D))
		}
		return bson.D{{"n", int32(len(get(command, "documents").(bson.A)))}}
	case "find":
		return s.found(command, space)
	case "getMore":
		rest := s.cursors[command[0].Value.(int64)]
		return s.batch("nextBatch", database+"."+get(command, "collection").(string), rest, number(command, "batchSize"))
	case "listCollections":
		return s.batch("firstBatch", database+".$cmd", where(s.infos[database], get(command, "filter")), 0)
	case "create":
		s.infos[database] = append(s.infos[database], bson.D{{"name", collection}, {"type", "collection"},
			{"options", bson.D{{"validator", get(command, "validator")}}}})
		return nil
	case "drop":
		delete(s.data, space)
		s.infos[database] = nil
		return nil
	case "endSessions", "killCursors", "ping":
		return nil
	}
	return s.change(name, command, space)
}

// change answers the commands that change documents, and those that count them.
func (s *server) change(name string, command bson.D, space string) bson.D {
	switch name {
	case "count":
		return bson.D{{"n", int32(len(where(s.data[space], get(command, "query"))))}}
	case "distinct":
		values := bson.A{}
		for _, document := range where(s.data[space], get(command, "query")) {
			value := get(document.(bson.D), get(command, "key").(string))
			if !matches(bson.D{{"v", values}}, bson.D{{"v", value}}) {
				values = append(values, value)
			}
		}
		return bson.D{{"values", values}}
	case "update":
		return s.update(command, space)
	case "delete":
		return s.remove(command, space)
	case "findAndModify":
		return s.modify(command, space)
	}
	panic("the command " + name)
}

func (s *server) found(command bson.D, space string) bson.D {
	all := where(s.data[space], get(command, "filter"))
	if limit := number(command, "limit"); limit > 0 && limit < len(all) {
		all = all[:limit]
	}
	return s.batch("firstBatch", space, all, number(command, "batchSize"))
}

func (s *server) batch(name, space string, all []interface{}, size int) bson.D {
	id := int64(0)
	if size > 0 && size < len(all) {
		id = int64(len(s.cursors) + 1)
		s.cursors[id], all = all[size:], all[:size]
	}
	return bson.D{{"cursor", bson.D{{"id", id}, {"ns", space}, {name, append(bson.A{}, all...)}}}}
}

func number(command bson.D, name string) int {
	switch value := get(command, name).(type) {
	case int32:
		return int(value)
	case int64:
		return int(value)
	}
	return 0
}
