package mark

import (
	"fmt"

	"fled/bson"
	"fled/refusal"
	"fled/wire"
)

// What the service says of itself: as a server of this version that stands alone, with no sessions, compression or
// awaited hellos.
const (
	version      = "6.0.0"
	wireVersion  = 17
	mostWrites   = 100_000
	notFoundCode = 59 // by its number among a server's
	notFoundName = "CommandNotFound"
)

// ownReply is the reply to a command that has no schema beside it.
func ownReply(name string) wire.Msg {
	switch {
	case wire.IsHello(name):
		return wire.Msg{Body: hello()}
	case name == "ping":
		return wire.Msg{Body: ok(nil)}
	case name == "buildInfo" || name == "buildinfo":
		return wire.Msg{Body: buildInfo()}
	}
	return refusal.Of(fmt.Sprintf("fle: no such command without jsonSchema: %.100q", name), notFoundCode, notFoundName)
}

// hello is what a driver has to know of a server before it sends a command.
func hello() []byte {
	said := bson.AppendBool(nil, "ismaster", true)
	for _, name := range []string{"isWritablePrimary", "helloOk", "iscryptd"} {
		said = bson.AppendBool(said, name, true)
	}
	said = bson.AppendInt32(said, "maxBsonObjectSize", longest)
	said = bson.AppendInt32(said, "maxMessageSizeBytes", wire.MaxMessage)
	said = bson.AppendInt32(said, "maxWriteBatchSize", mostWrites)
	said = bson.AppendInt32(bson.AppendInt32(said, "minWireVersion", 0), "maxWireVersion", wireVersion)
	return ok(bson.AppendBool(said, "readOnly", false))
}

func buildInfo() []byte {
	said := bson.AppendText(nil, "version", version)
	numbers := bson.AppendInt32(bson.AppendInt32(nil, "0", 6), "1", 0)
	numbers = bson.AppendInt32(bson.AppendInt32(numbers, "2", 0), "3", 0)
	said = bson.Append(said, bson.Array, "versionArray", bson.Wrap(numbers))
	return ok(bson.AppendInt32(said, "maxBsonObjectSize", longest))
}

// ok is a reply with these elements that says so.
func ok(elements []byte) []byte {
	return bson.Wrap(elements, bson.AppendDouble(nil, "ok", 1))
}

// helloByQuery is the reply to a hello that came as an OP_QUERY.
func helloByQuery(message wire.Message) (wire.Legacy, error) {
	query, err := wire.ReadQuery(message)
	if err != nil {
		return query, err
	}
	if first, has := bson.Over(query.Document).Next(); !has || !wire.IsHello(first.Name) {
		return query, refusal.ErrLegacy
	}
	return wire.NewReply(hello()), nil
}
