package proxy

import (
	"encoding/binary"
	"errors"

	"fled/bson"
)

// messageMost is what clients are told as maxMessageSizeBytes: less than servers take, since what is sealed is longer,
// and no less than the longest reply, which some drivers hold to it too.
const messageMost = 17 << 20

// helloNames are what a hello may have, by MongoDB's handshake specification and the manual of the command; of an
// OP_QUERY or an OP_MSG.
var helloNames = words(`hello isMaster ismaster $clusterTime $db $readPreference apiDeprecationErrors apiStrict apiVersion
	backpressure client comment compression helloOk loadBalanced lsid maxAwaitTimeMS maxTimeMS saslSupportedMechs
	speculativeAuthenticate topologyVersion`)

// errHello is a hello with a name that is no hello's.
var errHello = errors.New("FieldNotAllowed: a hello with a field that isn't its own")

// helloRequest is a client's hello without what it would compress by.
func helloRequest(hello []byte) ([]byte, error) {
	isOwn := true
	sent, err := rewritten(hello, func(element bson.Element) []byte {
		isOwn = isOwn && helloNames[element.Name]
		if element.Name == "compression" {
			return nil
		}
		return element.Whole
	})
	if err == nil && !isOwn {
		err = errHello
	}
	return sent, err
}

// helloReply is a server's hello as a client gets it: the proxy is the only host, by this address.
func helloReply(hello []byte, address string) ([]byte, error) {
	return rewritten(hello, func(element bson.Element) []byte {
		switch element.Name {
		case "compression", "passives", "arbiters":
			return nil
		case "hosts":
			return bson.Append(nil, bson.Array, element.Name, bson.Wrap(bson.AppendText(nil, "0", address)))
		case "me", "primary":
			return bson.AppendText(nil, element.Name, address)
		case "maxMessageSizeBytes":
			if element.Tag == bson.Int32 && int32(binary.LittleEndian.Uint32(element.Value)) > messageMost {
				return bson.AppendInt32(nil, element.Name, messageMost)
			}
		}
		return element.Whole
	})
}

// rewritten is a document with each element as it is rewritten.
func rewritten(document []byte, rewrite func(bson.Element) []byte) ([]byte, error) {
	var parts []byte
	walk := bson.Over(document)
	for element, has := walk.Next(); has; element, has = walk.Next() {
		parts = append(parts, rewrite(element)...)
	}
	if walk.Err() != nil {
		return nil, walk.Err()
	}
	return bson.Wrap(parts), nil
}
