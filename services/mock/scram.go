package mock

import (
	"crypto/hmac"
	"crypto/md5"
	"crypto/sha1"
	"crypto/sha256"
	"encoding/base64"
	"encoding/binary"
	"encoding/hex"
	"fmt"
	"hash"
	"strings"

	"fled/bson"
)

// What the server half of SCRAM (RFC 5802, RFC 7677) has of its own.
const (
	rounds    = 4096
	ownSalt   = "a salt of four bytes below 32" // 28 bytes of it, of the shorter hash 16: as libmongoc wants
	ownNonce  = "the-server's-part"
	sha256Way = "SCRAM-SHA-256"
	sha1Way   = "SCRAM-SHA-1"
)

// login is where one connection stands in authentication.
type login struct {
	user, way  string
	said       string // the client's first message without its head, and the server's
	nonce      string
	salt       string
	skips, has bool // whether the last, empty exchange is left out; whether the client is who it says
}

// may is whether a client may send a command of this name.
func (login *login) may(users map[string]string, name string) bool {
	return len(users) == 0 || login.has || name == "hello" || strings.EqualFold(name, "ismaster") ||
		strings.HasPrefix(name, "sasl")
}

// refused is the reply of a server that doesn't know the client.
func refused(why string, code int32) []byte {
	return bson.Wrap(bson.AppendDouble(nil, "ok", 0), bson.AppendText(nil, "errmsg", why),
		bson.AppendInt32(nil, "code", code))
}

// sasl is the reply to a saslStart or a saslContinue; nil for another command.
func (login *login) sasl(users map[string]string, name string, fields []bson.Element) []byte {
	if len(users) == 0 || name != "saslStart" && name != "saslContinue" {
		return nil
	}
	said, done, fault := login.step(users, name, fields)
	if fault != nil {
		return refused(fault.Error(), 18)
	}
	payload := append(binary.LittleEndian.AppendUint32(nil, uint32(len(said))), 0)
	reply := bson.Append(bson.AppendInt32(nil, "conversationId", 1), 0x05, "payload", append(payload, said...))
	return OK(append(reply, bson.AppendBool(nil, "done", done)...))
}

// step takes one message, and answers what the server says, and whether that is the last of it.
func (login *login) step(users map[string]string, name string, fields []bson.Element) (string, bool, error) {
	said := string(payloadOf(Field(fields, "payload")))
	if name == "saslContinue" {
		if login.has {
			return "", true, nil
		}
		return login.prove(users, said)
	}
	*login = begun(fields)
	if login.way == "PLAIN" {
		parts := strings.Split(said, "\x00")
		login.has = len(parts) == 3 && users[parts[1]] != "" && users[parts[1]] == parts[2]
		return "", true, unless(login.has, "PLAIN")
	}
	_, bare, has := strings.Cut(said, ",,")
	attributes := attributesOf(bare)
	if !has || attributes["r"] == "" || login.hash() == nil {
		return "", false, unless(false, "a first message")
	}
	login.user, login.nonce = attributes["n"], attributes["r"]+ownNonce
	answer := fmt.Sprintf("r=%s,s=%s,i=%d", login.nonce, base64.StdEncoding.EncodeToString([]byte(login.salt)), rounds)
	login.said = bare + "," + answer
	return answer, false, nil
}

// begun is a login by the mechanism that a saslStart names.
func begun(fields []bson.Element) login {
	way, _ := Field(fields, "mechanism").Text()
	skips := Number(Field(Fields(Field(fields, "options").Value), "skipEmptyExchange")) == 1
	salt := ownSalt[:28]
	if way == sha1Way {
		salt = salt[:16]
	}
	return login{way: way, salt: salt, skips: skips}
}

// prove judges the client's proof, and answers the server's own.
func (login *login) prove(users map[string]string, said string) (string, bool, error) {
	attributes := attributesOf(said)
	at := strings.LastIndex(said, ",p=")
	proof, err := base64.StdEncoding.DecodeString(attributes["p"])
	if at < 0 || err != nil || attributes["r"] != login.nonce || attributes["c"] != "biws" {
		return "", false, unless(false, "a last message")
	}
	whole := login.said + "," + said[:at]
	salted := login.salted(users[login.user])
	clientKey := login.mac(salted, "Client Key")
	stored := login.hash()()
	stored.Write(clientKey)
	signature := login.mac(stored.Sum(nil), whole)
	for index := range signature {
		signature[index] ^= clientKey[index]
	}
	if login.has = users[login.user] != "" && hmac.Equal(signature, proof); !login.has {
		return "", false, unless(false, "the proof")
	}
	own := login.mac(login.mac(salted, "Server Key"), whole)
	return "v=" + base64.StdEncoding.EncodeToString(own), login.skips, nil
}

// salted is SaltedPassword; of SCRAM-SHA-1 MongoDB takes a digest of name and password for the password.
func (login *login) salted(password string) []byte {
	if login.way == sha1Way {
		digest := md5.Sum([]byte(login.user + ":mongo:" + password))
		password = hex.EncodeToString(digest[:])
	}
	last := login.mac([]byte(password), login.salt+"\x00\x00\x00\x01")
	all := append([]byte(nil), last...)
	for round := 1; round < rounds; round++ {
		last = login.mac([]byte(password), string(last))
		for index := range all {
			all[index] ^= last[index]
		}
	}
	return all
}

// hash is that of the mechanism; nil for an unknown one.
func (login *login) hash() func() hash.Hash {
	return map[string]func() hash.Hash{sha256Way: sha256.New, sha1Way: sha1.New}[login.way]
}

func (login *login) mac(key []byte, text string) []byte {
	made := hmac.New(login.hash(), key)
	made.Write([]byte(text))
	return made.Sum(nil)
}

// attributesOf are the parts a=b of a message of SCRAM.
func attributesOf(said string) map[string]string {
	found := map[string]string{}
	for _, part := range strings.Split(said, ",") {
		name, value, _ := strings.Cut(part, "=")
		found[name] = value
	}
	return found
}

// payloadOf are the bytes of a binary, or of their base64 text.
func payloadOf(field bson.Element) []byte {
	switch {
	case field.Tag == 0x05:
		return field.Value[5:]
	case field.Tag == bson.String:
		decoded, _ := base64.StdEncoding.DecodeString(string(field.Value[4 : len(field.Value)-1]))
		return decoded
	}
	return nil
}

// unless is an error where something isn't so.
func unless(is bool, what string) error {
	if is {
		return nil
	}
	return fmt.Errorf("authentication failed: %s", what)
}
