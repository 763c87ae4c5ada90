package proxy

import (
	"bytes"
	"errors"
	"testing"

	"fle"

	"fled/bson"
	"fled/mock"
	"fled/wire"
)

// inserts is an insert of so many documents, each of so many bytes of text, as a sequence.
func inserts(count, length int) wire.Msg {
	var documents []byte
	for number := 0; number < count; number++ {
		text := secret + string(bytes.Repeat([]byte{'a' + byte(number%26)}, length))
		id := bson.AppendInt32(nil, "_id", int32(number))
		documents = append(documents, bson.Wrap(id, bson.AppendText(nil, "ssn", text))...)
	}
	sequence := wire.Sequence{Name: "documents", Documents: documents}
	return wire.Msg{Body: body("insert", "people", "hr"), Sequences: []wire.Sequence{sequence}}
}

// A sequence stays a sequence, with each document as it was but for what was sealed.
func TestPortions(t *testing.T) {
	for _, one := range []struct{ count, length, calls int }{
		{1, 10, 1}, {10, 10, 1}, {0, 0, 1}, {6, 1 << 20, 2}, {2, 5 << 20, 2},
	} {
		calls, longest := 0, 0
		engine := fake{func(command []byte) ([]byte, error) {
			calls++
			if len(command) > longest {
				longest = len(command)
			}
			return bytes.ReplaceAll(command, []byte(secret), []byte("sealed")), nil
		}}
		msg := inserts(one.count, one.length)
		whole, err := sealed(engine, "hr", msg)
		if err != nil || calls != one.calls || longest > portion+one.length+200 {
			t.Fatalf("%d calls, the longest of %d bytes, %v", calls, longest, err)
		}
		wanted := bytes.ReplaceAll(msg.Sequences[0].Documents, []byte(secret), []byte("sealed"))
		if !bytes.Equal(whole.Body, msg.Body) || !bytes.Equal(whole.Sequences[0].Documents, wanted) ||
			whole.Sequences[0].Name != "documents" {
			t.Error("a sequence is sealed otherwise")
		}
	}
}

// What comes back from the library in another form isn't sent.
func TestFormsThatAreNotSent(t *testing.T) {
	msg := inserts(2, 10)
	whole := mock.Joined(msg)
	inner := whole[4 : len(whole)-1]
	for why, back := range map[string][]byte{
		"nothing":            nil,
		"no document":        {1, 2, 3},
		"another length":     append(bson.Wrap(inner), 0),
		"the body alone":     msg.Body,
		"another body":       bytes.ReplaceAll(whole, []byte("people"), []byte("others")),
		"another name":       bytes.ReplaceAll(whole, []byte("documents"), []byte("documentz")),
		"an element more":    bson.Wrap(inner, bson.AppendText(nil, "a", "b")),
		"fewer documents":    mock.Joined(inserts(1, 10)),
		"more documents":     mock.Joined(inserts(3, 10)),
		"another number":     bytes.Replace(whole, []byte("\x031\x00"), []byte("\x032\x00"), 1),
		"no array":           bytes.ReplaceAll(whole, []byte("\x04documents"), []byte("\x03documents")),
		"an item of another": bytes.Replace(whole, []byte("\x031\x00"), []byte("\x041\x00"), 1),
	} {
		sent, err := sealed(fake{func([]byte) ([]byte, error) { return back, nil }}, "hr", msg)
		if !errors.Is(err, errForm) || len(sent.Sequences[0].Documents) > 0 {
			t.Errorf("%s: %v", why, err)
		}
	}
}

// A refusal names the document by its number in the sequence, and nothing is sent of the portions before.
func TestARefusalInALaterPortion(t *testing.T) {
	calls := 0
	rig := startRig(t, faked(func(command []byte) ([]byte, error) {
		if calls++; calls < 2 {
			return command, nil
		}
		return nil, &fle.Error{Status: fle.Refused, Reason: "TypeNotAllowed", Number: 5,
			Fields: []string{"documents", "1", "ssn"}}
	}))
	fields := mock.Dial(t, rig.address).Command(inserts(6, 1<<20))
	wantRefused(t, fields, `TypeNotAllowed at "documents.4.ssn"`)
	if len(rig.Names()) > 0 {
		t.Error(rig.Names())
	}
}

func TestASealedMessageThatIsTooLong(t *testing.T) {
	rig := startRig(t, faked(func(command []byte) ([]byte, error) {
		return bson.Wrap(command[4:len(command)-1], bson.AppendText(nil, "a", string(make([]byte, wire.MaxMessage)))), nil
	}))
	fields := mock.Dial(t, rig.address).Command(wire.Msg{Body: body("insert", "people", "hr")})
	wantRefused(t, fields, "Limit: Output")
	if len(rig.Names()) > 0 {
		t.Error(rig.Names())
	}
}

// A reply above what the library takes is opened in parts, which are as short as they may be.
func TestALongReply(t *testing.T) {
	engine := fake{}
	payload := bson.Append(nil, 0x05, "ssn", append([]byte{7, 0, 0, 0, 6, 2}, "sealed"...))
	stored := bson.Wrap(bson.AppendText(nil, "a", string(bytes.Repeat([]byte{'a'}, 16<<20-60))), payload)
	cursor := bson.Wrap(bson.Append(nil, bson.Array, "firstBatch", mock.Array([][]byte{stored})), mock.Int64("id", 0),
		bson.AppendText(nil, "ns", "hr.people"))
	reply := mock.OK(append(bson.Append(nil, bson.Document, "cursor", cursor), payload...))
	if len(stored) > longest || len(reply) <= longest || len(reply) > wire.MaxReply {
		t.Fatal(len(stored), len(reply))
	}
	back, err := opened(engine, reply)
	if err != nil || !bytes.Equal(back, bytes.ReplaceAll(reply, []byte("sealed"), []byte(secret))) {
		t.Error("a long reply is opened otherwise", err)
	}
	cut := append([]byte(nil), reply...)
	cut[len(cut)-13] = 0x42 // a type that no element has
	if _, err = opened(engine, cut); err == nil {
		t.Error("a reply that is malformed is opened")
	}
}

// Nothing is asked of the library for a reply that holds no payload.
func TestAReplyWithoutPayloads(t *testing.T) {
	reply := mock.OK(bson.AppendText(nil, "a", "sealed"))
	if back, err := opened(nil, reply); err != nil || !bytes.Equal(back, reply) {
		t.Error(err)
	}
}
