package mock

import (
	"encoding/base64"
	"strings"
	"testing"
)

// The exchange that RFC 7677 has as its example, and the same with a byte of the proof changed.
func TestTheExampleOfSCRAM(t *testing.T) {
	const nonce, proof = "rOprNGfwEbeRWgbNEkqO%hvYDpWUa2RaTCAfuxFIlj)hNlF$k0", "dHzbZapWIk4jUhN+Ute9ytag9zjfMHgsqmmiz7AndVQ="
	salt, err := base64.StdEncoding.DecodeString("W22ZaJ0SNY7soEsUEjb6gQ==")
	if err != nil {
		t.Fatal(err)
	}
	for _, one := range []struct{ proof, said string }{
		{proof, "v=6rriTRBi23WpRR/wtup+mMhUZUn/dB5nLTJRsjl95G4="},
		{strings.Replace(proof, "dH", "eH", 1), ""},
	} {
		begun := login{user: "user", way: sha256Way, nonce: nonce, salt: string(salt),
			said: "n=user,r=rOprNGfwEbeRWgbNEkqO,r=" + nonce + ",s=W22ZaJ0SNY7soEsUEjb6gQ==,i=4096"}
		said, _, err := begun.prove(map[string]string{"user": "pencil"}, "c=biws,r="+nonce+",p="+one.proof)
		if said != one.said || begun.has != (one.said != "") || (err == nil) != begun.has {
			t.Errorf("%q %v", said, err)
		}
	}
}
