"""A key vault on the mock server, and what `Fle.of` makes of it."""
import base64
import uuid

from fle_driver import Fle
from fle_driver.kept import Kept
from fle_driver.listed import documents_of

from .samples import KEYS, MASTER, PERSON, insert
from .wire import WithClients, batch

VAULT = "encryption.__keyVault"
FIRST, SECOND = documents_of(KEYS.read_bytes())
LOCAL = base64.b64decode(MASTER.read_bytes())
NAMES = "AEAD_AES_256_CBC_HMAC_SHA_512-Deterministic", "AEAD_AES_256_CBC_HMAC_SHA_512-Random"


def rule(number, **types):
    """A rule under the first key."""
    return {"encrypt": {"keyId": [uuid.UUID("00112233-4455-4677-8899-aabbccddeeff")], "algorithm": NAMES[number],
                        **types}}


PEOPLE = {"bsonType": "object", "properties": {"ssn": rule(0, bsonType="string"), "salary": rule(1)}}
SLIPS = {"properties": {"iban": rule(0, bsonType="string")}}
MAP = {"hr.people": PEOPLE, "pay.slips": SLIPS, "hr.staff.old": {}}
COMMAND = insert(PERSON)
SLIP = {"_id": 1, "iban": "AT48 3200"}


class WithVault(WithClients):
    """A server that has the vault; a `Fle` is made by processes."""

    program = "fle"

    def made(self, schemas=MAP, vault=VAULT, keys=(FIRST, SECOND), client=None, **words):
        """What `Fle.of` gives where the server answers with these keys."""
        if not {"master", "kms_providers"} & set(words):
            words["master"] = LOCAL
        self.wire.replies = [batch("firstBatch", 0, *keys)]
        fle = Fle.of(client or self.plain_client(), vault, schemas=schemas, program=self.program, **words)
        self.addCleanup(fle.close)
        self.assertEqual(isinstance(fle._now()[next(iter(fle._now()))]._sealing, Kept), self.program is not None)
        return fle

    def reloaded(self, fle, *keys):
        """The same, where its vault has these keys now."""
        self.wire.replies = [batch("firstBatch", 0, *keys)]
        fle.reload()

    def names(self):
        """The commands that came."""
        return [next(iter(command)) for command in self.wire.came]
