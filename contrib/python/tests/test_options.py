"""The tables that README.md has beside pymongo's own encryption: each yes of `AutoEncryptionOpts`, by processes; those
of `ClientEncryption` are tested in test_client_encryption.py."""
import inspect
import re
import unittest

import bson
import pymongo.encryption
from bson.binary import STANDARD
from bson.codec_options import CodecOptions
from bson.raw_bson import DEFAULT_RAW_BSON_OPTIONS, RawBSONDocument
from pymongo.encryption_options import AutoEncryptionOpts

from fle_driver import ClientEncryption, Closed, Fle, Reason, Refused, Unsupported, enable
from fle_driver.walk import elements

from . import test_client_encryption
from .samples import PERSON, TOP, insert, sealed, spelled, string
from .vaults import COMMAND, FIRST, LOCAL, MAP, SECOND, VAULT, WithVault, rule
from .wire import batch, begun

SSN = "123-45-6789"
ROW = re.compile(r"^\| ((?:`\w+`(?:, )?)+) \| (yes|no) \| \S.* \|$", re.M)
# What pymongo 4.10 has beyond 3.11.
OF_4 = set("""kms_tls_options crypt_shared_lib_path crypt_shared_lib_required bypass_query_analysis encrypted_fields_map
    create_encrypted_collection encrypt_expression get_key get_keys get_key_by_alt_name delete_key add_key_alt_name
    remove_key_alt_name rewrap_many_data_key""".split())


def arguments_of(call):
    return [name for name in inspect.signature(call).parameters if name != "self"]


def stored():
    """A person as the server has it."""
    command = sealed(insert(spelled(string("ssn", SSN))))
    return bson.decode(command, DEFAULT_RAW_BSON_OPTIONS)["documents"][0]


class Options(WithVault):
    def sent(self, client):
        """What a person that a client inserts is on the wire."""
        client.hr.people.insert_one(RawBSONDocument(PERSON))
        return insert(*self.wire.last("documents"))

    def test_kms_providers(self):
        fle = self.made(kms_providers={"local": {"key": LOCAL}})
        self.assertEqual(self.sent(self.client_of(fle)), sealed(COMMAND))
        aws = {"provider": "aws", "region": "us-east-1", "key": "arn"}
        foreign = bson.encode({**bson.decode(FIRST, CodecOptions(uuid_representation=STANDARD)), "masterKey": aws},
                              codec_options=CodecOptions(uuid_representation=STANDARD))
        self.reloaded(fle, foreign)
        with self.assertRaises(Refused) as refused:
            fle.encrypt(COMMAND, "hr")
        self.assertEqual(refused.exception.reason, Reason.KeyNotLocal)

    def test_key_vault_namespace(self):
        self.made(vault="keys.of.hr")
        self.assertEqual([self.wire.came[0][name] for name in ("find", "$db")], ["of.hr", "keys"])

    def test_key_vault_client(self):
        vault = begun()
        self.addCleanup(vault.stop)
        client = self.plain_client(server=vault)
        vault.replies = [batch("firstBatch", 0, FIRST, SECOND)]
        fle = Fle.of(client, VAULT, schemas=MAP, master=LOCAL, program=self.program)
        self.assertEqual(self.sent(self.client_of(fle)), sealed(COMMAND))
        self.assertEqual(([*map(next, map(iter, vault.came))], self.names()), (["find"], ["insert"]))

    def test_schema_map(self):
        schema_map = {"hr.people": MAP["hr.people"]}
        client = self.client_of(self.made(schemas=schema_map))
        self.assertEqual(self.sent(client), sealed(COMMAND))
        with self.assertRaises(Unsupported):
            client.pay.slips.insert_one({})

    def test_bypass_auto_encryption(self):
        client = self.client_of(self.made(schemas=None, bypass=True))
        self.assertEqual(self.sent(client), COMMAND)
        self.wire.replies = [batch("firstBatch", 0, stored().raw)]
        self.assertEqual(client.hr.people.find_one(), {"ssn": SSN})


class DataKeys(WithVault):
    """Those that a `Fle` makes."""

    def test_one_of_a_database(self):
        fle = self.made(schemas=None, bypass=True)
        key_id = fle.create_data_key("local", key_alt_names=["payroll"])
        (key,) = self.wire.last("documents")
        schema = {"properties": {"ssn": {"encrypt": {**rule(0, bsonType="string")["encrypt"], "keyId": [key_id]}}}}
        new = self.made(schemas={"hr.people": schema}, keys=[FIRST, key])
        self.assertEqual(new.decrypt(new.encrypt(COMMAND)), COMMAND)
        self.reloaded(fle, key)
        self.assertEqual(fle.decrypt(new.encrypt(COMMAND)), COMMAND)

    def test_one_by_a_client_with_the_hook(self):
        for others in ([], ["encryption"]):
            client = self.plain_client()
            fle = self.made(client=client)
            enable(client, fle, others=others)
            self.wire.forget()
            if others:
                key_id = fle.create_data_key()
                (key,) = self.wire.last("documents")
                self.assertEqual(next(elements(key)).value[5:], bytes(key_id))
            else:
                self.assertRaises(Unsupported, fle.create_data_key)
                self.assertEqual(self.wire.came, [])

    def test_what_is_no_name(self):
        fle = self.made()
        self.wire.forget()
        for words, error in (({"kms_provider": "aws"}, ValueError), ({"key_alt_names": "payroll"}, TypeError)):
            with self.subTest(words), self.assertRaises(error):
                fle.create_data_key(**words)
        self.assertEqual(self.wire.came, [])

    def test_a_closed_one(self):
        fle = self.made()
        fle.close()
        for call in (fle.reload, fle.create_data_key, lambda: fle.decrypt(spelled(string("a", "b")))):
            self.assertRaises(Closed, call)


class Tables(unittest.TestCase):
    def rows(self):
        """Each name of the tables, and its answer."""
        rows = ROW.findall((TOP / "contrib/python/README.md").read_text())
        return [(name, answer) for names, answer in rows for name in re.findall(r"`(\w+)`", names)]

    def test_each_name_has_a_row(self):
        methods = [name for name, _ in inspect.getmembers(pymongo.encryption.ClientEncryption, inspect.isfunction)
                   if not re.match(r"_(?!_)|__init__", name)]
        here = {*arguments_of(AutoEncryptionOpts), "ClientEncryption", *methods}
        names = [name for name, _ in self.rows()]
        self.assertEqual(sorted(names), sorted({*names}))
        self.assertLessEqual(here, {*names})
        self.assertLessEqual({*names}, here | OF_4)

    def test_each_yes_has_a_test(self):
        tested = [name for case in (Options, test_client_encryption.Values, test_client_encryption.Keys)
                  for name in dir(case)]
        for name, answer in self.rows():
            with self.subTest(name):
                self.assertEqual(f"test_{name}" in tested, answer == "yes")

    def test_its_own_have_the_same_arguments(self):
        for name, method in inspect.getmembers(pymongo.encryption.ClientEncryption, inspect.isfunction):
            own = getattr(ClientEncryption, name, None)
            if own and not name.startswith("_"):
                with self.subTest(name):
                    common = zip(arguments_of(own), arguments_of(method))
                    self.assertEqual([one for one, other in common if one != other], [])
