"""`Fle.of` and `ClientEncryption` by the library: the tests of them by processes, once more."""
import shutil
import unittest

from fle_driver.library import loaded

from . import test_client_encryption, test_databases, test_options, test_reload


@unittest.skipUnless(loaded() and shutil.which("fle"), "no libfle.so.0 that the system finds, or no fle in PATH")
class ByLibrary(unittest.TestCase):
    program = None


class Vaults(ByLibrary, test_databases.Vaults):
    pass


class Bypasses(ByLibrary, test_databases.Bypasses):
    pass


class Options(ByLibrary, test_options.Options):
    pass


class DataKeys(ByLibrary, test_options.DataKeys):
    pass


class Values(ByLibrary, test_client_encryption.Values):
    pass


class Keys(ByLibrary, test_client_encryption.Keys):
    pass


class Reloads(ByLibrary, test_reload.Reloads):
    pass
