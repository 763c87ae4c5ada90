"""Client-side field level encryption for pymongo, by the library libfle or by kept processes of the program `fle`."""
from .client_encryption import ClientEncryption, RewrapManyDataKeyResult
from .databases import Databases
from .errors import Closed, Ended, FaultyFile, FleError, NotStarted, Refused, TimedOut, Unsupported
from .faults import (FileFault, InputFault, KeyFault, Limit, MasterFault, Reason, SchemaFault,
                     Status)
from .fle import Fle
from .hook import enable

__all__ = ["ClientEncryption", "Closed", "Databases", "Ended", "FaultyFile", "FileFault", "Fle", "FleError",
           "InputFault", "KeyFault", "Limit", "MasterFault", "NotStarted", "Reason", "Refused",
           "RewrapManyDataKeyResult", "SchemaFault", "Status", "TimedOut", "Unsupported", "enable"]
