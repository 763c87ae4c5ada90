"""Values that MongoDB's own library sealed: of the tests of its specification of client-side encryption, from
corpus/corpus-key-local.json and corpus/corpus-encrypted.json, under the master key that their README.rst calls
LOCAL_MASTERKEY. Debian's golang-mongodb-mongo-driver-dev has them as data/client-side-encryption-prose."""
import base64
import datetime

from bson.binary import Binary
from bson.code import Code
from bson.decimal128 import Decimal128
from bson.int64 import Int64
from bson.objectid import ObjectId
from bson.regex import Regex
from bson.timestamp import Timestamp

from .samples import binary, element, integer, spelled, string

MASTER = base64.b64decode("Mng0NCt4ZHVUYUJCa1kxNkVyNUR1QURhZ2h2UzR2d2RrZzh0cFBwM3R6NmdWMDFBMUN3YkQ5aXRRMkhG"
                          "RGdQV09wOGVNYUMxT2k3NjZKelhaQmRCZGJkTXVyZG9uSjFk")
ID, NAME = Binary(base64.b64decode("LOCALAAAAAAAAAAAAAAAAA=="), 4), "local"
MATERIAL = base64.b64decode("Ce9HSz/HKKGkIt4uyy+jDuKGA+rLC2cycykMo6vc8jXxqa1UVDYHWq1r+vZKbnnSRBfB981akzRKZCFpC05CTyFq"
                            "DhXv6OnMjpG97OZEREGIsHEYiJkBW0jJJvfLLgeLsEpBzsro9FztGGXASxyxFRZFhXvHxyiLOKrdWfs7X1O/iK3p"
                            "EoHMx6uSNSfUOgbebLfIqW7TO++iQS5g1xovXA==")
DATE = (1_557_827_033_449).to_bytes(8, "little")
KEY = spelled(integer("status", 1), binary("_id", 4, ID),
              element(3, "masterKey", spelled(string("provider", "local"))), element(9, "updateDate", DATE),
              binary("keyMaterial", 0, MATERIAL), element(9, "creationDate", DATE),
              element(4, "keyAltNames", spelled(string("0", NAME))))


def payloads(algorithm, *rows):
    """Each value with its payload: the head, by the value's type, and behind it what is base64 here."""
    return [(value, Binary(bytes([algorithm, *ID, tag]) + base64.b64decode(rest), 6)) for value, tag, rest in rows]


# local_TYPE_det_explicit_id, which are those of local_TYPE_det_explicit_altname, too; and payload=16,algo=det
DETERMINISTIC = payloads(
    1,
    ("mongodb", 2,
     "W0cZMYWOY3eoqQQkSdBtS9iHC4CSQA27dy6XJGcmTV8EDuhGNnPmbx0EKFTDb0PCSyCjMyuE4nsgmNYgjTaSuw=="),
    (b"\1\2\3\4", 5,
     "1ofBnK9+ERP29P/i14GQ/y3muic6tNKY532zCkzQkJSktYCOeXS8DdY1DdaOP/asZWzPTdgwby6/iZcAxJU+xQ=="),
    (ObjectId("01234567890abcdef0123456"), 7,
     "4ElF4AvQ+kkGfhadgKNy3GcYrDZPN6RpzaMYIhcCGDvC9W+cIS9dH1aJbPU7vTPmEZnnynPTDWjw3rAj2+9mOA=="),
    (datetime.datetime(1970, 1, 1, 0, 0, 12, 345_000), 9,
     "1GMYQTruoKr6fv9XCbcVkx/3yivymPSMEkPCRDYxQv45w4TqBKMDfpRd1TOLOv1qvcb+gjH+z5IfVBMp2IpG/Q=="),
    (Regex(".*"), 11,
     "iZbL5nFIZl7cSLH5E3wK3jJeAeFc7hLHNITtLAu+o10raEs5i/UCihMHmkf8KHZxghs056pfm5BjPzlL9x7IHQ=="),
    (Code("x=1"), 13,
     "mQsg9E/BzGJVNVhSNyunS/TH0332oVFdPS6gjX0Cp/JC0YhB97DLz3N4e/q8ECaz7tTdQt9JacNUgxo+YCULUA=="),
    (123, 16,
     "IxWjLBromNUgiOoeoZ4RUJUYIfhfOmab0sa4qYlS9bgYI41FU6BtzaOevR16O9i+uACbiHL0X6FMXKjOmiRAug=="),
    (Timestamp(0, 12345), 17,
     "6uMylGytMq8QDr5Yz3w9HlW2MkGt6yIgUKcXYSaXru8eer+EkLv66/vy5rHqTfV0+8ryoi+d+PWO5U6b3Ng5Gg=="),
    (Int64(456), 18,
     "Qk372m/hW3WX82/GH+ikPv3QUwK7Hh/RBpAguiNxMdNhkgA/y2gznVNm17t6djyub7+d5zN4P5PLS/EOm2kjtw=="),
    ("a" * 16, 2,
     "6s9eUtSneKWj3/A7S+bPZLj3t1WtUh7ltW80b8jCRzA+kOI26j1MEb1tt68HgcnH1IJ3YQ/+UHlV95OgwSnIxlib/HJn3U0s8mpuCWe1Auo="),
)
# local_TYPE_rand_explicit_id
RANDOM = payloads(
    2,
    (1.234, 1,
     "DlHwN8hYyScEhhx64TdJ2Qp2rmKRg8983zdqIL1914tyPwRQq7ySCOhmFif2S7v4KT+r0uOfimYvKD1n9rKHlg=="),
    ({"x": 1}, 3,
     "CHRJCINzWY0u4gZPWEmHg/JoQ8IW4yMfUyzYJCQrEMp4rUeupIuxqSuq2QyLBYZBBv0r7t3lNH49I5qDeav2vA=="),
    ([1, 2, 3], 4,
     "YBLSYHHt2rohezMF4lMjNdqy9CY33EHf+pgRbJwVXZScLDgn9CcqeRsdU8bW5h2qgNpQvoSMBB7pW+Dgp1RauTHZSOd4PcZpAGjwoFDWSSM="),
    (True, 8,
     "Juzu1a60meYlU3LMjw/7G4Vh/lqKopxdpGWoLXEmY/NoHgX6Fkv9iTwxv/Nv8rZwtawpFV+mQUG/6A1IHMBASQ=="),
    (Code("x=1", {}), 15,
     "LUa+nsrqiHkVdE5K1xl/ZsiZqQznG2yVXyA3b3loBylbcL2NEBp1JUeGnPZ0y5ZK4AmoL6NMH2Io313rW3V8FTArs/OOQWPRJSe6h0M3wXk="),
    (Decimal128("1.234"), 19,
     "9vqXuKRh+2HxeCMr+pQYdhYNw7xrTdU4dySWz0X6tCK7LZO5AV72utmRJxID7Bqv1ZlXAk00V92oDLyKG9kHeG5+S34QE/aLCPsAWcppfxY="),
    ("mongodb", 2,
     "n4tD26UG8lO9gTZaxen6yXzHo/a2lokeY1ClxHMtJODoJr2JZzIDHP3A9aZ8L4+Vu+nyqphaWyGaGONKu8gpcQ=="),
)
