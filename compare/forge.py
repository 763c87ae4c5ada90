"""Payloads and key material as no honest side writes them, by OpenSSL's command (AES-256-CBC) and Python's hmac: the
sealing of MongoDB Client Side Encryption, "AEAD_AES_256_CBC_HMAC_SHA_512", over blocks of the caller's choice."""
import hashlib
import hmac
import struct
import subprocess

from documents import field

IV = bytes(range(0x40, 0x50))


def cbc(direction, key, iv, blocks):
    words = ["openssl", "enc", direction, "-aes-256-cbc", "-nopad", "-K", key.hex(), "-iv", iv.hex()]
    return subprocess.run(words, input=blocks, stdout=subprocess.PIPE, check=True).stdout


def padded(plain):
    count = 16 - len(plain) % 16
    return plain + bytes([count]) * count


def sealed(key, associated, blocks):
    """Whole blocks sealed under the first 64 bytes of a key: IV, blocks, tag."""
    text = IV + cbc("-e", key[32:64], IV, blocks)
    length = struct.pack(">Q", 8 * len(associated))
    return text + hmac.new(key[:32], associated + text + length, hashlib.sha512).digest()[:32]


def data_key(master, document):
    """The data key of a key document: its material has an empty associated text."""
    material = field(document, "keyMaterial")[5:]
    return cbc("-d", master[32:64], material[:16], material[16:-32])[:96]


def payload(key, key_id, plain, kind=2, tag=16, blocks=None):
    """The contents of a payload; of other blocks than the padded plain text where they are given."""
    head = bytes([kind]) + key_id + bytes([tag])
    return head + sealed(key, head, padded(plain) if blocks is None else blocks)
