"""AEAD_AES_256_CBC_HMAC_SHA_512: a text is enciphered, and a tag over it and over the head before it shows whether
either was changed (draft-mcgrew-aead-aes-cbc-hmac-sha2, sections 2.1 and 2.2, as MongoDB's client-side encryption
specification has it: with a tag of 32 bytes, and a key of 96, of which 32 are for the tag, 32 for the cipher, and 32
for derived IVs)."""
import hmac
import struct

from reference.aes import cbc_opened, cbc_sealed
from reference.reasons import Reason

KEY, IV, BLOCK, TAG = 96, 16, 16, 32  # bytes


def mac(key, contents):
    """HMAC-SHA-512 (RFC 2104)."""
    return hmac.digest(key, contents, "sha512")


def bits_of(head):
    """The number of bits of the head, as eight bytes, high byte first."""
    return struct.pack(">Q", 8 * len(head))


def tag_of(key, head, contents):
    """The tag over a head, and an IV and the blocks behind it."""
    return mac(key[:32], head + contents + bits_of(head))[:TAG]


def derived_iv(key, head, plain):
    """The IV of a deterministic value: equal values have equal ones."""
    return mac(key[64:], head + bits_of(head) + plain)[:IV]


def padded(plain):
    """The text in whole blocks: 1 to 16 bytes more, each of which says how many (PKCS #7; RFC 5652, section 6.3)."""
    count = BLOCK - len(plain) % BLOCK
    return plain + bytes([count]) * count


def sealed(key, head, iv, blocks):
    """IV, enciphered blocks, tag."""
    contents = iv + cbc_sealed(key[32:64], iv, blocks)
    return contents + tag_of(key, head, contents)


def opened(key, head, contents):
    """The plain text; or the reason why there is none. The tag is judged before anything is deciphered."""
    if tag_of(key, head, contents[:-TAG]) != contents[-TAG:]:
        return Reason.TAG_MISMATCH
    blocks = cbc_opened(key[32:64], contents[:IV], contents[IV:-TAG])
    count = blocks[-1]
    well = 1 <= count <= BLOCK and blocks.endswith(bytes([count]) * count)
    return blocks[:-count] if well else Reason.PADDING
