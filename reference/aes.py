"""AES-256 in CBC mode over whole blocks (FIPS 197; NIST SP 800-38A, section 6.2), by Python's `cryptography` where it
is installed, and else as the standard says it, a block of 16 bytes being a number whose highest byte is the first. Byte
4c + r of a block is that of row r and column c of the standard's state."""
import functools
from operator import itemgetter

try:
    from cryptography.hazmat.primitives.ciphers import Cipher, algorithms, modes
except ImportError:
    Cipher = None

EACH = int.from_bytes(b"\1" * 16, "big")  # one in each byte


def doubled(state):
    """Each byte times 02 in the field of section 4.2."""
    return (state & EACH * 0x7F) << 1 ^ (state >> 7 & EACH) * 0x1B


def turned(state, count):
    """Each column with its bytes so many places on: byte i of it is the byte i + count before."""
    low = EACH & (1 << 96 | 1 << 64 | 1 << 32 | 1)  # one in each column
    kept = low * ((1 << 8 * (4 - count)) - 1)
    return (state & kept) << 8 * count | (state >> 8 * (4 - count)) & low * ((1 << 8 * count) - 1)


def mixed(state):
    """MixColumns, section 5.1.3."""
    following = turned(state, 1)
    return doubled(state ^ following) ^ following ^ turned(state, 2) ^ turned(state, 3)


def unmixed(state):
    """InvMixColumns, section 5.3.3: its matrix is that of MixColumns times 05 00 04 00."""
    return mixed(state ^ doubled(doubled(state ^ turned(state, 2))))


def substitutions():
    """The S-box of section 5.1.1: the inverse in the field, then the affine map."""
    powers = [1]
    while len(powers) < 255:
        powers.append(powers[-1] ^ doubled(powers[-1]))  # times 03, which generates the field
    box = [0] * 256
    for byte in range(256):
        inverse = powers[-powers.index(byte) % 255] if byte else 0
        turns = (inverse << count | inverse >> 8 - count for count in range(5))
        for one in turns:
            box[byte] ^= one & 0xFF
        box[byte] ^= 0x63
    return bytes(box)


BOX = substitutions()
BOX_BACK = bytes(map(BOX.index, range(256)))
ROWS = itemgetter(*((at + 4 * (at % 4)) % 16 for at in range(16)))  # ShiftRows, section 5.1.2
ROWS_BACK = itemgetter(*((at - 4 * (at % 4)) % 16 for at in range(16)))


def number(contents):
    """A block as a number."""
    return int.from_bytes(contents, "big")


@functools.lru_cache(maxsize=256)
def round_keys(key):
    """KeyExpansion, section 5.2, the four words of a round as one number."""
    words, constant = [key[at:at + 4] for at in range(0, 32, 4)], 1
    for at in range(8, 60):
        word = words[-1]
        if at % 8 == 0:
            word = (word[1:] + word[:1]).translate(BOX)
            word, constant = bytes([word[0] ^ constant]) + word[1:], constant * 2
        elif at % 8 == 4:
            word = word.translate(BOX)
        words.append(bytes(one ^ other for one, other in zip(word, words[-8])))
    return [number(b"".join(words[at:at + 4])) for at in range(0, 60, 4)]


def cipher(keys, state):
    """Cipher, section 5.1."""
    state ^= keys[0]
    for at, key in enumerate(keys[1:], 1):
        state = number(bytes(ROWS(state.to_bytes(16, "big").translate(BOX))))
        state = (mixed(state) if at < 14 else state) ^ key
    return state


def cipher_back(keys, state):
    """InvCipher, section 5.3."""
    state ^= keys[-1]
    for at in range(13, -1, -1):
        state = number(bytes(ROWS_BACK(state.to_bytes(16, "big"))).translate(BOX_BACK)) ^ keys[at]
        state = unmixed(state) if at else state
    return state


def plainly_sealed(key, iv, blocks):
    """CBC encryption, SP 800-38A, section 6.2: each block is enciphered with the sealed one before it added."""
    keys, last, sealed = round_keys(key), number(iv), b""
    for at in range(0, len(blocks), 16):
        last = cipher(keys, number(blocks[at:at + 16]) ^ last)
        sealed += last.to_bytes(16, "big")
    return sealed


def plainly_opened(key, iv, blocks):
    """CBC decryption."""
    keys, last, opened = round_keys(key), number(iv), b""
    for at in range(0, len(blocks), 16):
        block = number(blocks[at:at + 16])
        opened += (cipher_back(keys, block) ^ last).to_bytes(16, "big")
        last = block
    return opened


def cbc_sealed(key, iv, blocks):
    """Whole blocks under a key of 32 bytes, enciphered."""
    if Cipher is None:
        return plainly_sealed(key, iv, blocks)
    sealing = Cipher(algorithms.AES(key), modes.CBC(iv)).encryptor()
    return sealing.update(blocks) + sealing.finalize()


def cbc_opened(key, iv, blocks):
    """Whole blocks, deciphered."""
    if Cipher is None:
        return plainly_opened(key, iv, blocks)
    opening = Cipher(algorithms.AES(key), modes.CBC(iv)).decryptor()
    return opening.update(blocks) + opening.finalize()
