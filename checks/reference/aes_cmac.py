"""AES-128, CMAC, the stream and the drawing.

`aes128_plain` is AES written out from its definition.  Where the Python
package `cryptography` is there, `aes128_encrypt` uses it because it is
faster; the tests show that both give the same.
"""

from functools import lru_cache

try:
    from cryptography.hazmat.primitives.ciphers import Cipher, algorithms, modes
except ImportError:  # the plain form below then does all the work
    Cipher = None

ZERO_BLOCK = bytes(16)
MOST_SKIPPED = 128


class Spent(Exception):
    """More than 128 values were skipped in one drawing."""


# --- AES-128 from its definition -------------------------------------------

def _times(a, b):
    """The product of two bytes modulo x^8 + x^4 + x^3 + x + 1."""
    product = 0
    for i in range(8):
        if b >> i & 1:
            product ^= a << i
    for i in range(14, 7, -1):
        if product >> i & 1:
            product ^= 0x11B << (i - 8)
    return product


def _inverse(a):
    """The inverse of a byte, 0 to 0: a to the power 254."""
    result = 1
    for _ in range(254):
        result = _times(result, a)
    return result


def _sub_byte(byte):
    a = _inverse(byte)
    b = 0
    for i in range(8):
        bit = 0x63 >> i
        for step in (0, 4, 5, 6, 7):
            bit ^= a >> (i + step) % 8
        b |= (bit & 1) << i
    return b


@lru_cache(maxsize=None)
def _sbox():
    return bytes(_sub_byte(byte) for byte in range(256))


RCON = (0x01, 0x02, 0x04, 0x08, 0x10, 0x20, 0x40, 0x80, 0x1B, 0x36)
MIX_ROW = (2, 3, 1, 1)


@lru_cache(maxsize=256)
def _round_keys(key):
    """The eleven round keys of 16 bytes each."""
    box = _sbox()
    words = [key[4 * i:4 * i + 4] for i in range(4)]
    for i in range(4, 44):
        word = words[i - 1]
        if i % 4 == 0:
            word = word[1:] + word[:1]
            word = bytes(box[byte] for byte in word)
            word = bytes([word[0] ^ RCON[i // 4 - 1]]) + word[1:]
        words.append(xor(words[i - 4], word))
    return [b"".join(words[4 * r:4 * r + 4]) for r in range(11)]


def xor(a, b):
    """Two byte strings of one length, joined by exclusive or."""
    return bytes(x ^ y for x, y in zip(a, b, strict=True))


def aes128_plain(key, block):
    """AES-128 of one block; byte r + 4c stands in row r, column c."""
    box = _sbox()
    keys = _round_keys(bytes(key))
    state = xor(block, keys[0])
    for number in range(1, 11):
        state = [box[byte] for byte in state]
        state = [state[r + 4 * ((c + r) % 4)] for c in range(4) for r in range(4)]
        if number < 10:
            mixed = []
            for c in range(4):
                column = state[4 * c:4 * c + 4]
                for r in range(4):
                    value = 0
                    for i in range(4):
                        value ^= _times(column[i], MIX_ROW[(i - r) % 4])
                    mixed.append(value)
            state = mixed
        state = xor(state, keys[number])
    return bytes(state)


# --- AES-128 as used --------------------------------------------------------

@lru_cache(maxsize=256)
def _blocks_under(key):
    """A function that encrypts each 16 bytes of its argument by itself."""
    if Cipher is not None:
        return Cipher(algorithms.AES(key), modes.ECB()).encryptor().update
    return lambda data: b"".join(
        aes128_plain(key, data[i:i + 16]) for i in range(0, len(data), 16))


def aes128_encrypt(key, block):
    """AES-128 of one block of 16 bytes."""
    assert len(key) == 16 and len(block) == 16
    return _blocks_under(bytes(key))(bytes(block))


# --- CMAC -------------------------------------------------------------------

def _doubled(block):
    number = int.from_bytes(block, "big")
    shifted = (number << 1) & (1 << 128) - 1
    if number >> 127:
        shifted ^= 0x87
    return shifted.to_bytes(16, "big")


def cmac_subkeys(key):
    """K1 and K2."""
    k1 = _doubled(aes128_encrypt(key, ZERO_BLOCK))
    return k1, _doubled(k1)


def cmac(key, text):
    """The tag of 16 bytes."""
    key, text = bytes(key), bytes(text)
    k1, k2 = cmac_subkeys(key)
    cut = (len(text) - 1) // 16 * 16 if text else 0
    blocks = [text[i:i + 16] for i in range(0, cut, 16)]
    last = text[cut:]
    if len(last) == 16:
        blocks.append(xor(last, k1))
    else:
        blocks.append(xor((last + b"\x80").ljust(16, b"\x00"), k2))
    chain = 0
    for block in blocks:
        joined = chain ^ int.from_bytes(block, "big")
        chain = int.from_bytes(aes128_encrypt(key, joined.to_bytes(16, "big")), "big")
    return chain.to_bytes(16, "big")


# --- Stream and drawing -----------------------------------------------------

class Prg:
    """The stream under the key CMAC(seed, info)."""

    def __init__(self, seed, info):
        self._encrypt = _blocks_under(cmac(seed, info))
        self._number = 0
        self._left = b""

    def next_bytes(self, n):
        """The next n bytes of the stream."""
        missing = n - len(self._left)
        if missing > 0:
            count = (missing + 15) // 16
            numbers = range(self._number, self._number + count)
            self._left += self._encrypt(b"".join(i.to_bytes(16, "big") for i in numbers))
            self._number += count
        taken, self._left = self._left[:n], self._left[n:]
        return taken

    def draw(self, field, n):
        """The next n elements of the field, as a list of numbers."""
        elements, skipped = [], 0
        while len(elements) < n:
            value = int.from_bytes(self.next_bytes(field.size), "little")
            if value < field.p:
                elements.append(value)
            else:
                skipped += 1
                if skipped > MOST_SKIPPED:
                    raise Spent
        return elements
