"""Reads segments of a data folder as crates/records/specs and crates/batches/specs describe them. Nothing here asks the program."""

import functools

MAGIC, HEAD, FRAME = b"mdropd\0", 16, 20
LARGEST_PAYLOAD = 2**30 + 4096
ALL = 2**64 - 1


def rotated(number, bits):
    return ((number << bits) | (number >> (64 - bits))) & ALL


def rounded(a, b, c, d):
    """A round of SipHash."""
    a = (a + b) & ALL
    b = rotated(b, 13) ^ a
    a = rotated(a, 32)
    c = (c + d) & ALL
    d = rotated(d, 16) ^ c
    a = (a + d) & ALL
    d = rotated(d, 21) ^ a
    c = (c + b) & ALL
    b = rotated(b, 17) ^ c
    return a, b, rotated(c, 32), d


def sip(text):
    """SipHash-1-3 with the key 0, which is Rust's `DefaultHasher`."""
    a, b, c, d = 0x736F6D6570736575, 0x646F72616E646F6D, 0x6C7967656E657261, 0x7465646279746573
    last = len(text) - len(text) % 8
    words = [int.from_bytes(text[at : at + 8], "little") for at in range(0, last, 8)]
    words.append((len(text) & 255) << 56 | int.from_bytes(text[last:], "little"))
    for word in words:
        a, b, c, d = rounded(a, b, c, d ^ word)
        a ^= word
    c ^= 255
    for _ in range(3):
        a, b, c, d = rounded(a, b, c, d)
    return a ^ b ^ c ^ d


@functools.lru_cache(maxsize=200_000)
def sum_of(salt, at, text):
    """The sum of bytes of a record that stands at this place."""
    return sip(salt.to_bytes(8, "little") + at.to_bytes(8, "little") + text).to_bytes(8, "big")


def spell(salt, at, payload):
    """A record."""
    size = len(payload).to_bytes(4, "big")
    return size + sum_of(salt, at, size) + payload + sum_of(salt, at, payload)


def payload_at(salt, at, text):
    """The payload of the record at this place of a file, or None if none is whole there."""
    size = text[at : at + 4]
    if len(size) < 4 or int.from_bytes(size, "big") > LARGEST_PAYLOAD or text[at + 4 : at + 12] != sum_of(salt, at, size):
        return None
    end = at + 12 + int.from_bytes(size, "big")
    payload = text[at + 12 : end]
    is_whole = len(text) >= end + 8 and text[end : end + 8] == sum_of(salt, at, payload)
    return payload if is_whole else None


class Segment:
    """What is read from a segment: its version, which is 0 if its head is none, its salt, where each record stands with its
    payload, and where the last whole one ends."""

    def __init__(self, text):
        self.text, self.records, self.end = text, [], 0
        is_head = len(text) >= HEAD and text[:7] == MAGIC and text[7] in (1, 2)
        self.version = text[7] if is_head else 0
        self.salt = int.from_bytes(text[8:HEAD], "big")
        if is_head:
            self.end = HEAD
            while (payload := payload_at(self.salt, self.end, text)) is not None:
                self.records.append((self.end, payload))
                self.end += FRAME + len(payload)

    def is_whole(self):
        return bool(self.version) and self.end == len(self.text)

    def resumes(self):
        """The place of the first whole record behind a bad one, if there is one."""
        for at in range(self.end + 1, len(self.text) - FRAME + 1):
            if payload_at(self.salt, at, self.text) is not None:
                return at
        return None


def test():
    """The example of crates/records/specs/Examples.antt, whose sums the prover has computed."""
    first = [0, 0, 0, 3, 89, 241, 254, 208, 195, 47, 222, 131, 111, 110, 101, 142, 184, 235, 57, 187, 67, 254, 47]
    assert spell(7, HEAD, b"one") == bytes(first)


test()
