"""Whole repositories, made the plain way: keys, blobs and manifests.

Source: FIPS 197 (AES-256), RFC 2104, 5869 and 8018, and BorgBackup 1.2, Internals, "Data structures and file formats". It
shares nothing with the program. Texts of 4096 bytes and more are encrypted by libcrypto, where it is there.
"""
import base64
import hashlib
import hmac
import re
import struct

import libcrypto
import segments

ZERO = b"\0" * 32
LONG = 4096


def doubled(byte):
    return byte << 1 ^ (0x11B if byte & 0x80 else 0)


def times(left, right):
    product = 0
    for _ in range(8):
        product ^= left if right & 1 else 0
        left, right = doubled(left), right >> 1
    return product


def substitutes():
    """The S-box: the inverse in GF(2^8), and then an affine map."""
    box = []
    for byte in range(256):
        inverse = next((other for other in range(256) if times(byte, other) == 1), 0)
        bits = 0x63
        for turn in range(5):
            bits ^= (inverse << turn | inverse >> (8 - turn)) & 0xFF
        box.append(bits)
    return box


SBOX = substitutes()
TWICE = [doubled(byte) for byte in range(256)]


def schedule(key):
    words, constant = [list(key[i : i + 4]) for i in range(0, 32, 4)], 1
    for i in range(8, 60):
        word = list(words[i - 1])
        if i % 8 == 0:
            word = [SBOX[byte] for byte in word[1:] + word[:1]]
            word[0] ^= constant
            constant = doubled(constant)
        elif i % 8 == 4:
            word = [SBOX[byte] for byte in word]
        words.append([old ^ new for old, new in zip(words[i - 8], word)])
    return [sum(words[i : i + 4], []) for i in range(0, 60, 4)]


def block(rounds, text):
    state = [byte ^ key for byte, key in zip(text, rounds[0])]
    for number, keys in enumerate(rounds[1:], 1):
        state = [SBOX[state[(i + 4 * (i % 4)) % 16]] for i in range(16)]
        if number < 14:
            for i in range(0, 16, 4):
                a, b, c, d = state[i : i + 4]
                state[i : i + 4] = [
                    TWICE[a] ^ TWICE[b] ^ b ^ c ^ d, a ^ TWICE[b] ^ TWICE[c] ^ c ^ d,
                    a ^ b ^ TWICE[c] ^ TWICE[d] ^ d, TWICE[a] ^ a ^ b ^ c ^ TWICE[d],
                ]
        state = [byte ^ key for byte, key in zip(state, keys)]
    return bytes(state)


def ctr(key, counter, text):
    if len(text) >= LONG and libcrypto.NAME is not None:
        return libcrypto.ctr(key, counter, text)
    rounds, stream = schedule(key), b""
    for number in range(-(-len(text) // 16)):
        stream += block(rounds, ((counter + number) % 2**128).to_bytes(16, "big"))
    return bytes(left ^ right for left, right in zip(text, stream))


def mac(key, text, digest=hashlib.sha256):
    return hmac.new(key, text, digest).digest()


def pack(value):
    """A value as msgpack: None, booleans, numbers, bytes, lists, and dictionaries in the order of their keys."""
    if value is None:
        return b"\xc0"
    if isinstance(value, bool):
        return b"\xc3" if value else b"\xc2"
    if isinstance(value, int):
        return struct.pack(">BQ", 0xCF, value) if value >= 0 else struct.pack(">Bq", 0xD3, value)
    if isinstance(value, bytes):
        return struct.pack(">BI", 0xDB, len(value)) + value
    if isinstance(value, list):
        return struct.pack(">BI", 0xDD, len(value)) + b"".join(map(pack, value))
    return struct.pack(">BI", 0xDF, len(value)) + b"".join(pack(key) + pack(value[key]) for key in sorted(value))


def unpack(text, at=0):
    """The value of msgpack at a place, byte strings for all texts, and the place behind it."""
    head, at = text[at], at + 1
    if head < 0x80 or head >= 0xE0:
        return (head if head < 0x80 else head - 256), at
    if head in (0xC0, 0xC2, 0xC3):
        return {0xC0: None, 0xC2: False, 0xC3: True}[head], at
    if 0xCC <= head <= 0xD3:
        width = 1 << (head - 0xCC) % 4
        return int.from_bytes(text[at : at + width], "big", signed=head >= 0xD0), at + width
    if head < 0xC0:
        return unpack_many(text, at, "map" if head < 0x90 else "array" if head < 0xA0 else "raw", head & (0x1F if head >= 0xA0 else 0x0F))
    kind, width = {
        0xC4: ("raw", 1), 0xC5: ("raw", 2), 0xC6: ("raw", 4), 0xD9: ("raw", 1), 0xDA: ("raw", 2), 0xDB: ("raw", 4),
        0xDC: ("array", 2), 0xDD: ("array", 4), 0xDE: ("map", 2), 0xDF: ("map", 4),
    }[head]
    return unpack_many(text, at + width, kind, int.from_bytes(text[at : at + width], "big"))


def unpack_many(text, at, kind, count):
    """So many bytes, or entries of an array or a map, at a place, and the place behind them."""
    if kind == "raw":
        return text[at : at + count], at + count
    values = []
    for _ in range(count * (1 + (kind == "map"))):
        value, at = unpack(text, at)
        values.append(value)
    return (values if kind == "array" else dict(zip(values[::2], values[1::2]))), at


class Keys:
    """The secrets of a repository: all different, made of a seed."""

    def __init__(self, seed=b"keys"):
        self.enc_key, self.enc_hmac_key, self.id_key = (hashlib.sha256(seed + name).digest() for name in (b"1", b"2", b"3"))
        # The id of the repository, zeros where no seed is given.
        self.repository = bytes(32) if seed == b"keys" else hashlib.sha256(seed + b"4").digest()
        self.nonce = 0

    def text(self, passphrase, iterations=1):
        """The key text that opens with this passphrase."""
        inside = pack({
            b"version": 1, b"repository_id": self.repository, b"enc_key": self.enc_key, b"enc_hmac_key": self.enc_hmac_key,
            b"id_key": self.id_key, b"chunk_seed": -7, b"tam_required": True,
        })
        salt = bytes(range(32))
        kek = hashlib.pbkdf2_hmac("sha256", passphrase, salt, iterations)
        return pack({
            b"version": 1, b"algorithm": b"sha256", b"iterations": iterations, b"salt": salt,
            b"hash": mac(kek, inside), b"data": ctr(kek, 0, inside),
        })

    def id(self, content):
        return mac(self.id_key, content)

    def blob(self, content, header=b"\0\0", kind=3):
        """A content's blob under the next nonce."""
        sealed = struct.pack(">Q", self.nonce) + ctr(self.enc_key, self.nonce, header + content)
        self.nonce += -(-(2 + len(content)) // 16)
        return bytes([kind]) + mac(self.enc_hmac_key, sealed) + sealed

    def tagged(self, fields, info=b"borg-metadata-authentication-manifest", salt=b"\x55" * 64):
        """The packed fields with their authentication tag."""
        key = mac(salt, self.id_key + self.enc_key + self.enc_hmac_key, hashlib.sha512)
        key = mac(key, info + b"\x01", hashlib.sha512)
        tam = {b"type": b"HKDF_HMAC_SHA512", b"salt": salt}
        zeroed = pack({**fields, b"tam": {**tam, b"hmac": bytes(64)}})
        return pack({**fields, b"tam": {**tam, b"hmac": mac(key, zeroed, hashlib.sha512)}})


def unsealed(text, passphrase):
    """The fields of a sealed key, and the text inside it, which this passphrase opens."""
    sealed, _ = unpack(text)
    kek = hashlib.pbkdf2_hmac("sha256", passphrase, sealed[b"salt"], sealed[b"iterations"])
    inside = ctr(kek, 0, sealed[b"data"])
    if mac(kek, inside) != sealed[b"hash"]:
        raise ValueError("the passphrase doesn't open the key")
    return sealed, inside


def resealed(text, passphrase, iterations):
    """A sealed key with so many iterations in the place of those that it has."""
    sealed, inside = unsealed(text, passphrase)
    kek = hashlib.pbkdf2_hmac("sha256", passphrase, sealed[b"salt"], iterations)
    return pack({**sealed, b"iterations": iterations, b"hash": mac(kek, inside), b"data": ctr(kek, 0, inside)})


def key_of(settings):
    """The sealed key in the text of `config`: the value of `key`, whose further lines begin with a blank."""
    return base64.b64decode(b"".join(re.search(rb"(?m)^key *=(.*\n(?:[ \t]+.*\n?)*)", settings)[1].split()))


def fields(archives=(), **others):
    """The fields of a manifest: archives are names, ids and times."""
    listed = {name: {b"id": id, b"time": time} for name, id, time in archives}
    return {b"version": 1, b"archives": listed, b"timestamp": b"2020-01-01T00:00:00.000000", b"config": {}, b"item_keys": [b"path"], **others}


class Item:
    """An item of an archive: its path, its contents in chunks where it has content, what it links to where it does, and further fields."""

    def __init__(self, path, contents=None, source=None, size=None, ids=None, more=None):
        self.path, self.contents, self.source, self.size, self.ids, self.more = path, contents, source, size, ids, more or {}

    def spelled(self, keys):
        others = dict(self.more) if self.source is None else {**self.more, b"source": self.source}
        if self.contents is not None:
            ids = self.ids or [keys.id(content) for content in self.contents]
            others[b"chunks"] = [[id, self.stated(content), 43 + len(content)] for id, content in zip(ids, self.contents)]
        return pack({b"path": self.path, b"mode": 33188, **others})

    def stated(self, content):
        return len(content) if self.size is None else self.size

    def line(self):
        if self.contents is not None:
            return b"f %d %s\n" % (sum(map(self.stated, self.contents)), escaped(self.path))
        return b"%s 0 %s\n" % (b"-" if self.source is None else b"l", escaped(self.path))


class Archive:
    """An archive: its record, the pieces of its item stream, which have so many bytes each, and its contents.

    `behind` follows the items in the stream. `how` changes the record's fields by name, its tag (`tam`, none at all where that is
    the text `none`), the info of its tag (`info`), or what was packed in the end (`packed`).
    """

    def __init__(self, keys, name, items, length=2**20, behind=b"", how=None):
        self.keys, self.items = keys, items
        stream = b"".join(item.spelled(keys) for item in items) + behind
        pieces = [stream[at : at + length] for at in range(0, len(stream), length)]
        self.pieces = [(keys.id(piece), piece) for piece in pieces]
        self.record = self.packed(name, how or {})
        self.id = keys.id(self.record)

    def packed(self, name, how):
        others = {key: value for key, value in how.items() if isinstance(key, bytes)}
        all_of_it = {b"version": 1, b"name": name, b"comment": b"plain", b"items": [id for id, _ in self.pieces], **others}
        if how.get("tam", "") == "none":
            return pack(all_of_it)
        if "tam" in how:
            return pack({**all_of_it, b"tam": how["tam"]})
        return how.get("packed", bytes)(self.keys.tagged(all_of_it, how.get("info", b"borg-metadata-authentication-archive")))

    def named(self, name):
        return [(name, self.id, b"2020-01-01T00:00:00.000000")]

    def chunks(self, without=None, compressed=None, other=None):
        """The pairs of id and blob, each id once: without one, with one in a compressed content's form, or with one of other bytes."""
        contents = dict([(self.id, self.record), *self.pieces])
        contents.update((self.keys.id(content), content) for item in self.items for content in dict.fromkeys(item.contents or []))
        header = lambda id: b"\1\0" if id == compressed else b"\0\0"
        return [(id, self.keys.blob(b"other" if id == other else content, header(id))) for id, content in contents.items() if id != without]

    def lines(self):
        """What `list NAME` has to print."""
        return b"".join(item.line() for item in self.items)

    def content(self, path):
        """What `extract` has to write."""
        return next(b"".join(item.contents) for item in self.items if item.path == path and item.contents is not None)


def config(key_text, id=bytes(32)):
    return b"[repository]\nversion = 1\nid = %s\nkey = %s\n" % (id.hex().encode(), base64.b64encode(key_text))


def repository(keys, passphrase, manifest_blob, *chunks):
    """The files of a repository with this blob under the zero id, None for none, and chunks as pairs of id and blob."""
    entries = [segments.put(id, blob) for id, blob in chunks]
    if manifest_blob is not None:
        entries.append(segments.put(ZERO, manifest_blob))
    return {"config": config(keys.text(passphrase), keys.repository), "data/0/0": segments.segment(*entries), "data/0/1": segments.COMMIT_SEGMENT}


def escaped(text):
    return b"".join(b"\\x%02x" % byte if byte < 32 or byte in (92, 127) else bytes([byte]) for byte in text)


def listing(archives):
    """What `list` has to print of these archives."""
    return b"".join(b"%s %s %s\n" % (id.hex().encode(), escaped(time), escaped(name)) for name, id, time in sorted(archives))
