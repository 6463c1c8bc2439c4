#!/usr/bin/env python3
"""Prints the packed manifests and archive records of ferry_manifest's tests, their tags made.

It shares nothing with borgferry: HMAC and HKDF are those of Python's hashlib and hmac, and the packer below is
written from the msgpack specification, "Formats".
"""
import hashlib
import hmac

KEYS = {'enc_key': b'e' * 32, 'enc_hmac_key': b'm' * 32, 'id_key': b'i' * 32}
SALT = b's' * 64
MANIFEST, ARCHIVE = b'borg-metadata-authentication-manifest', b'borg-metadata-authentication-archive'


class Odd(bytes):
    """Packed bytes that are taken as they are."""


def pack(value):
    if isinstance(value, Odd):
        return bytes(value)
    if isinstance(value, bool):
        return b'\xc3' if value else b'\xc2'
    if isinstance(value, int):
        assert 0 <= value < 128
        return bytes([value])
    if isinstance(value, bytes):
        head = bytes([0xa0 + len(value)]) if len(value) < 32 else b'\xda' + len(value).to_bytes(2, 'big')
        return head + value
    if isinstance(value, list):
        assert len(value) < 16
        return bytes([0x90 + len(value)]) + b''.join(pack(item) for item in value)
    if isinstance(value, dict):
        assert len(value) < 16
        return bytes([0x80 + len(value)]) + b''.join(pack(key) + pack(item) for key, item in value.items())
    raise TypeError(value)


def wide(width, value):
    """A map with a longer head."""
    first = {2: b'\xde', 4: b'\xdf'}[width]
    return Odd(first + len(value).to_bytes(width, 'big') + pack(value)[1:])


def tag(blank, info):
    ikm = KEYS['id_key'] + KEYS['enc_key'] + KEYS['enc_hmac_key']
    pseudorandom_key = hmac.new(SALT, ikm, hashlib.sha512).digest()
    key = hmac.new(pseudorandom_key, info + b'\x01', hashlib.sha512).digest()
    return hmac.new(key, blank, hashlib.sha512).digest()


def tam(value):
    return {b'hmac': value, b'salt': SALT, b'type': b'HKDF_HMAC_SHA512'}


def tagged(said, info, around=pack, inside=lambda pairs: pairs):
    """The packed fields with their tag: packed twice, at first with zeros for the tag."""
    blank = around({**said, b'tam': inside(tam(bytes(64)))})
    return around({**said, b'tam': inside(tam(tag(blank, info)))})


def archive(letter):
    return {b'id': letter * 32, b'time': b'noon'}


def ordered(said):
    return {name: said[name] for name in sorted(said)}


def literal(data):
    text = ''
    for byte in data:
        letter = chr(byte)
        text += letter if 32 <= byte < 127 and letter not in '"\\' else '\\x%02x' % byte
    return 'b"' + text + '"'


# heads of 3 and 5 bytes, and `hmac` in front of `tam` too
UNORDERED = {
    b'version': 1, b'hmac': bytes(64), b'item_keys': [b'size', b'path', b'size', b'mode'], b'config': {b'c': 1},
    b'archives': {b'two': archive(b'y'), b'one': archive(b'x')}, b'after': True,
}
# no `chunker_params`
UNTAGGED = {
    b'version': 1, b'name': b'first', b'items': [b'1' * 32, b'2' * 32], b'cmdline': [b'borg', b'create'],
    b'time': b'2020-01-01T00:00:00.000000', b'comment': b'',
}

if __name__ == '__main__':
    for name, data in (
        ('UNORDERED', tagged(UNORDERED, MANIFEST, lambda said: wide(2, said), lambda pairs: wide(4, pairs))),
        ('UNTAGGED', pack(UNTAGGED)),
        ('UNTAGGED_WRITTEN', pack(ordered({**UNTAGGED, b'tam': tam(tag(pack(ordered({**UNTAGGED, b'tam': tam(bytes(64))})), ARCHIVE))}))),
    ):
        print(f'\nstatic {name}: &[u8] =\n    {literal(data)};')
