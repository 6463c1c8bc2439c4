"""Cases of checks/devices.py: that each secret is one that the system handed out, and that each repository has the passphrase and the key file of its own."""
import base64
import os
import re
import shutil

import segments
import tracing
from counting import judge
from repositories import ZERO, Item, Keys, ctr, key_of, unpack, unsealed
from running import DELETE, INIT, ITEM, NONCE, TRANSFER, ended, injected, make_archive, make_source, make_target, run, write

MAKE_KEY = ("-", "-", "make-key", "--iterations", "1")
SECRETS = (b"repository_id", b"enc_key", b"enc_hmac_key", b"id_key")


def drawn(root, *words):
    """A run, and the bytes that the system handed out to it, draw by draw."""
    ran = run(root, *words, prefix=injected(root, "-P", "/dev/urandom", "-e", "trace=read", "-xx", "-s", "4096"))
    ended(" ".join(words), ran, 0)
    found = [re.search(r'read\(\d+, "((?:\\x..)*)", \d+\) += \d+', line) for line in tracing.lines_of(os.path.join(root, "calls"))]
    return ran, [bytes.fromhex(one[1].replace("\\x", "")) for one in found if one]


def opened(text):
    """The fields of a sealed key, and those inside it."""
    sealed, inside = unsealed(text, b"passphrase")
    return sealed, unpack(inside)[0]


def settings_of(root):
    with open(os.path.join(root, "target/config"), "rb") as file:
        return file.read()


def secrets_of(sealed, inside):
    """All that is drawn for a key. The seed of the chunker is a number of 32 bits with a sign."""
    return [inside[name] for name in SECRETS] + [inside[b"chunk_seed"].to_bytes(4, "big", signed=True), sealed[b"salt"]]


def salts_of(root, keys):
    """The salts of the authentication tags of all manifests and records that were ever put into the target's segments, in order."""
    salts = []
    for _, path in segments.segments(os.path.join(root, "target")).items():
        with open(path, "rb") as file:
            entries, _ = segments.split(file.read())
        for tag, _, blob, _ in entries or []:
            content = ctr(keys, int.from_bytes(blob[33:41], "big"), blob[41:])[2:] if tag == segments.PUT else b""
            if b"\xa3tam" in content or b"tam\x83" in content:
                value, _ = unpack(content)
                salts.append(value[b"tam"][b"salt"])
    return salts


def are_those(what, got, wanted):
    """Whether all secrets are what was drawn, each draw for one of them, and none is short or has another's bytes."""
    judge(sorted(got) == sorted(wanted), f"{what}: {[one.hex() for one in got]} isn't what was drawn: {[one.hex() for one in wanted]}")
    judge(len(set(wanted)) == len(wanted), f"{what}: two draws are the same")
    judge(all(len(one) >= 32 or len(one) == 4 for one in wanted), f"{what}: draws of {[len(one) for one in wanted]} bytes")


def secrets(root):
    """Each secret of a new key is what the system handed out for it, byte by byte: of a new repository and of a key file."""
    _, draws = drawn(root, *INIT)
    settings = settings_of(root)
    sealed, inside = opened(key_of(settings))
    are_those("init", secrets_of(sealed, inside) + salts_of(root, inside[b"enc_key"]), draws)
    judge(len(draws) == 7, f"init draws {len(draws)} times")
    judge(b"\nid = %s\n" % inside[b"repository_id"].hex().encode() in settings, "init: the id in config isn't that of the key")
    shutil.rmtree(os.path.join(root, "target"))
    ran, draws = drawn(root, *MAKE_KEY)
    head, body = ran.stdout.split(b"\n", 1)
    sealed, inside = opened(base64.b64decode(b"".join(body.split())))
    are_those("make-key", secrets_of(sealed, inside), draws)
    judge(head == b"BORG_KEY " + inside[b"repository_id"].hex().encode(), f"make-key: {head!r} isn't of the id of the key")


def salts(root):
    """The salt of each tag of a manifest or a record is what the system handed out for it."""
    make_source(root)
    _, draws = drawn(root, *INIT)
    enc_key = opened(key_of(settings_of(root)))[1][b"enc_key"]
    for words in (TRANSFER, DELETE):
        before = salts_of(root, enc_key)
        _, draws = drawn(root, *words)
        new = salts_of(root, enc_key)
        judge(new[: len(before)] == before and len(new) > len(before), f"{words[2]} writes no tag")
        are_those(words[2], new[len(before) :], draws)
    shutil.rmtree(os.path.join(root, "target"))
    make_target(root, how={"tam": "none"})
    before = salts_of(root, Keys().enc_key)
    _, draws = drawn(root, "-", "target", "tag-archives")
    new = salts_of(root, Keys().enc_key)
    judge(len(new) == len(before) + 2, f"tag-archives writes {len(new) - len(before)} tags")
    are_those("tag-archives", new[len(before) :], draws)


LONG = "a passphrase of two hundred bytes " * 5 + "which ends in something else: "
BARE = b"[repository]\nversion = 1\nid = %s\n" % (b"00" * 32)


def without_key(root, folder, keys, passphrase):
    """Takes the key out of a repository's settings, and writes it as a key file beside it."""
    write(os.path.join(root, folder, "config"), BARE)
    write(os.path.join(root, folder + ".key"), b"BORG_KEY %s\n" % (b"00" * 32) + base64.b64encode(keys.text(passphrase)))


def sides(root):
    """Source and target have a passphrase and a key file each, of any length, and restore those of the source alone."""
    judge(len(LONG) > 190, "the passphrases aren't long")
    texts = {"source": LONG + "one", "target": LONG + "other"}
    keys = {side: Keys(side.encode()) for side in texts}
    variables = {"BORG_OTHER_PASSPHRASE": texts["source"], "BORG_PASSPHRASE": texts["target"]}
    swapped = {"BORG_OTHER_PASSPHRASE": texts["target"], "BORG_PASSPHRASE": texts["source"]}
    for side in texts:
        make_archive(root, side, [Item(side.encode(), [side.encode() * 9], more=ITEM)], keys[side], texts[side].encode())
        write(os.path.join(root, side, "nonce"), NONCE)
    # Each has another archive of one name, which is told once both are opened.
    taken = b"name taken: a\n"
    plan, folder = ("source", "target", "plan"), os.path.join(root, "folder")
    ended("a plan", run(root, *plan, variables=variables), 10, taken)
    ended("a plan with the passphrases of each other", run(root, *plan, variables=swapped), 8, b"source refused: key 5\n")
    for name, side, other in (("BORG_OTHER_PASSPHRASE", "source", 8), ("BORG_PASSPHRASE", "target", 9)):
        changed = {**variables, name: texts[side][:-1] + "x"}
        ended(f"a plan with another last byte of {name}", run(root, *plan, variables=changed), other, b"%s refused: key 5\n" % side.encode())
    ended("a deletion", run(root, "-", "target", "delete", "b", variables={"BORG_PASSPHRASE": texts["target"]}), 11, b"not found: b\n")
    # Both have one passphrase now, and no key in their settings.
    for side in texts:
        without_key(root, side, keys[side], b"one")
    files = {"BORG_OTHER_KEY_FILE": "source.key", "BORG_KEY_FILE": "target.key"}
    both = {"BORG_OTHER_PASSPHRASE": "one", "BORG_PASSPHRASE": "one", **files}
    other_way = {**both, "BORG_OTHER_KEY_FILE": "target.key", "BORG_KEY_FILE": "source.key"}
    ended("a plan with key files", run(root, *plan, variables=both), 10, taken)
    refused = b"source refused: blob 3 %s\n" % ZERO.hex().encode()
    ended("a plan with the key files of each other", run(root, *plan, variables=other_way), 8, refused)
    ended("a plan with the source's key file for both", run(root, *plan, variables={**both, "BORG_KEY_FILE": "source.key"}), 9, refused.replace(b"source", b"target"))
    ended("a plan with the target's key file for both", run(root, *plan, variables={**both, "BORG_OTHER_KEY_FILE": "target.key"}), 8, refused)
    # What restore is told of a target isn't looked at.
    for others in ({"BORG_PASSPHRASE": "none", "BORG_KEY_FILE": "absent"}, {"BORG_PASSPHRASE": b"\xff", "BORG_KEY_FILE": b"\xff"}):
        ended(f"restore with {others}", run(root, "source", "folder", "restore", "a", variables={**both, **others}), 0)
        with open(os.path.join(folder, "source"), "rb") as file:
            judge(file.read() == b"source" * 9, "restore: another content")
        shutil.rmtree(folder)
    ended("restore with the target's key file", run(root, "source", "folder", "restore", "a", variables=other_way), 8, refused)
    ended("restore with the target's passphrase", run(root, "source", "folder", "restore", "a", variables={**both, "BORG_OTHER_PASSPHRASE": "two"}), 8, b"source refused: key 5\n")
    judge(not os.path.exists(folder), "restore that is refused makes a folder")


CASES = (sides,)
NEED_STRACE = (secrets, salts)
