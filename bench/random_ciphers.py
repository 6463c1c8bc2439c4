"""Random cases for a program of bench/programs/, with the answers of Python's libraries.

usage: python3 random_ciphers.py CRATE PROGRAM SEED

Writes the cases of CRATE as lines to PROGRAM, and compares its lines with the answers.
"""

import random
import subprocess
import sys

from cryptography.hazmat.primitives.ciphers import Cipher, algorithms, modes

CASES = 1000


def counter(source, low):
    """A counter of 128 bits; one whose carry goes past so many bits within the first blocks where they are told."""
    if low is None:
        return source.getrandbits(128)
    high = source.choice([0, source.getrandbits(128)]) % 2 ** (128 - low)
    return (high * 2**low + 2**low - source.randrange(40)) % 2**128


def keystream(source, low, size):
    """A stream of so many bytes."""
    key = source.randbytes(32)
    number = counter(source, low)
    cipher = Cipher(algorithms.AES(key), modes.CTR(number.to_bytes(16, "big")))
    answer = cipher.encryptor().update(bytes(size))
    return f"keystream {key.hex()} {number:032x} {size}", answer.hex()


def streams(source):
    """Every length from 0 to 600, and lengths around 1024, 16384 and 65536 at every remainder of a group, with each carry."""
    sizes = [*range(601), *range(1024 - 16, 1024 + 273), *range(16384 - 64, 16384 + 65), *range(65536 - 8, 65536 + 9)]
    return [keystream(source, low, size) for size in sizes for low in [None, 32, 64, 128]]


def sixteen(source):
    """Sixteen blocks, each for itself."""
    key, texts = source.randbytes(32), source.randbytes(256)
    answer = Cipher(algorithms.AES(key), modes.ECB()).encryptor().update(texts)
    return f"sixteen {key.hex()} {texts.hex()}", answer.hex()


# for each crate, what makes its lines and their answers
KINDS = {
    "ferry_aes": [streams, lambda source: [sixteen(source) for _ in range(CASES)]],
}


def main():
    crate, program, seed = sys.argv[1:]
    source = random.Random(int(seed))
    cases = [case for kind in KINDS[crate] for case in kind(source)]
    lines = "".join(line + "\n" for line, _ in cases)
    told = subprocess.run([program], input=lines, capture_output=True, text=True, check=True)
    answers = told.stdout.split("\n")[:-1]
    wrong = [(line, want, got) for (line, want), got in zip(cases, answers) if want != got]
    for line, want, got in wrong[:5]:
        print(f"{crate}: {line}\n  wanted {want}\n  got    {got}")
    if wrong or len(answers) != len(cases):
        sys.exit(f"{crate}: {len(wrong)} of {len(cases)} cases differ, {len(answers)} answers, seed {seed}")
    print(f"{crate}: {len(cases)} random cases agree, seed {seed}")


if __name__ == "__main__":
    main()
