#!/usr/bin/env bash
# Twelve hundred random cases, 200 of each call of `ferry_mac`, compared with Python's `hmac` and
# `hashlib`. The program that computes them is made, proved and run in a temporary folder. An
# argument is the seed; without one it is drawn and printed.
set -eu
cd "$(dirname "$0")/.."
for tool in rt python3; do
    command -v "$tool" >/dev/null || { echo "SKIPPED: $tool is not installed"; exit 0; }
done
python3 -c 'import hashlib, hmac' 2>/dev/null || { echo "SKIPPED: Python has no hashlib or hmac"; exit 0; }

seed=${1:-$(date +%s)}
folder=$(mktemp -d)
trap 'rm -rf "$folder"' EXIT
mkdir -p "$folder/crates/mac_cases/src"
cp -r crates/ferry_mac "$folder/crates/"
rm -rf "$folder/crates/ferry_mac/out"
cp HANDLES "$folder/"
printf 'ferry_mac: sha2\nmac_cases: ferry_mac hex anyhow\n' > "$folder/crates.txt"

cat > "$folder/crates/mac_cases/src/main.rt" <<'PROGRAM'
//! Reads a case a line, as `CALL HEX HEX HEX NUMBER`, with two more texts in hex behind them for
//! `hmac256_four`, and up to 100 for `hmac256_many`, and prints the result of each in hex.
#![tactic(auto)]

use anyhow::{Context, Result, bail};
use ferry_mac::{hkdf512, hmac256, hmac256_four, hmac256_many, hmac512, pbkdf2};
use std::alloc::Global;

fn bytes_of(alloc: Global, word: Option<&str>) -> Result<Vec<u8>> {
    let word = word.context("a word is missing")?;
    match hex::decode(alloc, &word[1..]) {
        Ok(bytes) => Ok(bytes),
        Err(_) => bail!("not hex"),
    }
}

/// The MACs of all texts behind the first three, in hex.
fn many_of(alloc: Global, key: &[u8], line: &str) -> Result<String> {
    let mut bytes = Vec::new(alloc);
    for word in line.split(' ').skip(5) {
        bytes.push(bytes_of(alloc, Some(word))?)?;
    }
    let mut texts: [&[u8]; 128] = [&[]; 128];
    for place in 0..bytes.len().min(128) {
        texts[place] = bytes[place].as_slice();
    }
    let mut macs = [[0u8; 32]; 128];
    let taken = texts.get(..bytes.len()).context("too many texts")?;
    let places = macs.get_mut(..bytes.len()).context("too many texts")?;
    if taken.len() == places.len() {
        hmac256_many(key, taken, places);
    }
    Ok(hex::encode(alloc, places.as_flattened())?)
}

fn result_of(alloc: Global, line: &str) -> Result<String> {
    let mut words = line.split(' ');
    let call = words.next().context("the call is missing")?;
    let first = bytes_of(alloc, words.next())?;
    let second = bytes_of(alloc, words.next())?;
    let third = bytes_of(alloc, words.next())?;
    let number = words.next().context("the number is missing")?;
    let iterations = number.parse::<u32>().context("the number")?;
    let text = match call {
        "hmac256" => hex::encode(alloc, &hmac256(first.as_slice(), second.as_slice()))?,
        "hmac256_four" => {
            let fourth = bytes_of(alloc, words.next())?;
            let fifth = bytes_of(alloc, words.next())?;
            let macs = hmac256_four(
                first.as_slice(),
                [
                    second.as_slice(),
                    third.as_slice(),
                    fourth.as_slice(),
                    fifth.as_slice(),
                ],
            );
            hex::encode(alloc, macs.as_flattened())?
        }
        "hmac256_many" => many_of(alloc, first.as_slice(), line)?,
        "hmac512" => hex::encode(alloc, &hmac512(first.as_slice(), second.as_slice()))?,
        "hkdf512" => {
            let derived = hkdf512(first.as_slice(), second.as_slice(), third.as_slice());
            hex::encode(alloc, &derived)?
        }
        _ => {
            if iterations == 0 {
                bail!("no iteration");
            }
            let derived = pbkdf2(first.as_slice(), second.as_slice(), iterations);
            hex::encode(alloc, &derived)?
        }
    };
    Ok(text)
}

fn main(rt: HostRuntime) -> Result<()> {
    for line in rt.lines(rt.alloc()) {
        let line = line?;
        let text = result_of(rt.alloc(), line.as_str())?;
        println!(rt; "{text}")?;
    }
    Ok(())
}
PROGRAM
sed -i 's/&word\[1..\]/word.strip_prefix("x").context("a word begins with x")?/' "$folder/crates/mac_cases/src/main.rt"

cat > "$folder/cases.py" <<'PYTHON'
import hashlib, hmac, random, sys

def length(block):
    """Short ones, those about a block's length, and long ones."""
    return random.choice([random.randrange(0, 40), block + random.randrange(-2, 3), random.randrange(0, 400)])

def near_a_block():
    """A length about a multiple of 64, where a block or the padding's last block begins."""
    return max(0, 64 * random.randrange(0, 10) + random.randrange(-10, 11))

def uneven():
    """Up to 100 lengths: those at which the padding begins a block, and random ones, some of which are long."""
    lengths = [0, 55, 56, 63, 64, 65, 119, 120]
    count = random.choice([0, 1, 2, 3, 4, 5, 8, 20, 63, 64, 65, 100])
    return [random.choice(lengths + [random.randrange(0, 400), random.randrange(0, 4000)]) for _ in range(count)]

def even():
    """Five to twelve texts of nearly one length, or more of unequal lengths, so that eight lanes take them."""
    count = random.randrange(5, 13)
    length = random.choice([random.randrange(0, 301), random.randrange(0, 301), 65536 + random.randrange(-70, 71)])
    if random.randrange(3) == 0:
        return [random.randrange(0, 301) for _ in range(random.randrange(24, 65))]
    return [max(0, length + random.randrange(-5, 6)) for _ in range(count)]

def wanted(call, first, second, third, number, *more):
    if call == "hmac256_many":
        return "".join(hmac.new(first, text, "sha256").hexdigest() for text in more)
    if call == "hmac256_four":
        return "".join(hmac.new(first, text, "sha256").hexdigest() for text in (second, third, *more))
    if call == "hmac256":
        return hmac.new(first, second, "sha256").hexdigest()
    if call == "hmac512":
        return hmac.new(first, second, "sha512").hexdigest()
    if call == "hkdf512":
        key = hmac.new(second, first, "sha512").digest()
        return hmac.new(key, third + b"\x01", "sha512").hexdigest()
    return hashlib.pbkdf2_hmac("sha256", first, second, number, 32).hex()

seed, cases, results = sys.argv[1:]
random.seed(seed)
with open(cases, "w") as lines, open(results, "w") as answers:
    for turn in range(1200):
        call = ("hmac256", "hmac512", "hkdf512", "pbkdf2", "hmac256_four", "hmac256_many")[turn % 6]
        block = 64 if call in ("hmac256", "hmac256_four", "hmac256_many", "pbkdf2") else 128
        words = [random.randbytes(length(block)) for _ in range(3)]
        number = random.choice([1, 2, 3, random.randrange(1, 1000)])
        more = []
        if call == "hmac256_four":
            words[1:] = [random.randbytes(near_a_block()) for _ in range(2)]
            more = [random.randbytes(near_a_block()) for _ in range(2)]
        if call == "hmac256_many":
            more = [random.randbytes(length) for length in random.choice([uneven, even])()]
        texts = "".join(f" x{text.hex()}" for text in more)
        lines.write(f"{call} x{words[0].hex()} x{words[1].hex()} x{words[2].hex()} {number}{texts}\n")
        answers.write(wanted(call, *words, number, *more) + "\n")
PYTHON
python3 "$folder/cases.py" "$seed" "$folder/cases" "$folder/wanted"

cd "$folder/crates/mac_cases"
rt run < "$folder/cases" > "$folder/given" 2> "$folder/stderr" || { cat "$folder/stderr"; exit 1; }
if cmp -s "$folder/wanted" "$folder/given"; then
    echo "1200 random cases agree (seed $seed)"
else
    echo "random cases differ (seed $seed):"
    diff "$folder/wanted" "$folder/given" | head -n 10
    exit 1
fi
