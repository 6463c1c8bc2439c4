#!/usr/bin/env bash
# A thousand random texts, of which about a third are right, read by `ferry_config` and by a reading of
# the same grammar in Python, which shares nothing with it. The program is made, proved and run in a
# temporary folder. An argument is the seed; without one it is drawn and printed.
set -eu
cd "$(dirname "$0")/.."
for tool in rt python3; do
    command -v "$tool" >/dev/null || { echo "SKIPPED: $tool is not installed"; exit 0; }
done

seed=${1:-$(date +%s)}
folder=$(mktemp -d)
trap 'rm -rf "$folder"' EXIT
mkdir -p "$folder/crates/config_cases/src"
cp -r crates/ferry_base crates/ferry_config "$folder/crates/"
rm -rf "$folder/crates/ferry_base/out" "$folder/crates/ferry_config/out"
cp HANDLES "$folder/"
printf 'ferry_base:\nferry_config: ferry_base hex base64 thiserror\nconfig_cases: ferry_config hex anyhow\n' > "$folder/crates.txt"

cat > "$folder/crates/config_cases/src/main.rt" <<'PROGRAM'
//! Reads configs in hex, one a line, and prints what each says, or the number of its fault.
#![tactic(auto)]

use anyhow::{Context, Result, bail};
use ferry_config::read_config;
use std::alloc::Global;

fn answer(alloc: Global, line: &str) -> Result<String> {
    let Ok(bytes) = hex::decode(alloc, line) else {
        bail!("not hex");
    };
    match read_config(alloc, bytes.as_slice()) {
        Ok(config) => {
            let id = hex::encode(alloc, &config.id)?;
            let key = hex::encode(alloc, config.key.as_slice())?;
            let text = format!(in alloc; "{id} {key} {} {}", config.per_dir, config.limit)?;
            Ok(text)
        }
        Err(fault) => {
            let text = format!(in alloc; "config {}", fault.number())?;
            Ok(text)
        }
    }
}

fn main(rt: HostRuntime) -> Result<()> {
    for line in rt.lines(rt.alloc()) {
        let line = line?;
        let text = answer(rt.alloc(), line.as_str()).context("a case")?;
        println!(rt; "{text}")?;
    }
    Ok(())
}
PROGRAM

cat > "$folder/cases.py" <<'PYTHON'
import base64, random, re, sys

SPACES = b" \t"
KNOWN = [b"version", b"id", b"key", b"segments_per_dir", b"max_segment_size"]

def lines_of(text):
    *parts, last = text.split(b"\n")
    return [p[:-1] if p.endswith(b"\r") else p for p in parts] + ([last] if last else [])

def values_of(text):
    """The names and values of the section, or None where the fault is Section."""
    section, sections, values, current = None, 0, [], None
    for line in lines_of(text):
        if not line.strip(SPACES) or line[:1] in (b"#", b";"):
            continue
        header = re.fullmatch(rb"\[([^\]]*)\]", line, re.S)
        if header:
            section, current = header.group(1), None
            sections += section == b"repository"
        elif section != b"repository":
            continue
        elif line[:1] in (b" ", b"\t"):
            if current is None:
                return None
            current[1] += line.strip(SPACES)
        elif b"=" in line:
            name, value = line.split(b"=", 1)
            current = [name.strip(SPACES), value.strip(SPACES)]
            values.append(current)
        else:
            return None
    return values if sections == 1 else None

def wanted(text):
    values = values_of(text)
    if values is None:
        return "config 1"
    names = [name for name, _ in values]
    if any(names.count(name) > 1 for name in KNOWN):
        return "config 6"
    value = dict(map(tuple, values))
    if value.get(b"version") != b"1":
        return "config 2"
    if not re.fullmatch(rb"[0-9a-fA-F]{64}", value.get(b"id", b"")):
        return "config 3"
    key = value.get(b"key", b"")
    groups = rb"(?:[A-Za-z0-9+/]{4})*(?:[A-Za-z0-9+/]{2}==|[A-Za-z0-9+/]{3}=)?"
    if not key or not re.fullmatch(groups, key) or base64.b64encode(base64.b64decode(key)) != key:
        return "config 4"
    numbers = []
    for name, default in ((b"segments_per_dir", b"1000"), (b"max_segment_size", b"524288000")):
        number = value.get(name, default)
        if not re.fullmatch(rb"[1-9][0-9]*", number) or int(number) > 4294967295:
            return "config 5"
        numbers.append(int(number))
    return f"{value[b'id'].decode().lower()} {base64.b64decode(key).hex()} {numbers[0]} {numbers[1]}"

def chance(part):
    return random.random() < part

def pick(*choices):
    return random.choice(choices)

def number():
    return pick(b"1", b"1000", b"4294967295", b"4294967296", b"0", b"007", b"12a", b"", b"+5", b"9" * 23)

def assignments():
    digits = bytes(random.choice(b"0123456789abcdefABCDEF") for _ in range(64))
    if chance(0.08):
        digits = digits[:random.randrange(60, 64)] + pick(b"", b"g", b"00")
    key = base64.b64encode(random.randbytes(random.randrange(0, 60)))
    if chance(0.05):
        key = pick(b"***", key[:-1], key + b"=", b"QQ=", b"QR==")
    all = [(b"version", pick(*[b"1"] * 12, b"2", b"01", b"")), (b"id", digits), (b"key", key)]
    if chance(0.4):
        all.append((b"segments_per_dir", number() if chance(0.5) else b"3"))
    if chance(0.4):
        all.append((b"max_segment_size", number() if chance(0.5) else b"200000"))
    if chance(0.3):
        all.append((pick(b"append_only", b"", b"[a]", b"Version", b"\xff"), pick(b"0", b"a = b", b"")))
    if chance(0.08):
        all.append(random.choice(all))
    if chance(0.08):
        all.remove(random.choice(all))
    random.shuffle(all)
    return all

def body():
    for name, value in assignments():
        front = name + pick(b"=", b" = ", b"\t=  ", b"= ")
        cuts = sorted(random.randrange(len(value) + 1) for _ in range(random.randrange(4))) if chance(0.3) else []
        pieces = [value[a:b] for a, b in zip([0] + cuts, cuts + [len(value)])]
        yield front + pieces[0] + pick(b"", b" ")
        for piece in pieces[1:]:
            if chance(0.2):
                yield pick(b"", b"# c", b" \t", b";")
            yield pick(b"\t", b" ", b"  \t") + piece + pick(b"", b"\t")
        if chance(0.1):
            yield pick(b"", b"# x = y", b";[repository]", b"  ")
        if chance(0.015):
            yield pick(b"junk", b"[a] b", b"[a]]", b"\xfe")

def text():
    lines = [b"[repository]", *body()]
    if chance(0.15):
        lines.insert(0, pick(b"junk", b"a = b", b"[other]", b" x", b""))
    if chance(0.04):
        lines[0] = pick(b"[repository ]", b"[repositor]", b"[repository] ", b"[]")
    if chance(0.03):
        lines.insert(1, b" lost")
    if chance(0.15):
        lines += [pick(b"[other]", b"[]", b"[x=y]"), pick(b"junk", b"id = 1", b"version = 2", b" a")]
    if chance(0.04):
        lines.append(b"[repository]")
    end = pick(b"\n", b"\n", b"\r\n")
    joined = b"".join(line + (pick(b"\n", b"\r\n") if chance(0.05) else end) for line in lines)
    if chance(0.2):
        joined = joined[:-1]
    if chance(0.1):
        place = random.randrange(len(joined))
        joined = joined[:place] + bytes([random.choice(b" \t\n\r=[]#;\x00\xffa1")]) + joined[place + pick(0, 1):]
    return joined

seed, cases, results = sys.argv[1:]
random.seed(seed)
texts = [b""] + [text() for _ in range(999)]
with open(cases, "w") as lines, open(results, "w") as answers:
    for one in texts:
        lines.write(one.hex() + "\n")
        answers.write(wanted(one) + "\n")
PYTHON
python3 "$folder/cases.py" "$seed" "$folder/cases" "$folder/wanted"

cd "$folder/crates/config_cases"
rt run < "$folder/cases" > "$folder/given" 2> "$folder/stderr" || { cat "$folder/stderr"; exit 1; }
if cmp -s "$folder/wanted" "$folder/given"; then
    right=$(grep -vc '^config' "$folder/given" || true)
    echo "1000 random texts agree, $right of them right (seed $seed)"
else
    echo "random texts differ (seed $seed):"
    diff "$folder/wanted" "$folder/given" | head -n 10
    exit 1
fi
