#!/usr/bin/env bash
# Speeds of `ferry_mac`: hmac256_four beside four calls of hmac256, both in MB/s over all four texts,
# pbkdf2 in iterations a second, and the time of an iteration as a multiple of two compressions of
# `sha2` alone. Beside them `openssl speed`, where it is installed. Times are those of the processor,
# and each is the least of many turns. The program is made, proved and run in a temporary folder.
set -eu
cd "$(dirname "$0")/.."
for tool in rt python3; do
    command -v "$tool" >/dev/null || { echo "SKIPPED: $tool is not installed"; exit 0; }
done

folder=$(mktemp -d)
trap 'rm -rf "$folder"' EXIT
mkdir -p "$folder/crates/mac_bench/src"
cp -r crates/ferry_mac "$folder/crates/"
rm -rf "$folder/crates/ferry_mac/out"
cp HANDLES "$folder/"
printf 'ferry_mac: sha2\nmac_bench: ferry_mac sha2\n' > "$folder/crates.txt"

cat > "$folder/crates/mac_bench/src/main.rt" <<'PROGRAM'
//! Prints, in nanoseconds, the least time of four texts by hmac256_four and by four calls of hmac256,
//! at 64 KiB each, at 100 bytes each, and at 64 KiB beside three of no bytes; of 10,000 iterations of
//! pbkdf2; and of 20,000 compressions of SHA-256.
#![tactic(auto)]

use ferry_mac::{hmac256, hmac256_four, pbkdf2};
use sha2::{Digest, Sha256};
use std::io;
use std::time::CpuClock;

fn four_nanos(rt: &impl CpuClock, texts: [&[u8]; 4], times: u32) -> io::Result<u128> {
    let mut macs = [[0x0bu8; 32]; 4];
    let start = rt.thread_cpu_time()?;
    for _time in 0..times {
        macs = hmac256_four(&macs[0], texts);
    }
    let end = rt.thread_cpu_time()?;
    Ok(end.as_nanos().saturating_sub(start.as_nanos()).max(u128::from(macs[0][0])))
}

fn single_nanos(rt: &impl CpuClock, texts: [&[u8]; 4], times: u32) -> io::Result<u128> {
    let mut mac = [0x0bu8; 32];
    let start = rt.thread_cpu_time()?;
    for _time in 0..times {
        mac = hmac256(&mac, texts[0]);
        mac = hmac256(&mac, texts[1]);
        mac = hmac256(&mac, texts[2]);
        mac = hmac256(&mac, texts[3]);
    }
    let end = rt.thread_cpu_time()?;
    Ok(end.as_nanos().saturating_sub(start.as_nanos()).max(u128::from(mac[0])))
}

fn pbkdf_nanos(rt: &impl CpuClock) -> io::Result<u128> {
    let start = rt.thread_cpu_time()?;
    let derived = pbkdf2(b"a passphrase", b"thirty-two bytes of salt, as Borg", 10_000);
    let end = rt.thread_cpu_time()?;
    Ok(end.as_nanos().saturating_sub(start.as_nanos()).max(u128::from(derived[0])))
}

fn compression_nanos(rt: &impl CpuClock, blocks: &[u8]) -> io::Result<u128> {
    let start = rt.thread_cpu_time()?;
    let digest = Sha256::digest(blocks);
    let end = rt.thread_cpu_time()?;
    Ok(end.as_nanos().saturating_sub(start.as_nanos()).max(u128::from(digest[0])))
}

fn main(rt: HostRuntime) -> io::Result<()> {
    let bytes = vec![in rt.alloc(); 0x5au8; 262_144]?;
    let blocks = vec![in rt.alloc(); 0x5au8; 1_280_000]?;
    let all = bytes.as_slice();
    let large = [
        all.get(..65_536).unwrap_or(&[]),
        all.get(65_536..131_072).unwrap_or(&[]),
        all.get(131_072..196_608).unwrap_or(&[]),
        all.get(196_608..).unwrap_or(&[]),
    ];
    let short = all.get(..100).unwrap_or(&[]);
    let small = [short, short, short, short];
    let lone = [large[0], &[], &[], &[]];
    let mut least = [u128::MAX; 8];
    for _turn in 0..100u8 {
        least[0] = least[0].min(four_nanos(&rt, large, 1)?);
        least[1] = least[1].min(single_nanos(&rt, large, 1)?);
        least[2] = least[2].min(four_nanos(&rt, small, 250)?);
        least[3] = least[3].min(single_nanos(&rt, small, 250)?);
        least[4] = least[4].min(four_nanos(&rt, lone, 1)?);
        least[5] = least[5].min(single_nanos(&rt, lone, 1)?);
        least[6] = least[6].min(pbkdf_nanos(&rt)?);
        least[7] = least[7].min(compression_nanos(&rt, blocks.as_slice())?);
    }
    for time in least {
        println!(rt; "{time}")?;
    }
    Ok(())
}
PROGRAM

cd "$folder/crates/mac_bench"
rt run > "$folder/stdout" 2> "$folder/stderr" || { cat "$folder/stderr"; exit 1; }
python3 - $(cat "$folder/stdout") <<'PRINT'
import sys
four, single, small_four, small_single, lone_four, lone_single, pbkdf, compressions = map(int, sys.argv[1:])
texts = 4 * 65536 * 1000
print(f"four texts of 64 KiB: hmac256_four {texts / four:8.1f} MB/s, hmac256 {texts / single:8.1f} MB/s, {single / four:.2f} times")
print(f"four texts of 100 bytes: hmac256_four {small_four / 250:8.0f} ns, hmac256 {small_single / 250:8.0f} ns, {small_single / small_four:.2f} times")
print(f"64 KiB beside three of no bytes: hmac256_four {lone_four / 1000:8.1f} us, hmac256 {lone_single / 1000:8.1f} us, {lone_single / lone_four:.2f} times")
print(f"pbkdf2           {10_000 / pbkdf * 1e9:8.0f} iterations/s")
print(f"sha2 alone       {1_280_000 * 1000 / compressions:8.1f} MB/s")
print(f"an iteration     {pbkdf / compressions:8.3f} times two compressions by sha2 alone (at most 1.3)")
PRINT

if command -v openssl >/dev/null; then
    openssl speed -seconds 1 -bytes 1048576 -hmac sha256 2>/dev/null | tail -n 1
else
    echo "SKIPPED: openssl is not installed"
fi
