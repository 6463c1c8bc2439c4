#!/usr/bin/env bash
# Speeds of `hmac256_many` over texts of equal and of unequal lengths, beside calls of `hmac256`.
#
# usage: [CPU=x86-64-v3] bash bench/uneven.sh
#
# Both ways are taken by turns in one program. A figure is the least of many turns, by processor time. 1 MB is 10^6 bytes. The sixteen
# unequal lengths are drawn like those of Borg's cutter at a sixteenth of its sizes: 32 KiB and an exponential variate with a mean of 128 KiB.
set -euo pipefail
. "$(dirname "$0")/program.sh"

mac=$(build_program ferry_mac anyhow)

# row NAME TIMES REPEATS LENGTH..: the speeds of the fastest of so many turns, each of so many repeats, on texts of these lengths
row() {
    local name=$1
    shift
    echo "$@" | "$mac" | awk -v name="$name" -v lengths="$*" '{
        count = split(lengths, length_of, " ")
        for (i = 3; i <= count; i++) all += length_of[i]
        $1 /= length_of[2]
        $2 /= length_of[2]
        printf "%-32s  hmac256 %10.1f us, %6.1f MB/s  hmac256_many %10.1f us, %6.1f MB/s  %4.2f times as fast\n", \
            name, $1 / 1000, 1000 * all / $1, $2 / 1000, 1000 * all / $2, $1 / $2
    }'
}

# many COUNT LENGTH: so many times this length
many() {
    for _ in $(seq "$1"); do echo "$2"; done
}

four="84058 54200 170720 42623"
eight="$four 133381 92434 40599 125584"
sixteen="$eight 37777 107287 42259 45232 105191 262617 50090 65879"

uptime
row "four texts of 64 KiB" 200 1 $(many 4 65536)
row "eight texts of 64 KiB" 200 1 $(many 8 65536)
row "twelve texts of 64 KiB" 100 1 $(many 12 65536)
row "four texts of 100 bytes" 200 100 $(many 4 100)
row "64 texts of 100 bytes" 200 10 $(many 64 100)
row "64 KiB beside three of no bytes" 200 1 65536 0 0 0
row "one text of 64 KiB" 200 1 65536
row "four unequal texts" 100 1 $four
row "eight unequal texts" 100 1 $eight
row "sixteen unequal texts" 60 1 $sixteen
row "32 unequal texts" 40 1 $sixteen $sixteen
uptime
