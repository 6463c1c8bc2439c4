#!/usr/bin/env bash
# Speeds of the proved seals and openings of blobs, one at a time and four at a time.
#
# usage: bash bench/blob.sh
#
# Both ways are taken by turns in one program. A figure is the best of many turns, by processor time; of three such runs the fastest is
# shown. 1 MB is 10^6 bytes. The opening checks the MAC, decrypts, and compares the id. The share of the hash is that of one id in a seal, which has one
# MAC, and of two in an opening; what is left is the cipher and what little stands beside it.
set -euo pipefail
. "$(dirname "$0")/program.sh"

# rows PROGRAM LENGTH TIMES: the speeds of the fastest of so many turns on contents of so many bytes
rows() {
    for _ in 1 2 3; do
        echo "time $2 $3" | "$1"
    done | awk -v len="$2" '
        { all = 0; for (i = 1; i <= 6; i++) all += $i }
        NR == 1 || all < best { best = all; for (i = 1; i <= 6; i++) least[i] = $i }
        function row(call, one, four, hashes) {
            printf "%-4s  %8d bytes  %8.1f and %8.1f MB/s  %10.2f and %10.2f microseconds  %4.2f times as fast", \
                call, len, 4000 * len / one, 4000 * len / four, one / 4000, four / 4000, one / four
            if (hashes) printf "  hash %2.0f and %2.0f %%", 100 * hashes * least[5] / one, 100 * hashes * least[6] / four
            print ""
        }
        END { row("seal", least[1], least[2], 1); row("open", least[3], least[4], 2); row("id", least[5], least[6], 0) }'
}

blob=$(build_program ferry_blob ferry_base ferry_mac anyhow)

uptime
rows "$blob" 2097152 24
rows "$blob" 65536 500
rows "$blob" 1024 10000
rows "$blob" 100 20000
uptime
