#!/usr/bin/env bash
# Measures what reads archives, on repositories that Borg makes, with Borg's own commands beside it: `list NAME` of 300,000 items of
# which every third has no content, `extract` of a file of 1 GB, and `check` of 285 MB of random bytes. Each repository was just
# written, so it lies in the system's memory. The disk needs 2.5 GB.
set -eu
cd "$(dirname "$0")/.."
if ! command -v borg >/dev/null; then
    echo "skipped: borg isn't installed"
    exit 0
fi
./build
folder=$(mktemp -d)
trap 'rm -rf "$folder"' EXIT
repository=$folder/repository
export BORG_BASE_DIR=$folder/base BORG_PASSPHRASE=passphrase BORG_OTHER_PASSPHRASE=passphrase

# make WORD ..: a repository with the archive `a` that `borg WORD ..` makes of standard input
make() {
    rm -rf "$repository"
    borg init --encryption repokey "$repository" 2>/dev/null
    borg "$@" --compression none "$repository::a" -
}

# both NAME BORG.. -- OURS..: measures Borg's words and then borgferry's
both() {
    local name=$1 words=()
    shift
    while [ "$1" != -- ]; do
        words+=("$1")
        shift
    done
    shift
    python3 bench/measure.py "borgferry $name" "$repository" target/borgferry "$repository" - "$@"
    python3 bench/measure.py "borg $name" "$repository" borg "${words[@]}"
}

python3 - <<'END' | make import-tar
import io, sys, tarfile
with tarfile.open(fileobj=sys.stdout.buffer, mode="w|") as tar:
    for number in range(300000):
        entry = tarfile.TarInfo(f"folder {number // 1000}/file {number:06d}")
        content = b"" if number % 3 else b"%d" % (number % 1000)
        entry.size = len(content)
        tar.addfile(entry, io.BytesIO(content))
END
both "list of 300,000 items" list --format '{mode} {size} {path}{NL}' "$repository::a" -- list a
both "check of 300,000 items" check --verify-data "$repository" -- check
head -c 1000000000 /dev/urandom | make create
both "extract of 1 GB" extract --stdout "$repository::a" -- extract a stdin
head -c 285000000 /dev/urandom | make create
both "check of 285 MB" check --verify-data "$repository" -- check
