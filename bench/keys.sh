#!/usr/bin/env bash
# Measures `keys`: on a generated repository of this many MB (200 where none is given), which is mixed, and where `borg` is
# installed, Borg's own check of its log beside it; over ever more live keys of 60 bytes; over one segment of 500 MB; over 285 MB in
# large objects. Each was just written, so it lies in the system's memory. The disk needs 600 MB.
set -eu
cd "$(dirname "$0")/.."
megabytes=${1:-200}
./build
folder=$(mktemp -d)
trap 'rm -rf "$folder"' EXIT
repository=$folder/repository

# over NAME KEYS SIZE SEGMENT: `keys` over so many live keys with blobs of SIZE bytes in segments of SEGMENT bytes
over() {
    python3 bench/make_log.py "$repository" "$2" "$3" "$4"
    python3 bench/measure.py "$1" "$repository" target/borgferry "$repository" - keys
    rm -rf "$repository"
}

python3 bench/make_repository.py "$repository" "$megabytes"
python3 bench/measure.py "borgferry keys" "$repository" target/borgferry "$repository" - keys
if command -v borg >/dev/null; then
    export BORG_BASE_DIR=$folder/base
    python3 bench/measure.py "borg check --repository-only" "$repository" borg check --repository-only "$repository"
else
    echo "borg isn't installed"
fi
rm -rf "$repository"
for keys in 20000 40000 200000 400000 500000 1000000; do
    over "$keys live keys of 60 bytes" "$keys" 60 8000000
done
over "500 live keys in one segment of 500 MB" 500 1000000 1000000000
over "500 live keys of 60 bytes, for the memory of the keys" 500 60 1000000000
over "285 MB in objects of 2 MB" 143 2000000 500000000
