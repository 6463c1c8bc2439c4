# Builds the small programs of bench/programs/. Sourced by the scripts of bench/.
#
# A program lies there as text and not as a crate, since crates/ holds only what the gate proves. It
# is proved and built in a temporary folder, over a copy of the repository's crates.

top=$(cd "$(dirname "${BASH_SOURCE[0]}")/.." && pwd)
scratch=$(mktemp -d)
trap 'rm -rf "$scratch"' EXIT

# build_program CRATE OTHER..: builds bench/programs/CRATE.rt.in, which stands on CRATE of the
# repository and on the OTHER crates of the kit, and prints the path of the program. Where the variable
# `CPU` names a level, as in CPU=x86-64-v3, it is built for such processors.
build_program() {
    local crate=$1
    shift
    local name="bench_$crate" workspace="$scratch/$crate"
    mkdir -p "$workspace"
    echo "building the program over $crate, which takes a minute or two" >&2
    tar cf - -C "$top" --exclude=out crates crates.txt HANDLES | tar xf - -C "$workspace"
    (
        mkdir -p "$workspace/crates/$name/src" &&
            cp "$top/bench/programs/$crate.rt.in" "$workspace/crates/$name/src/main.rt" &&
            echo "$name: $crate $*" >>"$workspace/crates.txt" &&
            cd "$workspace/crates/$name" && rt run ${CPU:+--cpu="$CPU"} </dev/null
    ) >"$workspace/log" 2>&1 || {
        tail -n 20 "$workspace/log" >&2
        echo "$name isn't built" >&2
        return 1
    }
    echo "$workspace/crates/$name/out/$name"
}
