#!/bin/sh
# Builds what a benchmark calls of the proved crates. `build-ffi.sh INTO NAME..` checks each source
# bench/ffi/NAME.rattle, and puts libNAME.a into the folder INTO, or the program NAME where the source has a `main`.
# The crates that a source uses are checked in copies, in that folder too; what was checked before is kept.
set -eu
rt=${RT:-rt}
into=$1
shift
top=$(cd "$(dirname "$0")/.." && pwd)
mkdir -p "$into/proved/crates"
cd "$into/proved"
cp "$top/HANDLES" .

# the lines of crates.txt of some crates and of all below them
with_those_below() {
    awk -F: -v wanted="$*" '
        BEGIN { n = split(wanted, name, " "); for (k = 1; k <= n; k++) need[name[k]] }
        /^[a-z]/ { line[++lines] = $0; split($1, word, " "); crate[lines] = word[1]; uses[lines] = $2 }
        END {
            for (known = -1; known < count; ) {
                known = count
                for (k = 1; k <= lines; k++)
                    if (crate[k] in need) {
                        n = split(uses[k], name, " ")
                        for (j = 1; j <= n; j++) if (!(name[j] in need)) { need[name[j]]; count++ }
                    }
            }
            for (k = 1; k <= lines; k++)
                if (crate[k] in need) print line[k]
        }' "$top/crates.txt"
}

for source in "$@"; do
    text="$top/bench/ffi/$source.rattle"
    used=$(sed -n 's/^use \([a-z_]*\)::.*/\1/p' "$text" | sort -u | grep -v '^std$' | tr '\n' ' ')
    with_those_below "$used" >crates.txt
    for name in $(sed 's/[ :].*//' crates.txt); do
        [ -d "crates/$name/out" ] || { mkdir -p "crates/$name" && cp -a "$top/crates/$name/out" "crates/$name/" 2>/dev/null || true; }
        for part in src specs proofs; do
            rm -rf "crates/$name/$part"
            [ ! -d "$top/crates/$name/$part" ] || cp -a "$top/crates/$name/$part" "crates/$name/$part"
        done
    done
    mkdir -p "crates/$source/src"
    if grep -q '^fn main(' "$text"; then
        echo "$source: $used" >>crates.txt
        cp "$text" "crates/$source/src/main.rt"
        # a run without words, for the program that it leaves
        rm -f "crates/$source/out/$source"
        (cd "crates/$source" && "$rt" run >/dev/null)
        cp "crates/$source/out/$source" "$into/"
    else
        echo "$source staticlib: $used" >>crates.txt
        cp "$text" "crates/$source/src/lib.rt"
        # its proofs, where it has some: named .lemmas, since the gate refuses .antt files outside of crates
        rm -rf "crates/$source/proofs"
        for proof in "$top/bench/ffi/$source"/*/*.lemmas; do
            [ -f "$proof" ] || continue
            function=$(basename "$(dirname "$proof")")
            mkdir -p "crates/$source/proofs/$function"
            cp "$proof" "crates/$source/proofs/$function/$(basename "$proof" .lemmas).antt"
        done
        (cd "crates/$source" && "$rt" lib)
        cp "crates/$source/out/lib$source.a" "$into/"
    fi
done
# the allocator that a library calls: the kit's, over malloc
cp "$(dirname "$("$rt" doc)")/c/liblibc_c.a" "$into/"
