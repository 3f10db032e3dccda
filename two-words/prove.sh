#!/bin/sh
# Proves the crates above `bits` over sets of two words, from the project's own files: `bits` alone is another one, made by bits.patch. It is a
# patch since no .rt or .antt file may stand outside the crates.
# sh two-words/prove.sh [--must-fail] [CRATE ..]: without names every crate of crates.txt is proved, and the programs are run; with names these
# and what they depend on. With --must-fail the edits of the two-word `bits` are tried besides. It works in a temporary folder.
set -eu
cd "$(dirname "$0")/.."
root=$(pwd)
edits=
if [ "${1:-}" = --must-fail ]; then edits=yes; shift; fi

# The crates to prove: those named and, through crates.txt, what they depend on.
shown= todo=${*:-$(sed -n 's/^\([a-z_0-9]*\)\( staticlib\)\?:.*/\1/p' crates.txt)}
while [ -n "$todo" ]; do
    next=
    for crate in $todo; do
        case " $shown " in *" $crate "*) continue ;; esac
        [ -d "crates/$crate" ] || continue # a library of the kit
        shown="$shown $crate" next="$next $(sed -n "s/^$crate\( staticlib\)\?:\(.*\)/\2/p" crates.txt)"
    done
    todo=$next
done
[ -n "$shown" ] || { echo "crates.txt lists none of these"; exit 2; }

tree=$(mktemp -d)
trap 'rm -rf "$tree"' EXIT
trap 'exit 1' HUP INT TERM
mkdir "$tree/crates"
for crate in $shown; do
    cp -R "crates/$crate" "$tree/crates/"
    rm -rf "$tree/crates/$crate/out"
    grep "^$crate\( staticlib\)\?:" crates.txt >>"$tree/crates.txt"
done
cd "$tree"
rm -r crates/bits/must-fail
patch -s -p1 --no-backup-if-mismatch <"$root/two-words/bits.patch"

# Crates above know `bits` by its contracts, its specifications and its laws. The contracts must be the project's own text; of the
# specifications the width and the number of a set may differ, and of the laws none. Every other crate must be the project's own.
contracts() { awk '/^pub fn /{on=1} on && /^\{/{on=0} on' "$1"; }
contracts "$root/crates/bits/src/lib.rt" >one
contracts crates/bits/src/lib.rt >two
cmp one two || { echo "the contracts of the two-word bits aren't the project's own"; exit 1; }
rm one two
for file in "$root"/crates/bits/specs/*.antt "$root"/crates/bits/proofs/*.antt; do
    case $file in */Numerals.antt | */proofs/Lib.antt) continue ;; esac
    cmp "$file" "crates/bits/${file#"$root/crates/bits/"}" || { echo "${file##*/} isn't the project's own"; exit 1; }
done
for crate in $shown; do
    [ "$crate" = bits ] || diff -r -x out "$root/crates/$crate" "crates/$crate"
done

rt all check --jobs 4
for crate in $shown; do
    [ -e "crates/$crate/src/main.rt" ] || continue
    (cd "crates/$crate" && rt run <stdin | cmp - stdout) || { echo "$crate printed something else"; exit 1; }
done
[ -z "$edits" ] || rt must-fail bits
