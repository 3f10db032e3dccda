#!/bin/sh
# Builds the library for C, target/staticlib/libcapi.a: proves the crates that it is made of, those that don't need each other side by side,
# and then the calls for C. As rt does with a crate, it leaves alone what it built of these very files. What rt said of a crate is in
# target/log/CRATE.out.
#
#     sh library.sh             builds it
#     sh library.sh --crates    only names the crates that it is made of, capi last
set -eu
cd "$(dirname "$0")"
# In the order of crates.txt, which has crates side by side that take about as long.
below_capi() {
    tac crates.txt | awk -F: '
        { split($1, words, " ") }
        words[1] == "capi" || words[1] in needed {
            n = split($2, names, " "); for (i = 1; i <= n; i++) needed[names[i]]; if (words[1] != "capi") print words[1] }' | tac
}
case $* in
'') ;;
--crates) below_capi && echo capi && exit ;;
--crate) echo "usage: sh library.sh [--crates]" >&2 && exit 2 ;;
"--crate "*)
    # one of them: a crate waits for those below it that are at work
    cd "crates/$2"
    log=../../target/log/$2.out
    : >"$log"
    rt lib >>"$log" 2>&1 || { echo "rt: $2 NOT PROVED" >>"$log"; cat "$log"; exit 1; }
    echo "rt: $2 proved" | tee -a "$log"
    exit ;;
*) echo "usage: sh library.sh [--crates]" >&2 && exit 2 ;;
esac
archive=target/staticlib/libcapi.a
sources=$({ rt version && find crates.txt crates -name out -prune -o -type f -exec sha256sum {} + | LC_ALL=C sort; } | sha256sum)
built() { echo "$sources $(sha256sum <"$archive")"; }
if [ -f "$archive" ] && [ -f "$archive.sum" ] && [ "$(built)" = "$(cat "$archive.sum")" ]; then exit; fi
mkdir -p target/log target/staticlib
below_capi | xargs -n 1 -P "${RT_JOBS:-4}" sh library.sh --crate
sh library.sh --crate capi
cp crates/capi/out/libcapi.a "$archive"
built >"$archive.sum"
