#!/bin/sh
# Encoding, planning, also with the fewest reads and at prices, checking, rebuilding and testing survivors against simple Rust, against one pass in C and, where
# Debian's libjerasure-dev and libisal-dev are installed, against Jerasure and ISA-L, interleaved in one process. Prints the table of docs/PERFORMANCE.md: sh bench/run.sh
# With --check it ends with status 1 where rebuilding takes more than 0.8 of simple Rust at L 4,096, or encoding or testing more than 0.9, where planning with
# the fewest reads or at prices takes more than 1.3, or more than 20 ms or 5 ms, or at prices more than 10 times as long as ordinary planning: for each landing.
# With --reads it prints how many symbols plans read, for each disk of the families.
set -eu
cd "$(dirname "$0")/.."
room=$(mktemp -d)
trap 'rm -rf "$room"' EXIT
sh library.sh >"$room/log" 2>&1 || { cat "$room/log"; exit 1; }
gcc -O3 -c bench/kernel.c -o "$room/kernel.o"
others=
if [ -e /usr/include/jerasure.h ]; then others="$others --cfg jerasure -l Jerasure"; fi
if [ -e /usr/include/isa-l.h ]; then others="$others --cfg isal -l isal"; fi
# shellcheck disable=SC2086
rustc --edition 2021 -O bench/bench.rs --check-cfg 'cfg(jerasure, isal)' $others -C link-arg="$room/kernel.o" -L target/staticlib -l static=capi -o "$room/bench"
"$room/bench" "$@"
