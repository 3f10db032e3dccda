#!/bin/sh
# The way in: proves the library, with a line that says how far it has come, and then shows the main job. What was proved once isn't proved
# again. Exit status 0 only if all of it came out right.
set -eu
cd "$(dirname "$0")"
. ./progress.sh
need rt cargo gcc
prove_library
if [ -t 2 ]; then show_line 'Building the tool ..'; fi
cd rust
apart cargo build --offline --quiet --bin navorzim
clear_line
# from here on a signal is the tool's own
rm -rf "$work"
exec cargo run --offline --quiet --bin navorzim -- demo
