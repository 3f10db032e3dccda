#!/bin/sh
# Builds the library for C, runs the examples on it, and tests it from C and from Python. Exit status 0 only if all goes right.
set -eu
cd "$(dirname "$0")/.."
mkdir -p target
sh library.sh >target/examples.log 2>&1 || { cat target/examples.log; exit 1; }
python3 tests/header.py
python3 tests/demo.py
for program in rebuild gone survivors fewest prices nulls; do
    gcc -Wall -Wextra -Werror -Iinclude "examples/c/$program.c" target/staticlib/libcapi.a -o "target/$program"
    "target/$program"
done
sh shared.sh target/libnavorzim.so
python3 tests/c_interface.py target/libnavorzim.so
export NAVORZIM_LIBRARY=target/libnavorzim.so PYTHONPATH=python
for program in rebuild gone survivors fewest prices; do python3 "examples/python/$program.py"; done
python3 -W error -m unittest discover -v -s python/tests >target/python.log 2>&1 || { cat target/python.log; exit 1; }
sed -n "s/^\(.*\) [.][.][.] skipped '\(.*\)'$/not tried, since \2: \1/p" target/python.log
echo "the Python package: $(sed -n 's/^Ran //p' target/python.log)"
