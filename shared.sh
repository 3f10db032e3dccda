#!/bin/sh
# Links the library as a shared object. Proves and builds it first, if it isn't built.
#
#     sh shared.sh FILE        writes it to the file
#     sh shared.sh --soname    only says the name that programs ask for when they start
set -eu
[ $# = 1 ] || { echo "usage: sh shared.sh FILE, or sh shared.sh --soname" >&2; exit 2; }
case $1 in /* | --soname) file=$1 ;; *) file=$PWD/$1 ;; esac
cd "$(dirname "$0")"
# The part of the version that changes where a call changes: the first number, and before 1.0.0 the second too.
version=$(sed -n 's/^#define NAVORZIM_VERSION "\(.*\)"$/\1/p' include/navorzim.h)
case $version in 0.*) compatible=${version%.*} ;; *) compatible=${version%%.*} ;; esac
soname=libnavorzim.so.$compatible
if [ "$file" = --soname ]; then echo "$soname" && exit; fi
sh library.sh
"${CC:-cc}" -shared -o "$file" -Wl,-soname,"$soname" -Wl,-z,defs -Wl,-z,relro -Wl,-z,now -Wl,-z,noexecstack \
    -Wl,--whole-archive target/staticlib/libcapi.a -Wl,--no-whole-archive
