#!/bin/sh
# Installs the library and the tool, or removes them again. `sh install.sh --help` says how.
set -eu
start=$PWD
cd "$(dirname "$0")"

usage() {
    cat <<'END'
usage: sh install.sh --prefix DIR [--libdir DIR] [--tool FILE] [--uninstall]

Proves and builds what isn't built yet, and installs it under DIR, a path from the root:

  include/navorzim.h       the header for C and C++
  lib/libnavorzim.a, .so   the library; pkg-config knows it as navorzim
  bin/navorzim             the tool, with its man page and completions for bash, zsh and fish

  --prefix DIR   the folder that all of it goes to, like /usr/local
  --libdir DIR   the folder of the library, if it isn't PREFIX/lib
  --tool FILE    installs this tool, which is built already, and builds none
  --uninstall    removes the files that an installation of this version with the same words has
                 written; folders stay

DESTDIR in the environment is put before every path, so that a package can be made of what is
there; nothing that is written has it in itself. CC is the compiler that links libnavorzim.so.

Programs find the library when they start if the folder is one of the loader's: run ldconfig once,
or set LD_LIBRARY_PATH. pkg-config looks in its own folders, and in those of PKG_CONFIG_PATH.
END
}

misuse() {
    echo "install.sh: $1; \`sh install.sh --help\` says how it is used" >&2
    exit 2
}

prefix='' libdir='' tool='' uninstall=''
while [ $# -gt 0 ]; do
    case $1 in
    --prefix=* | --libdir=* | --tool=*)
        name=${1%%=*} value=${1#*=}
        shift
        set -- "$name" "$value" "$@"
        continue
        ;;
    --prefix | --libdir | --tool)
        [ $# -ge 2 ] || misuse "$1 needs a value"
        case $1 in
        --prefix) prefix=$2 ;;
        --libdir) libdir=$2 ;;
        --tool) tool=$2 ;;
        esac
        shift
        ;;
    --uninstall) uninstall=yes ;;
    -h | --help) usage && exit ;;
    *) misuse "there is no option '$1'" ;;
    esac
    shift
done
[ -n "$prefix" ] || misuse "--prefix DIR is missing"
libdir=${libdir:-${prefix%/}/lib}
for folder in "$prefix" "$libdir"; do
    # a line of navorzim.pc ends at a line's end, and pkg-config takes words apart at spaces
    case $folder in
    *[[:space:]\"\'\\\$#]*) misuse "a path with spaces, quotes, \$ or # can't stand in navorzim.pc: '$folder'" ;;
    /*) ;;
    *) misuse "'$folder' isn't a path from the root" ;;
    esac
done

prefix=${prefix%/} libdir=${libdir%/}

version=$(sed -n 's/^#define NAVORZIM_VERSION "\(.*\)"$/\1/p' include/navorzim.h)
soname=$(sh shared.sh --soname)
to=${DESTDIR:-}
case $to in '' | /*) ;; *) to=$start/$to ;; esac
header=$to$prefix/include/navorzim.h
archive=$to$libdir/libnavorzim.a
shared=$to$libdir/libnavorzim.so
package=$to$libdir/pkgconfig/navorzim.pc
program=$to$prefix/bin/navorzim
page=$to$prefix/share/man/man1/navorzim.1
bash=$to$prefix/share/bash-completion/completions/navorzim
zsh=$to$prefix/share/zsh/site-functions/_navorzim
fish=$to$prefix/share/fish/vendor_completions.d/navorzim.fish

# The library's files of this version, and of those before it that have the same soname: no program asks for these.
versions() { find "$to$libdir" -maxdepth 1 -name "$soname.[0-9]*" "$@" 2>/dev/null || :; }

if [ -n "$uninstall" ]; then
    versions -delete
    rm -f "$header" "$archive" "$shared" "$to$libdir/$soname" "$package" "$program" "$page" "$bash" "$zsh" "$fish"
    exit
fi

# All of it is made in a folder of its own first, so that nothing is installed where something can't be made.
. ./progress.sh
need rt
prove_library
apart sh shared.sh "$work/so"
if [ -z "$tool" ]; then
    need cargo
    if [ -t 2 ]; then show_line 'Building the tool ..'; fi
    apart cargo build --offline --release --quiet --manifest-path rust/Cargo.toml --target-dir rust/target
    clear_line
    tool=$PWD/rust/target/release/navorzim
fi
case $tool in /*) ;; *) tool=$start/$tool ;; esac
"$tool" man >"$work/page"
for shell in bash zsh fish; do "$tool" completions "$shell" >"$work/$shell"; done
cat >"$work/pc" <<END
prefix=$prefix
libdir=$libdir
includedir=\${prefix}/include

Name: navorzim
Description: Plans, checks and rebuilds for small disk arrays coded with XOR
Version: $version
Cflags: -I\${includedir}
Libs: -L\${libdir} -lnavorzim
END

# What is installed is for everybody. A file takes the old one's place whole: who uses that one meanwhile goes on with it.
umask 022
part=''
trap '[ -z "$part" ] || rm -f "$part"; end' EXIT
put() { # MODE FROM TO
    mkdir -p "${3%/*}"
    part=$3.part
    install -m "$1" "$2" "$part"
    mv -fT "$part" "$3"
}
link() { # NAME LINK
    part=$2.part
    ln -sf "$1" "$part"
    mv -fT "$part" "$2"
}
put 644 include/navorzim.h "$header"
put 644 target/staticlib/libcapi.a "$archive"
put 755 "$work/so" "$to$libdir/libnavorzim.so.$version"
link "libnavorzim.so.$version" "$to$libdir/$soname"
link "$soname" "$shared"
versions ! -name "libnavorzim.so.$version" -delete
put 644 "$work/pc" "$package"
put 755 "$tool" "$program"
put 644 "$work/page" "$page"
put 644 "$work/bash" "$bash"
put 644 "$work/zsh" "$zsh"
put 644 "$work/fish" "$fish"
echo "installed navorzim $version in $to${prefix:-/}"
