# The x86-64 side of this project, for bash scripts to source: the archive, a compiler for it, and
# how its programs are started. On x86-64 that is g++ and nothing; elsewhere Debian's cross
# compiler and QEMU's user mode. What is missing is installed by apt-get.
#
#   x86_64_need COMMAND PACKAGE   COMMAND is there, if need be from Debian's PACKAGE
#   x86_64_compiler               sets x86_64_cc and x86_64_cxx (the compilers) and the array
#                                 x86_64_start (the words to put before a program)
#   x86_64_qemu                   sets the array x86_64_emulator (QEMU's user mode, on any machine);
#                                 to be called after x86_64_compiler
#   x86_64_archive                sets x86_64_library, the archive, made by tools/archive if it is
#                                 missing or older than a file of the crates
#   x86_64_kit                    rt is there; sets the array x86_64_program (the words to put before a
#                                 program that rt built)
#
# CHAROKTAN_ARCHIVE names an archive to take in the place of the tree's own. Link no program with
# -static: Debian's cross compiler has no static libm that links.
# shellcheck shell=bash disable=SC2034 # the names set here are read by the scripts that source this

x86_64_fail() {
    echo "$0: $*" >&2
    exit 1
}

x86_64_install() {
    local root=()
    command -v apt-get >/dev/null || x86_64_fail "$* is missing, and there is no apt-get to install it"
    [ "$(id -u)" = 0 ] || root=(sudo -n)
    if [ -z "${x86_64_updated:-}" ]; then
        "${root[@]}" apt-get update -qq >&2 || x86_64_fail "apt-get update failed; $* is missing"
        x86_64_updated=1
    fi
    "${root[@]}" env DEBIAN_FRONTEND=noninteractive \
        apt-get install -y -qq --no-install-recommends "$@" >&2 ||
        x86_64_fail "$* is missing, and apt-get could not install it"
}

x86_64_need() {
    command -v "$1" >/dev/null || x86_64_install "$2"
    command -v "$1" >/dev/null || x86_64_fail "$2 is installed, but has no command $1"
}

x86_64_qemu() {
    local libraries
    x86_64_need qemu-x86_64 qemu-user
    x86_64_emulator=(qemu-x86_64)
    [ "$(uname -m)" != x86_64 ] || return 0
    # A program's shared libraries are the cross compiler's, whatever others the machine has.
    libraries=$(realpath "$(dirname "$("$x86_64_cxx" -print-file-name=libc.so.6)")")
    x86_64_emulator+=(-L "${libraries%/*}" -E LD_LIBRARY_PATH="$libraries")
}

x86_64_compiler() {
    if [ "$(uname -m)" = x86_64 ]; then
        x86_64_need g++ g++
        x86_64_cc=gcc x86_64_cxx=g++ x86_64_start=()
    else
        x86_64_need x86_64-linux-gnu-g++ g++-x86-64-linux-gnu
        x86_64_cc=x86_64-linux-gnu-gcc x86_64_cxx=x86_64-linux-gnu-g++
        x86_64_qemu
        x86_64_start=("${x86_64_emulator[@]}")
    fi
}

x86_64_kit() {
    command -v rt >/dev/null || x86_64_fail "rt, Rattle's command, is not on the PATH"
    x86_64_program=()
    [ "$(uname -m)" != x86_64 ] || return 0
    x86_64_compiler
    x86_64_program=("${x86_64_start[@]}")
}

# Whether FILE is missing, or older than a file of the crates. What rt keeps in out/ is none.
x86_64_older() {
    local tree=$1 file=$2
    [ ! -e "$file" ] || [ "$tree/crates.txt" -nt "$file" ] ||
        [ -n "$(find "$tree/crates" -mindepth 2 -name out -prune -o -newer "$file" -print -quit)" ]
}

x86_64_archive() {
    local tree
    tree=$(cd "$(dirname "${BASH_SOURCE[0]}")/.." && pwd)
    x86_64_library=${CHAROKTAN_ARCHIVE:-$tree/target/staticlib/libcharoktan.a}
    if [ -z "${CHAROKTAN_ARCHIVE:-}" ] && x86_64_older "$tree" "$x86_64_library"; then
        "$tree/tools/archive" >&2 || x86_64_fail "tools/archive failed"
    fi
    [ -e "$x86_64_library" ] || x86_64_fail "there is no archive $x86_64_library"
}
