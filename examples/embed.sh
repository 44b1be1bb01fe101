#!/bin/sh
# Runs a run file from C: proves the runner, writes it as an archive, builds embed.c over it and runs that.
# usage: examples/embed.sh [FILE]      examples/worked.run, where no file is named
set -eu
[ $# -le 1 ] || { sed -n 's/^# usage/usage/p' "$0" >&2; exit 2; }
file=$(readlink -f "${1:-"$(dirname "$0")/worked.run"}")
cd "$(dirname "$0")/.."
. bin/kit.sh
archive
mkdir -p target
if [ "$machine" = x86_64 ]; then compiler=${CC:-cc}; else compiler="${CC:-x86_64-linux-gnu-gcc} -static"; fi
$compiler -O2 -Iinclude -o target/embed examples/embed.c target/staticlib/librunner.a
run_static target/embed "$file"
