#!/usr/bin/env bash
# Runs `bench`: the proved program where it is built and not older than its sources, else the same source unproved.
set -u
top=$(cd "$(dirname "$0")" && pwd) || exit 2
program=$top/crates/bench_cli/out/bench_cli

is_fresh() {
  [ -x "$program" ] && [ -z "$(find "$top/crates.txt" "$top/crates" -path '*/out' -prune -o -type f -newer "$program" \
    \( -name '*.rt' -o -name '*.antt' -o -name crates.txt \) -print -quit)" ]
}

if is_fresh; then
  exec "$program" "$@"
fi

cat >&2 <<MESSAGE
bench.sh: no proved program is here yet. 'rt ci' at the top of the repository proves and builds it
bench.sh: (about half an hour on two processors, from nothing). Until then the same source runs unproved, and sees only
bench.sh: files that are named below the current folder.
MESSAGE

# `rt try` runs the program in a folder of its own: each word that names a file here goes along as a copy.
data=()
for word in "$@"; do
  case $word in
    /* | ../* | */../* | -*) ;;
    *) if [ -f "$word" ]; then data+=(--data "$word=$(pwd)/$word"); fi ;;
  esac
done
cd "$top/crates/bench_cli" || exit 2
exec rt try "${data[@]+"${data[@]}"}" -- "$@"
