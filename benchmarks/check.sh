#!/usr/bin/env bash
# Prints how long `check` takes: on a network of 512 wires, and on texts that are all lines, at the limit of 2^20 bytes and at
# half of it; and where valgrind is there, how many instructions it takes on chains of sums of 64 to 512 wires. It is no test.
# Times are milliseconds of the best of ten runs, with the program's start in them: benchmarks/check.sh [PROGRAM].
set -u
top=$(cd "$(dirname "$0")/.." && pwd)
program=${1:-$top/crates/bench_cli/out/bench_cli}
if [ ! -x "$program" ]; then echo "there is no program at $program" >&2; exit 2; fi
program=$(cd "$(dirname "$program")" && pwd)/$(basename "$program")
work=$(mktemp -d) || exit 2
trap 'rm -rf "$work"' EXIT
cd "$work" || exit 2

{ echo 'net 1'; echo 'in w0 s16 0 1'; for i in $(seq 1 511); do echo "wire w$i s32 = Mfx_ConvertP2_s16_s32 w0"; done; echo 'out w511'; } >wires.net
{ echo 'cert 1'; for i in $(seq 0 511); do echo "part w$i 0 1 0"; done; } >wires.cert
# Each line is read, and the first fault comes at the last line.
lines() { { echo 'net 1'; for i in $(seq 1 500); do echo "in name_$i s16 0 1000"; done; yes '   ' | head -n $(($1 - 500)); echo 'out nothing'; } >"$2"; }
lines 120000 many.net
lines 240000 twice.net

best() {
  local least=
  for _ in 1 2 3 4 5 6 7 8 9 10; do
    local before after
    before=$(date +%s%N)
    "$program" "${@:2}" >/dev/null 2>&1
    after=$(date +%s%N)
    if [ -z "$least" ] || [ $((after - before)) -lt "$least" ]; then least=$((after - before)); fi
  done
  printf '%-44s %d.%03d ms\n' "$1" $((least / 1000000)) $((least / 1000 % 1000))
}

best 'the start alone (no words)'
best 'check of 512 wires, accepted' check wires.net wires.cert
best '120,000 lines, refused at the last' check many.net wires.cert
best '240,000 lines, refused at the last' check twice.net wires.cert

source "$top/benchmarks/instructions.sh"
if [ -z "$counted" ]; then exit; fi

# chain WIRES: a network of an input and sums, each of the one above and the input; and its certificate
chain() {
  { echo 'net 1'; echo 'in w0 s32 0 1'; for ((i = 1; i < $1; i++)); do echo "wire w$i s32 = Mfx_Add_s32s32_s32 w$((i - 1)) w0"; done; echo "out w$(($1 - 1))"; } >chain.net
  { echo 'cert 1'; for ((i = 0; i < $1; i++)); do echo "part w$i 0 $((i + 1)) 0"; done; } >chain.cert
  if [ "$("$program" check chain.net chain.cert 2>&1)" != accepted ]; then echo "a chain of $1 wires isn't accepted" >&2; exit 2; fi
}

echo 'instructions of check, by callgrind, and how many more a wire than at half as many wires:'
fewer=
for wires in 64 128 256 512; do
  chain "$wires"
  took=$(instructions "$program" check chain.net chain.cert)
  printf 'a chain of %3d wires %14d' "$wires" "$took"
  if [ -n "$fewer" ]; then printf ' %10d' $(((took - fewer) / (wires / 2))); fi
  printf '\n'
  fewer=$took
done
