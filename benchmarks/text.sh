#!/usr/bin/env bash
# Prints how long `check` takes to read a network's text at the limit of 2^20 bytes, at half of it and at a quarter: const lines, one
# in about 2,048 bytes, and comments between them. It is no test. Each text is good, and no certificate is there, so what is timed
# is the reading alone, and the time on a text of three lines is taken off. A turn is twenty starts; the turns are interleaved, and
# the times are a start's in the best turn. Where valgrind is there, instructions are counted too: benchmarks/text.sh [PROGRAM [TURNS]].
set -u
top=$(cd "$(dirname "$0")/.." && pwd)
program=${1:-$top/crates/bench_cli/out/bench_cli}
turns=${2:-5}
if [ ! -x "$program" ]; then echo "there is no program at $program" >&2; exit 2; fi
program=$(cd "$(dirname "$program")" && pwd)/$(basename "$program")
work=$(mktemp -d) || exit 2
trap 'rm -rf "$work"' EXIT
cd "$work" || exit 2

# text BYTES: a network of exactly so many bytes, with at most 512 wires; its last comment fills it up
text() {
  awk -v bytes="$1" 'BEGIN {
    head = "net 1\nin x s16 0 1000\n"; tail = "out x\n"
    left = bytes - length(head) - length(tail); printf "%s", head
    wires = int(bytes / 2048) - 1
    for (wire = 1; wire <= wires; wire++) {
      block = sprintf("const constant_%d s32.%d %d\n", wire, wire % 16, wire * 7919)
      while (length(block) < 1984) block = block sprintf("# comment %d of a line that says nothing more\n", ++comments)
      left -= length(block); printf "%s", block
    }
    while (left > 160) { line = sprintf("# comment %d of a line that says nothing more\n", ++comments); left -= length(line); printf "%s", line }
    printf "#"; for (left -= 2; left > 0; left--) printf "x"; printf "\n%s", tail
  }' >"$1.net" || exit 2
  if [ "$(wc -c <"$1.net")" != "$1" ]; then echo "the text has $(wc -c <"$1.net") bytes for $1" >&2; exit 2; fi
}

sizes=(262144 524288 1048576)
printf 'net 1\nin x s16 0 1000\nout x\n' >small.net
for size in "${sizes[@]}"; do text "$size"; done

# Each text is read to its end: the certificate is what can't be read.
for name in small "${sizes[@]}"; do
  told=$("$program" check "$name.net" nowhere 2>&1)
  if [ "$told" != 'cannot read nowhere' ]; then echo "$name.net: $told" >&2; exit 2; fi
done

starts=20
declare -A least
for _ in $(seq "$turns"); do
  for name in small "${sizes[@]}"; do
    before=$(date +%s%N)
    for ((start = 0; start < starts; start++)); do "$program" check "$name.net" nowhere 2>/dev/null; done
    after=$(date +%s%N)
    took=$(((after - before) / starts))
    if [ -z "${least[$name]:-}" ] || [ "$took" -lt "${least[$name]}" ]; then least[$name]=$took; fi
  done
done

# milliseconds NANOSECONDS: them with three decimals
milliseconds() { printf '%d.%03d ms' $(($1 / 1000000)) $(($1 / 1000 % 1000)); }
echo "the best of $turns turns; a text of three lines takes $(milliseconds "${least[small]}"), and beyond it"
for size in "${sizes[@]}"; do
  beyond=$((least[$size] > least[small] ? least[$size] - least[small] : 0))
  printf '%8d bytes, %3d const lines, %5d lines: %s, %d.%02d ns a byte\n' "$size" "$(grep -c '^const' "$size.net")" \
    "$(wc -l <"$size.net")" "$(milliseconds "$beyond")" $((beyond / size)) $((100 * beyond / size % 100))
done

source "$top/benchmarks/instructions.sh"
if [ -z "$counted" ]; then exit; fi
of_small=$(instructions "$program" check small.net nowhere)
echo "instructions, by callgrind; a text of three lines takes $of_small, and beyond it"
for size in "${sizes[@]}"; do
  beyond=$(($(instructions "$program" check "$size.net" nowhere) - of_small))
  printf '%8d bytes: %d, %d.%02d a byte\n' "$size" "$beyond" $((beyond / size)) $((100 * beyond / size % 100))
done
