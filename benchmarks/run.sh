#!/usr/bin/env bash
# Prints how long `run` takes on a recording of a million rows, beside mawk and a plain C program that do the same work, how many
# instructions a row takes where valgrind is there, and how much memory it takes; and then on products and quotients of each width.
# It is no test. The turns are interleaved, and the times are those of the best, with each program's start in them:
# benchmarks/run.sh [PROGRAM [ROWS [TURNS]]].
set -u
top=$(cd "$(dirname "$0")/.." && pwd)
program=${1:-$top/crates/bench_cli/out/bench_cli}
rows=${2:-1000000}
turns=${3:-7}
network=$top/examples/sum.net
if [ ! -x "$program" ]; then echo "there is no program at $program" >&2; exit 2; fi
program=$(cd "$(dirname "$program")" && pwd)/$(basename "$program")
work=$(mktemp -d) || exit 2
trap 'rm -rf "$work"' EXIT
cd "$work" || exit 2

# The recording `t,a,b`: the same rows each time, from two draws of a generator that every awk computes exactly. The values lie
# in the declared ranges.
awk -v rows="$rows" 'BEGIN {
  print "t,a,b"; x = 1
  for (i = 0; i < rows; i++) {
    x = x * 16807 % 2147483647; a = x % 1001
    x = x * 16807 % 2147483647; b = x % 321 - 160
    printf "%d.%03d,%d,%d\n", int(i / 1000), i % 1000, a, b
  }
}' >rows.csv || exit 2

# The same work in mawk: b is divided by 16, rounded toward zero, and the sum saturates.
sums='NR == 1 { print "s"; next } { s = $2 + int($3 / 16); if (s > 32767) s = 32767; else if (s < -32768) s = -32768; print s }'

# And in C, as one writes it in an afternoon: no column is looked up, no number is checked, and `printf` prints.
cat >sums.c <<'C'
#include <stdio.h>
#include <stdlib.h>
#include <string.h>

int main(int count, char **words) {
    FILE *rows = count == 2 ? fopen(words[1], "r") : NULL;
    char *line = NULL;
    size_t room = 0;
    if (rows == NULL || getline(&line, &room, rows) < 0) return 2;
    puts("s");
    while (getline(&line, &room, rows) > 0) {
        char *a = strchr(line, ',');
        char *b = a == NULL ? NULL : strchr(a + 1, ',');
        if (b == NULL) return 4;
        long sum = strtol(a + 1, NULL, 10) + strtol(b + 1, NULL, 10) / 16;
        if (sum > 32767) sum = 32767;
        if (sum < -32768) sum = -32768;
        printf("%ld\n", sum);
    }
    free(line);
    return fclose(rows) == 0 && fflush(stdout) == 0 ? 0 : 2;
}
C

# What is run for each kind over a recording: the words, in `words`. With `run_KIND` it is run over the whole recording.
words_of_bench() { words=("$program" run "$network" "$1"); }
words_of_mawk() { words=(mawk -F, "$sums" "$1"); }
words_of_c() { words=(./sums "$1"); }
run_bench() { words_of_bench rows.csv; "${words[@]}"; }
run_mawk() { words_of_mawk rows.csv; "${words[@]}"; }
run_c() { words_of_c rows.csv; "${words[@]}"; }

source "$top/benchmarks/instructions.sh"

# instructions_a_row RECORDING KIND: of two beginnings of the recording, the difference in instructions over that in rows
long=$((rows < 21000 ? rows : 21000))
short=$((long / 21))
instructions_a_row() {
  local of_short of_long
  head -n $((short + 1)) "$1" >short.csv
  head -n $((long + 1)) "$1" >long.csv
  "words_of_$2" short.csv
  of_short=$(instructions "${words[@]}")
  "words_of_$2" long.csv
  of_long=$(instructions "${words[@]}")
  echo $(((of_long - of_short) / (long - short)))
}

kinds=(bench)
if command -v mawk >/dev/null; then kinds+=(mawk); else echo 'mawk is not installed, so it is left out'; fi
if command -v gcc >/dev/null && gcc -O2 -o sums sums.c; then kinds+=(c); else echo 'gcc is not installed, so the C program is left out'; fi

echo "$rows rows, $(wc -c <rows.csv) bytes, the best of $turns turns"

# What they print, once.
for kind in "${kinds[@]}"; do "run_$kind" >"$kind.out" || { echo "$kind ended with status $?" >&2; exit 2; }; done
for kind in "${kinds[@]:1}"; do
  if cmp -s bench.out "$kind.out"; then echo "bench and $kind print the same"; else echo "bench and $kind DIFFER"; fi
done

# take_turns KIND..: the nanoseconds of the best turn of each kind, in `least`
declare -A least
take_turns() {
  local kind before after
  least=()
  for _ in $(seq "$turns"); do
    for kind in "$@"; do
      before=$(date +%s%N)
      "run_$kind" >/dev/null
      after=$(date +%s%N)
      if [ -z "${least[$kind]:-}" ] || [ $((after - before)) -lt "${least[$kind]}" ]; then least[$kind]=$((after - before)); fi
    done
  done
}

take_turns "${kinds[@]}"
for kind in "${kinds[@]}"; do
  printf '%-6s %d.%03d s, %d ns a row' "$kind" $((least[$kind] / 1000000000)) $((least[$kind] / 1000000 % 1000)) $((least[$kind] / rows))
  if [ "$kind" != bench ]; then
    hundredths=$((100 * least[bench] / least[$kind]))
    printf '; bench takes %d.%02d times as long' $((hundredths / 100)) $((hundredths % 100))
  fi
  printf '\n'
done

if [ -n "$counted" ]; then
  echo "instructions a row, by callgrind, of $short and $long rows:"
  for kind in "${kinds[@]}"; do printf '%-6s %s\n' "$kind" "$(instructions_a_row rows.csv "$kind")"; done
fi

# The greatest memory that a process held, in KiB: what GNU time tells, or else what the kernel told last before its end.
peak_by_time() { /usr/bin/time -f %M -o peak "$@" >/dev/null && tail -n 1 peak; }
peak_by_loop() {
  local peak=0 now process
  "$@" >/dev/null &
  process=$!
  while now=$(awk '/^VmHWM/ { print $2 }' "/proc/$process/status" 2>/dev/null) && [ -n "$now" ]; do peak=$now; done
  wait "$process"
  echo "$peak"
}
peak=peak_by_loop
told='VmHWM of /proc, read in a loop'
if /usr/bin/time -f %M -o peak true 2>/dev/null; then peak=peak_by_time; told='GNU time'; fi
echo "peak memory in KiB, by $told:"
printf '%-6s %s\n' bench "$("$peak" "$program" run "$network" rows.csv)"
for kind in "${kinds[@]:1}"; do
  case $kind in
    mawk) printf '%-6s %s\n' mawk "$("$peak" mawk -F, "$sums" rows.csv)" ;;
    c) printf '%-6s %s\n' c "$("$peak" ./sums rows.csv)" ;;
  esac
done

# ---- products and quotients

# numbers BITS: the recording `t,x,y` of signed words of so many bits. x goes over all of them (at 32 bits over every second one)
# and y over those of half the width, 0 among them, so that products saturate and quotients have a zero divisor now and then.
numbers() {
  awk -v rows="$rows" -v bits="$1" 'BEGIN {
    print "t,x,y"; draw = 1
    for (i = 0; i < rows; i++) {
      draw = draw * 16807 % 2147483647; x = bits == 32 ? (draw - 1073741824) * 2 : draw % 2 ^ bits - 2 ^ (bits - 1)
      draw = draw * 16807 % 2147483647; y = draw % 2 ^ (bits / 2 + 1) - 2 ^ (bits / 2)
      printf "%d.%03d,%.0f,%.0f\n", int(i / 1000), i % 1000, x, y
    }
  }' >numbers.csv
}

# network FILE TYPE LINE..: a network of x and y of the type, with the lines
network() {
  local file=$1
  printf '%s\n' 'net 1' "in x $2 0 1" "in y $2 0 1" "${@:3}" >"$file"
}

# The same work in mawk, whose numbers are doubles: products that they don't hold saturate all the same, and quotients of two
# words are cut off where they should be. 0 is added lest -0 is printed.
products='NR == 1 { print "p,q"; next } {
  p = $2 * $3; if (p > greatest) p = greatest; else if (p < least) p = least
  if ($3 == 0) q = $2 < 0 ? least : greatest; else q = int($2 / $3)
  if (q > greatest) q = greatest
  printf "%.0f,%.0f\n", p + 0, q + 0
}'

words_of_products() { words=("$program" run products.net "$1"); }
words_of_thirds() { words=("$program" run thirds.net "$1"); }
words_of_sums() { words=("$program" run sums.net "$1"); }
run_products() { words_of_products numbers.csv; "${words[@]}"; }
run_products_in_mawk() { mawk -F, -v least="$least_word" -v greatest="$greatest_word" "$products" numbers.csv; }
run_thirds() { words_of_thirds numbers.csv; "${words[@]}"; }
run_sums() { words_of_sums numbers.csv; "${words[@]}"; }

# row TITLE KIND [KIND]: the nanoseconds of a row of the recording, by bench and by mawk, and the instructions of bench; and
# whether they print the same
row() {
  local title=$1 kind by_mawk=- instructions=-
  shift
  for kind in "$@"; do
    "run_$kind" >"$kind.out" 2>"$kind.err" || { echo "$title: $kind ended with status $?: $(head -n 1 "$kind.err")" >&2; exit 2; }
  done
  take_turns "$@"
  if [ -n "$counted" ]; then instructions=$(instructions_a_row numbers.csv "$1"); fi
  if [ $# = 2 ]; then
    by_mawk=$((least[$2] / rows))
    if ! cmp -s "$1.out" "$2.out"; then by_mawk+='; they DIFFER'; fi
  fi
  printf '%-32s %13s %6d %6s\n' "$title" "$instructions" $((least[$1] / rows)) "$by_mawk"
}

echo "instructions of bench a row, and nanoseconds a row, of $rows rows of two words:"
printf '%-32s %13s %6s %6s\n' '' instructions bench mawk
for bits in 8 16 32; do
  numbers "$bits"
  word=s$bits
  network products.net "$word" "wire p $word = Mfx_Mul_$word${word}_$word x y" "wire q $word = Mfx_Div_$word${word}_$word x y" 'out p' 'out q'
  greatest_word=$(((1 << (bits - 1)) - 1))
  least_word=$((-greatest_word - 1))
  both=(products)
  if command -v mawk >/dev/null; then both+=(products_in_mawk); fi
  row "product and quotient of $word" "${both[@]}"
done

# Doubles don't hold each product before it is divided, so bench stands alone there; and its sum of the same words, to compare.
network thirds.net s32 'wire p s32 = Mfx_MulDiv_s32s32s32_s32 x x y' 'out p'
network sums.net s32 'wire p s32 = Mfx_Add_s32s32_s32 x y' 'out p'
row 'product over a third of s32' thirds
row 'sum of s32' sums

# ---- filters, delays and curves

# What one wire more costs a row of the shipped sum, whose output alone is printed: a constant, which every wire costs, a delay, each
# filter, and a search and a curve on an axis of 16 points, listed or in equal steps.
if [ -n "$counted" ]; then
  words_of_more() { words=("$program" run more.net "$1"); }
  cp "$network" more.net
  plain=$(instructions_a_row rows.csv more)
  echo "instructions more a row, beside $plain for the sum alone:"
  more() {
    { grep -v '^out' "$network"; printf '%s\n' "${@:2}"; echo 'out s'; } >more.net
    printf '%-32s %13s\n' "$1" $(($(instructions_a_row rows.csv more) - plain))
  }
  more 'a constant' 'const k s16 1'
  more 'a delay' 'delay d s16 0 = s'
  more 'two delays' 'delay d s16 0 = s' 'delay e s16 0 = d'
  more 'a proportional block' 'wire f s16 = Efx_P_s16_s16 s 32768'
  more 'a lag' 'wire f s16 = Efx_PT1_s16_s16 s 49152 65536'
  more 'a differentiating lag' 'wire f s16 = Efx_DT1Typ2_s16_s16 s 49152 65536'
  more 'an average over 16 rows' 'wire f s16 = Efx_MovAvg_s16_s16 s 16'
  more 'an average over 1024 rows' 'wire f s16 = Efx_MovAvg_s16_s16 s 1024'
  listed="axis ax s16 $(seq -s ' ' -160 80 1040)"
  values="table tb s16 $(seq -s ' ' 0 60 900)"
  more 'a search of 16 points' "$listed" 'wire p dp:ax = Ifx_DPSearch_s16 s ax'
  more 'a search and a curve' "$listed" "$values" 'wire p dp:ax = Ifx_DPSearch_s16 s ax' 'wire y s16 = Ifx_IpoCur_s16 p tb'
  more 'a curve over an axis' "$listed" "$values" 'wire z s16 = Ifx_IntIpoCur_s16_s16 s ax tb'
  more 'a search and a curve, in steps' 'axisstep ax s16 -160 80 16' "$values" 'wire p dp:ax = Ifx_DPSearch_s16 s ax' \
    'wire y s16 = Ifx_IpoCur_s16 p tb'
fi
