#!/usr/bin/env bash
# Nanoseconds of each operation, of each run of a joint list, and of the bound of a box over 672
# cells: the least processor time of nine programs that repeat it, less that of the same program
# that repeats it not at all. Give how often the operations are repeated, or take 20,000,000; a list
# is run a twentieth as often, in slopes a hundredth, and a box bounded a ten-thousandth as often.
set -eu
repeats=${1:-20000000}
cd "$(dirname "$0")/../crates/ldp_timing"
rt run > /dev/null

# the least processor time of nine, in seconds
least() {
  for _ in 1 2 3 4 5 6 7 8 9; do
    (TIMEFORMAT=%3U; time ./out/ldp_timing "$@" > /dev/null) 2>&1
  done | sort -n | head -n 1
}

each() {
  kind=$1 times=$2
  shift 2
  full=$(least "$kind" "$times" "$@")
  empty=$(least "$kind" 0 "$@")
  awk -v kind="$kind $*" -v full="$full" -v empty="$empty" -v times="$times" \
    'BEGIN { printf "%-16s %8.1f ns\n", kind, (full - empty) * 1e9 / times }'
}

for kind in mul mul-chain div div-chain sqrt sqrt-chain; do
  each "$kind" "$repeats"
done
for kind in tm lambert hotine; do
  each "$kind" $((repeats / 20))
  each "$kind" $((repeats / 20)) ranges
  each "$kind" $((repeats / 100)) slopes
done
for kind in tm-boxes lambert-boxes; do
  each "$kind" $((repeats / 10000))
done
uptime
