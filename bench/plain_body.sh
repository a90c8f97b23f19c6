#!/usr/bin/env bash
# Processor time and peak memory of `design`, `check` and `eval`, beside those of the same program with
# plain bodies: there each bound looks at every cell, and at each cell all of the cell list is run but
# what no input bears on.
# That program is made in a folder of its own: in `ldp_answer`, `CellByCell` takes the place of `Plain`;
# in `ldp_distortion`, no input is said to stay in a row. The crates above are proved and built anew.
# The problems are the example over the front range, and one zone cut into more and more cells: give
# the sizes, as 488x408, or take those that end soon. Build the program of crates/ldp before:
# (cd crates/ldp && rt run -- sample 1)
set -eu
here=$(cd "$(dirname "$0")" && pwd)
folder=$(mktemp -d)
trap 'rm -rf "$folder"' EXIT
git clone -q "$here/.." "$folder/plain"
(
  cd "$folder/plain/crates"
  sed -i 's/^use ldp_bound::{Bounds, Cost, Plain};/use ldp_bound::{Bounds, CellByCell as Plain, Cost};/' ldp_answer/src/design.rt
  sed -i 's/^use ldp_bound::Plain;/use ldp_bound::CellByCell as Plain;/' ldp_answer/src/check.rt
  sed -i 's/^const IN_A_ROW: u16 = 1;/const IN_A_ROW: u16 = 0;/' ldp_distortion/src/table.rt
  cd ldp
  rt run -- sample 1 > "$folder/said"
)
compare() {
  python3 "$here/measure.py" "$here/../crates/ldp/out/ldp" "$1" "$2 stretches"
  python3 "$here/measure.py" "$folder/plain/crates/ldp/out/ldp" "$1" "$2 plain"
}
mkdir "$folder/front_range"
cp "$here/../examples/front_range.wkt" "$folder/front_range/zone.wkt"
cp "$here/../examples/front_range.asc" "$folder/front_range/heights.asc"
cp "$here/../examples/front_range.toml" "$folder/front_range/designs.toml"
compare "$folder/front_range" front_range
sizes=("$@")
if [ ${#sizes[@]} = 0 ]; then
  sizes=(28x24 35x29 61x51 122x102)
fi
for size in "${sizes[@]}"; do
  python3 "$here/make_zone.py" "$folder" "${size%x*}" "${size#*x}" smooth
  compare "$folder" "$size"
done
