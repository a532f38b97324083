#!/usr/bin/env bash
# The week's placements and sheets, made anew by each of the solvers cadical and minisat that is there.
#
#     boards/week/make.sh [FOLDER, target/week IF NOT SAID]
#
# FOLDER gets NAME.SOLVER.values and sheets/NAME.SOLVER.html for each board that can be placed, and NAME.SOLVER.why for each
# that cannot. `boards/week/make.sh boards/week` renews what is kept here. The program `board` is built before; BOARD is
# another one.
set -euo pipefail
folder=$(realpath -m "${1:-$(dirname "$0")/../../target/week}")
cd "$(dirname "$0")/../.."
week=boards/week
board=${BOARD:-}
if [ -z "$board" ]; then
    cargo build --release --quiet --manifest-path rust/Cargo.toml --bin board
    board=${CARGO_TARGET_DIR:-rust/target}/release/board
fi
mkdir -p "$folder/sheets"

# A board's sheet from its values; a placement that is none has a sheet too, and status 1.
sheet() {
    local name=$1 what=$2 values=$3 wanted=$4 status=0
    "$board" sheet "$week/$name.board" "$values" >"$folder/sheets/$name.$what.html" 2>"$folder/said" || status=$?
    [ "$status" = "$wanted" ] || { cat "$folder/said" >&2 && echo "make.sh: $name.$what: status $status" >&2 && exit 1; }
    rm "$folder/said"
}

# Two copies of a board joined by `board join` have to be the board that is kept here.
joins() {
    local name=$1 copies=$2
    "$board" join "${copies}_base.board" "${copies}_copy_1.board" "${copies}_copy_2.board" | cmp - "$week/$name.board"
}
if "$board" --help | grep -q '^board join '; then
    joins joined $week/joined
    joins accident boards/join/accident
else
    echo "board join is not known: joined.board and accident.board are taken as they are."
fi

for solver in cadical minisat; do
    command -v "$solver" >/dev/null || { echo "$solver is missing: nothing is placed by it." && continue; }
    for name in kilns looms laser glaze_day joined; do
        "$board" place "$week/$name.board" -- "$solver" >"$folder/$name.$solver.values"
        sheet "$name" "$solver" "$folder/$name.$solver.values" 0
    done
    "$board" earliest $week/closing_holiday.board home -- "$solver" >"$folder/closing_holiday.$solver.values"
    sheet closing_holiday "$solver" "$folder/closing_holiday.$solver.values" 0
    for name in overfull accident; do
        "$board" why "$week/$name.board" -- "$solver" >"$folder/$name.$solver.why"
    done
done

# Two that are wrong: the accident as both members wrote it down, and a week with one value changed.
sheet accident both $week/accident.both.values 1
sheet kilns wrong $week/kilns.wrong.values 1
echo "$(ls "$folder"/sheets | wc -l) sheets are in ${folder#"$PWD"/}/sheets."
