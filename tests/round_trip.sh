#!/usr/bin/env bash
# The examples that take a record to a linked solver and back, in C with CaDiCaL and PicoSAT and in Rust with CaDiCaL.
#
#     tests/round_trip.sh
#
# Every board of boards/ goes through each of them. Values have to be a solution by `board show`; where a board is small, trying all
# values has to say the same: whether there is a solution, and which value of each number is the least. Solvers that lie are found out.
# BASMUTHAR_LIB_DIR is as for the crate.
set -euo pipefail
cd "$(dirname "$0")/.."

library=${BASMUTHAR_LIB_DIR:-target/staticlib}/libbasmuthar.a
work=$(mktemp -d)
trap 'rm -rf "$work"' EXIT

fail() {
    echo "tests/round_trip.sh: $*" >&2
    exit 1
}

# Whether the linker finds a solver's library, which is installed by its package's name where it is missing and that can be done.
find_library() {
    local name=$1 package=$2
    links() { echo 'int main(void) { return 0; }' | cc -x c - -o "$work/links" -l"$name" -lstdc++ -lm 2>"$work/trouble"; }
    links && return
    { apt-get update && apt-get install -y "$package"; } >"$work/apt" 2>&1 || true
    links || { echo "$package is missing and could not be installed: no record was taken through it."; return 1; }
}

# The example in C, with every warning an error: build NAME WORDS.. of files and libraries.
build() {
    local name=$1
    shift
    cc -std=c99 -O1 -Wall -Wextra -Wconversion -Wshadow -pedantic -Werror -Iinclude examples/round_trip.c "$library" "$@" -o "$work/$name"
    programs+=("$work/$name")
}

# Runs a program; its status has to be the wanted one.
run() {
    local wanted=$1 status=0
    shift
    timeout 60 "$@" >"$work/printed" 2>"$work/errors" || status=$?
    [ "$status" = "$wanted" ] || fail "$*: status $status, not $wanted: $(cat "$work/errors")"
    runs=$((runs + 1))
}

# The last run printed a solution of the record.
is_solution() {
    "$board" text "$1" >"$work/text.board"
    grep -q '^# a solution, decoded and judged$' "$work/printed" || fail "$1: no solution is printed"
    "$board" show "$work/text.board" "$work/printed" >"$work/shown" || fail "$1: what is printed does not hold"
}

# Placed or none as trying all values says, and each number's least value.
as_all_values() {
    local program=$1 record=$2 tried=$3 x=0 least
    case $tried in
    UNSATISFIABLE) run 3 "$program" "$record" && return ;;
    esac
    run 0 "$program" "$record"
    is_solution "$record"
    for least in ${tried#*least}; do
        run 0 "$program" "$record" "$x"
        grep -q "^# the earliest: x$x = $least, after" "$work/printed" || fail "$record: the least x$x is $least: $(cat "$work/printed")"
        grep -qx "x$x = $least" "$work/printed" || fail "$record: the values shown do not have x$x = $least"
        is_solution "$record"
        x=$((x + 1))
    done
}

# A board that is too large for trying all values: what is printed holds, and all programs find the same hour for the last number.
large() {
    local program=$1 record=$2 status=0 last
    last=$(($(od -An -tu1 -j5 -N2 "$record" | awk '{ print $1 * 256 + $2 }') - 1))
    timeout 60 "$program" "$record" "$last" >"$work/printed" 2>"$work/errors" || status=$?
    runs=$((runs + 1))
    case $status in
    0) is_solution "$record" ;;
    3) ;;
    *) fail "$program $record $last: status $status: $(cat "$work/errors")" ;;
    esac
    grep '^# [xn]' "$work/printed" >"$work/asked"
    [ -e "$work/first" ] || cp "$work/asked" "$work/first"
    cmp -s "$work/first" "$work/asked" || fail "$program $record $last: other questions or another hour than ${programs[0]}"
}

cargo build --release --quiet --manifest-path rust/Cargo.toml --bin board --example try_all
built=${CARGO_TARGET_DIR:-rust/target}/release
board=$built/board
try_all=$built/examples/try_all
programs=() runs=0

if find_library cadical libcadical-dev; then
    build cadical -lcadical -lstdc++ -lm
    cargo build --release --quiet --manifest-path rust/Cargo.toml --features ipasir --example round_trip
    programs+=("$built/examples/round_trip")
fi
if find_library picosat picosat; then build picosat examples/ipasir_picosat.c -lpicosat; fi

small=0 large=0
for record in boards/*.record; do
    tried=$("$try_all" "$record")
    rm -f "$work/first"
    for program in "${programs[@]}"; do
        case $tried in
        LARGE) large "$program" "$record" ;;
        *) as_all_values "$program" "$record" "$tried" ;;
        esac
    done
    case $tried in LARGE) large=$((large + 1)) ;; *) small=$((small + 1)) ;; esac
done

# Solvers that say yes whatever the clauses are, or neither yes nor no, and every way to call the program wrongly.
solvers=${#programs[@]}
build yes -DREPLY=10 tests/ipasir_liar.c
build neither -DREPLY=0 tests/ipasir_liar.c
run 6 "$work/yes" boards/unequal_starts.record
grep -q 'Decode: refused 13 0' "$work/errors" || fail "a yes without a model is not refused by Decode"
run 4 "$work/neither" boards/unequal_starts.record
run 1 "$work/yes" boards/refused/03_version.record
grep -q 'Size: refused 3 0' "$work/errors" || fail "a record that is refused: $(cat "$work/errors")"
run 1 "$work/yes" boards/unequal_starts.record 2
grep -q 'Closing: refused 22 2' "$work/errors" || fail "an unknown variable: $(cat "$work/errors")"
run 2 "$work/yes" boards/unequal_starts.record y
run 2 "$work/yes" boards/missing.record
run 2 "$work/yes"

if [ "$solvers" -gt 0 ]; then
    echo "round trip: $solvers programs, $small boards as all values tried say, $large larger ones judged; $runs runs, liars found out."
else
    echo "round trip: no solver could be linked; $runs runs, liars found out."
fi
