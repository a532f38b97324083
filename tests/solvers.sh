#!/usr/bin/env bash
# Boards through real solvers and back: board cnf, then cadical and minisat, then board model and board show; board place;
# board earliest for every number; and board why where there is no solution.
#
#     tests/solvers.sh [HOW MANY BOARDS TO DRAW, 100 IF NOT SAID]
#
# The text of every board has to read as Compile's list. Both solvers have to say the same of every board, every model has to
# decode to values that Judge accepts, also through examples/reply.c where the reply is in the library's form, and where a board is
# small, trying all values has to say the same as the solvers: whether there is a solution, and which value of each number is the
# least. The rules that board why names have no solution together, and without any one of them they have.
# BASMUTHAR_LIB_DIR is as for the crate.
set -euo pipefail
cd "$(dirname "$0")/.."

drawn=${1:-100}
work=$(mktemp -d)
trap 'rm -rf "$work"' EXIT

fail() {
    echo "tests/solvers.sh: $*" >&2
    exit 1
}

# Installs a solver by its package's name, where it is missing and that can be done.
find_solver() {
    command -v "$1" >"$work/where" && return
    { apt-get update && apt-get install -y "$1"; } >"$work/apt" 2>&1 || true
    command -v "$1" >"$work/where"
}

# A solver's reply, in its own form.
ask() {
    local solver=$1 cnf=$2 status=0
    case $solver in
    cadical) cadical -q "$cnf" >"$work/reply" || status=$? ;;
    minisat) minisat -verb=0 "$cnf" "$work/reply" >"$work/log" 2>&1 || status=$? ;;
    esac
    [ "$status" = 10 ] || [ "$status" = 20 ] || fail "$solver ended with status $status on $cnf"
}

# The verdict of a solver on a board; its values are decoded, judged and looked through.
verdict() {
    local solver=$1 file=$2 status=0 placed=0
    ask "$solver" "$work/cnf"
    "$board" model "$file" <"$work/reply" >"$work/values" 2>"$work/trouble" || status=$?
    "$board" place "$file" -- "$solver" >"$work/placed" 2>"$work/trouble" || placed=$?
    [ "$placed" = "$status" ] || fail "board place ends with $placed, board model with $status: $solver, $file"
    case $status in
    3) echo UNSATISFIABLE && return ;;
    0) ;;
    *) fail "$solver's reply is refused: $file: $(cat "$work/trouble")" ;;
    esac
    for values in "$work/values" "$work/placed"; do
        "$board" show "$file" "$values" >"$work/shown" || fail "$solver's values do not hold: $file"
    done
    echo SATISFIABLE
}

# The same reply through the example in C, which takes it only in the library's own form.
in_c() {
    local solver=$1 verdict=$2 status=0
    [ "$solver" = cadical ] || return 0
    "$work/in_c" "$work/record" <"$work/reply" >"$work/values" 2>"$work/trouble" || status=$?
    case $verdict$status in
    UNSATISFIABLE3) ;;
    SATISFIABLE0)
        "$board" text "$work/record" >"$work/text.board"
        "$board" show "$work/text.board" "$work/values" >"$work/shown" || fail "examples/reply.c: $solver's values do not hold"
        ;;
    *) fail "examples/reply.c ends with $status where $solver says $verdict: $(cat "$work/trouble")" ;;
    esac
}

# The least value of a number by a solver, or `none`; what is printed has to read as a solution with that value.
earliest() {
    local solver=$1 file=$2 name=$3 status=0 value
    "$board" earliest "$file" "$name" -- "$solver" >"$work/found" 2>"$work/trouble" || status=$?
    case $status in
    0) value=$(sed -n "s/^# the earliest: $name = \(.*\), after .*/\1/p" "$work/found") ;;
    3) echo none && return ;;
    *) fail "board earliest with $solver ended with status $status: $file: $(cat "$work/trouble")" ;;
    esac
    grep -qx -- "$name = $value" "$work/found" || fail "$solver: no solution with $name = $value: $file"
    "$board" show "$file" "$work/found" >"$work/shown" || fail "$solver: what is printed does not hold: $file"
    echo "$value"
}

# The status of board place on a drawn board with its declarations and only some of its rules.
placed_with() {
    local file=$1 lines=$2 solver=$3 status=0
    awk -v lines="$lines" '/^(number|choice)/ || index(lines, " " FNR " ")' "$file" >"$work/part.board"
    "$board" place "$work/part.board" -- "$solver" >"$work/placed" 2>"$work/trouble" || status=$?
    echo "$status"
}

# The rules that board why names are at odds, and each of them is needed for that.
clash() {
    local solver=$1 file=$2 lines line
    "$board" why "$file" -- "$solver" >"$work/clash" 2>"$work/trouble" || fail "board why: $solver: $file: $(cat "$work/trouble")"
    lines=" $(sed -n '/: \(number\|choice\) /d; s/^line \([0-9]*\):.*/\1/p' "$work/clash" | tr '\n' ' ')"
    [ "$(placed_with "$file" "$lines" "$solver")" = 3 ] || fail "the rules of board why are not at odds: $solver: $file"
    for line in $lines; do
        [ "$(placed_with "$file" "${lines/ $line / }" "$solver")" = 0 ] || fail "line $line is not needed: $solver: $file"
    done
    clashes=$((clashes + 1))
}

# The names of a board's numbers, in their order.
numbers() {
    "$board" rules "$1" | sed -n 's/^number \([^ ]*\) :.*/\1/p'
}

# The numbers whose least values are looked for: of a board with jobs only its closings, as each takes many questions.
wanted() {
    if grep -q '^job ' "$1"; then sed -n 's/^closing \([^ ]*\).*/\1/p' "$1"; else numbers "$1"; fi
}

# The least value of each number of a board: the same by every solver and, where all values were tried, by them.
least() {
    local file=$1 tried=$2 place name first said solver
    for name in $(wanted "$file"); do
        place=$(($(numbers "$file" | grep -nx -- "$name" | cut -d : -f 1) + 3))
        first=""
        for solver in "${solvers[@]}"; do
            said=$(earliest "$solver" "$file" "$name")
            [ "$said" = "${first:-$said}" ] || fail "the least $name: $said by $solver, $first by ${solvers[0]}: $file"
            first=$said
        done
        case $tried in
        LARGE) said=$first ;;
        UNSATISFIABLE) said=none ;;
        *) said=$(cut -d ' ' -f "$place" <<<"$tried") ;;
        esac
        [ "$first" = "$said" ] || fail "the least $name: $first by ${solvers[0]}, $said by trying all values: $file"
        if [ "$first" = none ]; then none=$((none + 1)); else found=$((found + 1)); fi
    done
}

# One board through every solver and, where it is small, by trying all values.
through() {
    local file=$1 first="" said solver tried
    "$board" cnf "$file" >"$work/cnf" || fail "no clause list: $file"
    "$board" record "$file" >"$work/record"
    "$same_list" "$work/record" <"$work/cnf" >"$work/same" || fail "the text is not Compile's list: $file"
    for solver in "${solvers[@]}"; do
        said=$(verdict "$solver" "$file")
        [ "$said" = "${first:-$said}" ] || fail "$solver says $said, ${solvers[0]} says $first: $file"
        first=$said
        in_c "$solver" "$said"
    done
    tried=$("$try_all" "$work/record")
    if [ "$tried" != LARGE ]; then
        [ "${tried%% *}" = "$first" ] || fail "all values tried say $tried, the solvers say $first: $file"
        small=$((small + 1))
    fi
    case $first in
    SATISFIABLE) satisfiable=$((satisfiable + 1)) ;;
    *)
        unsatisfiable=$((unsatisfiable + 1))
        case $file in
        "$work"/*) for solver in "${solvers[@]}"; do clash "$solver" "$file"; done ;;
        esac
        ;;
    esac
    least "$file" "$tried"
}

solvers=()
for solver in cadical minisat; do
    if find_solver "$solver"; then
        solvers+=("$solver")
    else
        echo "$solver is missing and could not be installed: no board was taken through it."
    fi
done
[ ${#solvers[@]} -gt 0 ] || exit 0

cargo build --release --quiet --manifest-path rust/Cargo.toml --bin board --example try_all --example same_list
built=${CARGO_TARGET_DIR:-rust/target}/release
board=$built/board
try_all=$built/examples/try_all
same_list=$built/examples/same_list
cc -std=c99 -O1 -Wall -Wextra -Wconversion -Wshadow -pedantic -Werror -Iinclude examples/reply.c \
    "${BASMUTHAR_LIB_DIR:-target/staticlib}/libbasmuthar.a" -o "$work/in_c"

small=0 satisfiable=0 unsatisfiable=0 found=0 none=0 clashes=0
for file in boards/*.board; do through "$file"; done
for ((seed = 1; seed <= drawn; seed++)); do
    awk -v seed="$seed" -f tests/draw_board.awk >"$work/drawn_$seed.board"
    through "$work/drawn_$seed.board"
done
[ "$satisfiable" -gt 0 ] && [ "$unsatisfiable" -gt 0 ] || fail "only one kind of verdict was met"
[ "$found" -gt 0 ] && [ "$none" -gt 0 ] || fail "least values were met always or never"
echo "${solvers[*]}: $satisfiable boards satisfiable, $unsatisfiable not; all values tried on $small of them; all agree."
echo "The text of each of them reads as Compile's list."
echo "Rules at odds by board why: $clashes times, none of them too many."
echo "Least values by board earliest: $found found, $none times none; all agree."
