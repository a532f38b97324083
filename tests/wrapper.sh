#!/usr/bin/env bash
# The script basmuthar: its statuses, and that it prints what the program prints, from files, pipes, fifos and substitutions.
#     tests/wrapper.sh        after `tools/build.sh program`, which writes target/bin/dimacs
set -euo pipefail
cd "$(dirname "$0")/.."
[ -x target/bin/dimacs ] || { echo "wrapper.sh: there is no target/bin/dimacs: tools/build.sh program writes it" >&2; exit 1; }
work=$(mktemp -d)
trap 'rm -rf "$work"' EXIT
board=boards/unequal_starts.record
refused=boards/refused/03_version.record
tried=0

# A run that waits for input that never comes is a failure too.
run() {
    status=0
    timeout 20 ./basmuthar "$@" >"$work/printed" 2>"$work/errors" || status=$?
}

bad() {
    echo "wrapper.sh: $1" >&2
    cat "$work/errors" >&2
    exit 1
}

ended() {
    [ "$status" = "$1" ] || bad "$2: status $status, not $1"
    tried=$((tried + 1))
}

# The last run printed what the program prints for a file, with status 0 for clauses and 1 for a refusal.
prints() {
    target/bin/dimacs <"$2" >"$work/wanted"
    cmp -s "$work/wanted" "$work/printed" || bad "$1: something else is printed than by the program"
    case "$(head -c 7 "$work/wanted")" in
    "p cnf "*) ended 0 "$1" ;;
    *) ended 1 "$1" ;;
    esac
}

# The last run ended with 2, printed nothing, and said why.
complains() {
    ended 2 "$1"
    [ ! -s "$work/printed" ] || bad "$1: something is printed"
    grep -q "$2" "$work/errors" || bad "$1: nothing on standard error says '$2'"
}

# ---- files: every board, and one for each refusal
for record in boards/*.record boards/refused/*.record; do
    run "$record"
    prints "$record" "$record"
done
run "$refused" && ended 1 "a refusal"
run "$board" && ended 0 "clauses"
[ ! -s "$work/errors" ] || bad "clauses: something on standard error"

# ---- standard input, pipes, substitutions, fifos, and a file where standard input is closed
mkfifo "$work/fifo"
for record in "$board" "$refused" boards/nothing.record; do
    run <"$record"
    prints "standard input" "$record"
    run < <(cat "$record")
    prints "a pipe" "$record"
    run /dev/stdin < <(cat "$record")
    prints "a pipe by its name" "$record"
    run <(cat "$record")
    prints "a substitution" "$record"
    cat "$record" >"$work/fifo" &
    run "$work/fifo"
    prints "a fifo" "$record"
    run "$record" <&-
    prints "a file, standard input closed" "$record"
done
head -c 70000 /dev/zero >"$work/long"
run < <(cat "$work/long" 2>/dev/null)
prints "70,000 bytes by a pipe" "$work/long"
run /dev/null
prints "no bytes" /dev/null

# ---- a board's text: refused, with a hint
run boards/unequal_starts.board
prints "a board's text" boards/unequal_starts.board
grep -q "board record" "$work/errors" || bad "a board's text: no hint"

# ---- wrong words and files
run --help && complains "a word that is no file" "^usage:"
run "$board" "$board" && complains "two files" "^usage:"
run "$work/missing" && complains "a missing file" "there is no file"
run boards && complains "a folder" "is a directory"

# ---- input that fails
run <&- && complains "standard input closed" "standard input is closed"
run <boards && complains "a folder as standard input" "basmuthar: standard input cannot be read"
run 0>"$work/other" && complains "standard input open for writing alone" "basmuthar: standard input cannot be read"
run /proc/self/mem && complains "a file whose reading fails" "basmuthar: standard input cannot be read"

# ---- output that fails
: >"$work/printed"
for record in "$board" "$refused"; do
    status=0 && ./basmuthar "$record" >&- 2>"$work/errors" || status=$?
    complains "standard output closed" "standard output is closed"
    status=0 && ./basmuthar "$record" >/dev/full 2>"$work/errors" || status=$?
    complains "no room for standard output" "standard output cannot be written"
done

# ---- stack: more is taken where that is allowed, and said to be needed where it is not
limited() {
    status=0
    (ulimit "$@" && timeout 20 ./basmuthar "$board") >"$work/printed" 2>"$work/errors" || status=$?
}
limited -S -s 256 && prints "256 KiB of stack that may grow" "$board"
limited -s 1024 && prints "1,024 KiB of stack at most" "$board"
limited -s 256 && complains "256 KiB of stack at most" "needs 1,024 KiB of stack"

echo "wrapper: $tried runs ended with the status that they have to, and printed what the program prints"
