#!/usr/bin/env bash
# Runs the program over cases of 01, over the edges of what it reads and writes, and over all boards beside the second program.
#     tests/program.sh [PROGRAM]        PROGRAM is target/bin/dimacs, which `tools/build.sh program` writes, unless another is named
set -euo pipefail
cd "$(dirname "$0")/.."
program=${1:-target/bin/dimacs}
[ -x "$program" ] || { echo "program.sh: there is no $program: tools/build.sh program writes it" >&2; exit 1; }
work=$(mktemp -d)
trap 'rm -rf "$work"' EXIT
stated=0 compared=0

# The bytes that are written in hexadecimal.
bytes() {
    # shellcheck disable=SC2059
    printf "$(sed 's/ //g; s/../\\x&/g' <<<"$*")"
}

# A record's bytes from its body: the version and the length go in front.
whole() {
    local body="$*"
    body=${body// /}
    bytes "01$(printf %08X $((${#body} / 2)))$body"
}

differs() {
    echo "program.sh: $1: the program prints something else than $2" >&2
    diff <(head -5 "$3") <(head -5 "$work/printed") >&2 || true
    exit 1
}

# The program on $work/record prints the text that stands on standard input.
prints() {
    cat >"$work/wanted"
    "$program" <"$work/record" >"$work/printed"
    cmp -s "$work/wanted" "$work/printed" || differs "$1" "01 says" "$work/wanted"
    stated=$((stated + 1))
}

says() {
    prints "$1" <<<"$2"
}

# The program and the second program print the same for a file.
agrees() {
    "$second" <"$1" >"$work/wanted"
    "$program" <"$1" >"$work/printed"
    cmp -s "$work/wanted" "$work/printed" || differs "$1" "the second program" "$work/wanted"
    compared=$((compared + 1))
}

# ---- cases of 01
cp crates/dimacs/stdin "$work/record"
prints "case 13" <crates/dimacs/stdout

bytes 01 00000006 0000 0000 0000 >"$work/record"
says "case 1" "p cnf 0 0"

whole 0002 0000 0001 0000 0003 0000 0003 01 02 02 01 0000 01 0001 FFFFFFFE >"$work/record"
prints "case 5 at -2" <<'TEXT'
p cnf 10 13
-1 0
5 0
-1 2 0
-2 3 0
-3 4 0
-4 5 0
-6 0
10 0
-6 7 0
-7 8 0
-8 9 0
-9 10 0
0
TEXT

bounds="F000 0FFF F000 0FFF F000 0FFF"
whole 0003 0000 0001 "$bounds" 01 02 03 40 0000 40 0001 40 0002 00000000 >"$work/record"
says "case 10" "refused 9 0"
whole 0003 0000 0001 "$bounds" 01 02 03 41 0000 40 0001 40 0002 00000000 >"$work/record"
says "case 11" "refused 7 26"
cp "$work/record" "$work/eleven"
whole 0003 0000 0001 "$bounds" 01 02 03 40 0000 41 0000 40 0002 00000000 >"$work/record"
says "the second term's coefficient 65" "refused 7 29"
whole 0003 0000 0001 "$bounds" 01 02 03 40 0000 40 0003 40 0002 000F4241 >"$work/record"
says "variable 3 of three" "refused 15 30"
whole 0003 0000 0001 "$bounds" 01 02 03 40 0000 40 0001 40 0000 000F4241 >"$work/record"
says "variable 0 for the second time" "refused 16 33"
whole 0003 0000 0001 "$bounds" 01 02 03 40 0000 40 0001 40 0002 000F4241 >"$work/record"
says "constant 1,000,001" "refused 17 35"
mv "$work/eleven" "$work/record"
{ bytes 09 && tail -c +2 "$work/record"; } >"$work/other" && mv "$work/other" "$work/record"
says "case 11 with version 9" "refused 3 0"

# ---- a clause without literals, and lists about as long as the program's 16,384 numbers
whole 0000 0000 0001 00 >"$work/record"
prints "a clause without literals" <<<$'p cnf 0 1\n0'
whole 0001 0000 0000 F000 0FFF >"$work/record"
says "K 24,580" "refused 10 24580"
whole 0001 0000 0001 F000 0553 00 >"$work/record"
says "K 16,385" "refused 10 16385"
whole 0001 0000 0000 F000 0553 >"$work/full"
[ "$("$program" <"$work/full" | wc -l)" = 5463 ] || { echo "program.sh: K 16,384: not 5,463 lines" >&2; exit 1; }

# ---- lengths about 65,536
head -c 70000 /dev/zero >"$work/record"
says "70,000 bytes" "refused 1 0"
head -c 65537 /dev/zero >"$work/record"
says "65,537 bytes" "refused 1 0"
head -c 65536 /dev/zero >"$work/record"
says "65,536 bytes" "refused 3 0"
: >"$work/record"
says "no bytes" "refused 2 0"

# 65,536 bytes that are accepted: 4,093 comparisons that always hold, of three terms each, and a clause of eight Booleans.
always="01 02 03 01 0000 01 0001 01 0002 000F4240"
{
    bytes 01 0000FFFB 0003 0001 0FFE 0000 0000 0000 0000 0000 0000
    bytes "$(printf "$always %.0s" $(seq 4093))"
    bytes 08 000001 000001 000001 000001 010001 010001 010001 010001
} >"$work/longest"
[ "$(wc -c <"$work/longest")" = 65536 ]
cp "$work/longest" "$work/record"
prints "65,536 bytes, accepted" <<'TEXT'
p cnf 7 10
-2 0
3 0
-2 3 0
-4 0
5 0
-4 5 0
-6 0
7 0
-6 7 0
1 1 1 1 -1 -1 -1 -1 0
TEXT

# ---- beside the second program
cargo build --quiet --release --manifest-path second/Cargo.toml --bin second
second=second/target/release/second
for record in boards/*.record boards/refused/*.record "$work/full" "$work/longest"; do
    agrees "$record"
done

# ---- records that arrive in pieces
pieces=0
arrives() {
    "$program" >"$work/printed"
    cmp -s "$work/wanted" "$work/printed" || differs "$1" "at once" "$work/wanted"
    pieces=$((pieces + 1))
}
for record in crates/dimacs/stdin "$work/full" "$work/longest"; do
    "$program" <"$record" >"$work/wanted"
    arrives "$record, a byte at a time" < <(dd bs=1 if="$record" 2>/dev/null)
    arrives "$record, with pauses" < <(head -c 3 "$record" && sleep 0.2 && head -c 11 "$record" | tail -c 8 && sleep 0.2 && tail -c +12 "$record")
done
head -c 70000 /dev/zero >"$work/record"
"$program" <"$work/record" >"$work/wanted"
arrives "70,000 bytes in pieces of 1,000" < <(dd bs=1000 if="$work/record" 2>/dev/null || true)

# ---- a reader that is slow, with more than a pipe holds
"$program" <"$work/full" >"$work/wanted"
"$program" <"$work/full" | (sleep 0.3 && cat) >"$work/printed"
cmp -s "$work/wanted" "$work/printed" || differs "a slow reader" "to a file" "$work/wanted"

# ---- input that cannot be read and output that cannot be written: a line on standard error, nothing else
complaints=0
complains() {
    complaints=$((complaints + 1))
    if [ -s "$work/printed" ] || [ "$(wc -l <"$work/errors")" != 1 ]; then
        echo "program.sh: $1: not one line on standard error alone" >&2
        exit 1
    fi
}
"$program" </ >"$work/printed" 2>"$work/errors"
complains "standard input a directory"
# an emulator opens the program itself in the place of a closed input
if [ "$(uname -m)" = x86_64 ]; then
    "$program" <&- >"$work/printed" 2>"$work/errors"
    complains "standard input closed"
fi
: >"$work/printed"
"$program" <crates/dimacs/stdin >/dev/full 2>"$work/errors"
complains "no room for standard output"

echo "program: $stated texts as 01 has them, $compared records as the second program, $pieces inputs in pieces, a slow reader, $complaints complaints"
