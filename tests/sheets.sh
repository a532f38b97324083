#!/usr/bin/env bash
# The keepers' sheets: those of boards/week are as they would be made today, both solvers' placements have sheets that say so,
# wrong ones say what is wrong, and a browser opens, measures and prints them where one is there.
#
#     tests/sheets.sh        BASMUTHAR_LIB_DIR is as for the crate
set -euo pipefail
cd "$(dirname "$0")/.."
work=$(mktemp -d)
trap 'rm -rf "$work"' EXIT

fail() {
    echo "tests/sheets.sh: $*" >&2
    exit 1
}

# A page has these words.
says() {
    local page=$1 words
    shift
    for words in "$@"; do grep -qF -- "$words" "$page" || fail "$(basename "$page") does not say: $words"; done
}

cargo build --release --quiet --manifest-path rust/Cargo.toml --bin board
BOARD=$(realpath "${CARGO_TARGET_DIR:-rust/target}/release/board")
export BOARD

# ---- what is kept: every sheet is made of the board and the values beside it
kept=0
for values in boards/week/*.values; do
    name=$(basename "$values" .values)
    case ${name##*.} in both | wrong) wanted=1 ;; *) wanted=0 ;; esac
    status=0
    "$BOARD" sheet "boards/week/${name%%.*}.board" "$values" >"$work/page" 2>"$work/said" || status=$?
    [ "$status" = "$wanted" ] || fail "$values: status $status: $(cat "$work/said")"
    cmp -s "$work/page" "boards/week/sheets/$name.html" || fail "sheets/$name.html is not made of $values: boards/week/make.sh boards/week renews it"
    kept=$((kept + 1))
done
[ "$kept" = "$(ls boards/week/sheets | wc -l)" ] || fail "boards/week/sheets has other sheets than those of the values"
[ "$kept" -ge 9 ] || fail "only $kept sheets are kept"

# ---- made anew by the solvers that are there
boards/week/make.sh "$work/week"
placed=0
for page in "$work"/week/sheets/*.{cadical,minisat}.html; do
    [ -e "$page" ] || continue
    says "$page" "✔ This placement keeps every rule of the board" "Both say the same." "Looked through, every box ticked"
    placed=$((placed + 1))
done
for why in "$work"/week/*.why; do
    [ ! -e "$why" ] || says "$why" "lines cannot be kept together"
done
[ "$(sed -n 's/, after .*//; s/^# the earliest: //p' "$work"/week/closing_holiday.*.values 2>/dev/null | sort -u | wc -l)" -le 1 ] ||
    fail "the solvers find different earliest hours"

# ---- wrong ones, and one that is made to break the page
says "$work/week/sheets/accident.both.html" "✗ Do not work by this placement" "refusal 13" "Sat 16:00 to Sat 17:00" \
    "✗ CLASH of 1 and 2, 16:00 to 17:00" "ana + 2 h = Sat 17:00 is not &lt;= ben = Sat 16:00"
says "$work/week/sheets/kilns.wrong.html" " rules is broken." "Clash on <bdi>Large kiln, back room</bdi>, Thu 18:00 to Thu 19:00" \
    "✗ CLASH of 6 and 7, 18:00 to 19:00" "✗ no. 7 begins 1 h too early"
"$BOARD" sheet tests/mischief.board tests/mischief.values >"$work/week/sheets/mischief.html" 2>"$work/said" && fail "mischief has no clash"
says "$work/week/sheets/mischief.html" "&lt;script&gt;parent.broken = true&lt;/script&gt;" "[U+202E]"
if grep -liE '<(script|img|iframe|link|base)|https?:|@import' "$work"/week/sheets/*.html; then fail "a sheet has what no sheet may have"; fi

# ---- in a browser
browser=""
for name in chromium chromium-browser google-chrome; do
    [ -n "$browser" ] || browser=$(command -v "$name" || true)
done
if [ -z "$browser" ]; then
    echo "sheets: $kept are as they are kept, $placed placements made anew; no chromium is here, so none was opened in a browser."
    exit 0
fi

browse() {
    timeout 60 "$browser" --headless --no-sandbox --disable-gpu --no-first-run --disable-dev-shm-usage \
        --user-data-dir="$work/profile" "$@" 2>>"$work/browser"
}

# On a phone: letters of 14 px or more, nothing wider than the screen, clashes where they belong, and no script ran.
cp tests/measure_sheets.html "$work/week/sheets/"
pages=$(cd "$work/week/sheets" && ls | grep -v measure | paste -sd ,)
browse --allow-file-access-from-files --dump-dom "file://$work/week/sheets/measure_sheets.html#$pages" >"$work/dom" || fail "$(tail -n 3 "$work/browser")"
grep -q "^all measured" "$work/dom" || fail "the browser measured nothing: $(tail -n 3 "$work/browser")"
measured=0
while IFS='|' read -r page least wide right texts clashes crossed foreign broken sections rest; do
    name=${page##*>} && name=${name// /}
    case "$least$texts$foreign$broken" in *" some "*" 0 "*" no "*) ;; *) fail "$name: $least|$texts|$foreign|$broken" ;; esac
    size=$(tr -dc '0-9.' <<<"$least") && awk -v size="$size" 'BEGIN { exit !(size >= 14) }' || fail "$name: letters of $size px:$rest"
    read -r _ width _ phone <<<"$wide" && [ "$width" -le "$phone" ] || fail "$name is wider than a phone:$wide"
    [ "${right//[^0-9]/}" -le "$phone" ] || fail "$name: $right of $phone"
    case $name in
    accident.both* | kilns.wrong* | mischief*) [ "$clashes$crossed" = " clashes 1  crossed yes " ] || fail "$name:$clashes|$crossed" ;;
    *) [ "$clashes$crossed" = " clashes 0  crossed no " ] || fail "$name:$clashes|$crossed" ;;
    esac
    [ "${sections//[^0-9]/}" -ge 2 ] || fail "$name: no page of a machine"
    measured=$((measured + 1))
done < <(grep ' px | wide ' "$work/dom")
[ "$measured" = "$(ls "$work"/week/sheets | grep -cv measure)" ] || fail "only $measured sheets were measured"

# On paper: a page for each machine after the first, which may go over to a second where much is wrong.
printed=""
for name in accident.both kilns.wrong mischief; do
    browse --no-pdf-header-footer --print-to-pdf="$work/page.pdf" "file://$work/week/sheets/$name.html" >/dev/null || fail "$(tail -n 3 "$work/browser")"
    count=$(grep -ac '/Type */Page$' "$work/page.pdf" || true)
    sections=$(grep -c '^<section' "$work/week/sheets/$name.html")
    [ "$count" -ge "$sections" ] && [ "$count" -le $((sections + 1)) ] || fail "$name is printed on $count pages, and has $sections parts"
    printed="$printed $name $count"
    if command -v pdftohtml >/dev/null; then
        least=$(pdftohtml -xml -i -zoom 1 -stdout "$work/page.pdf" | sed -n 's/.*<fontspec.* size="\([0-9]*\)".*/\1/p' | sort -n | head -n 1)
        [ "${least:-0}" -ge 9 ] || fail "$name is printed in letters of $least pt"
    fi
done
echo "sheets: $kept are as they are kept, $placed placements made anew, $measured measured in a browser; pages printed:$printed."
