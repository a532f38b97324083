#!/usr/bin/env bash
# `make install` into an empty folder: what is there, programs compiled with what pkg-config tells and nothing else, the pages.
#
#     tests/install.sh        after `tools/build.sh library program`, whose files are installed as they are
set -euo pipefail
cd "$(dirname "$0")/.."
work=$(mktemp -d)
trap 'rm -rf "$work"' EXIT
tried=0

fail() {
    echo "tests/install.sh: $*" >&2
    exit 1
}

# What is missing is installed by its package's name, where that can be done.
find_program() {
    command -v "$1" >"$work/where" && return
    { apt-get update && apt-get install -y "$2"; } >"$work/apt" 2>&1 || true
    command -v "$1" >"$work/where" || { echo "$2 is missing and could not be installed: $3"; return 1; }
}

same() {
    [ "$1" = "$2" ] || fail "$3: '$1', not '$2'"
    tried=$((tried + 1))
}

# The files of a folder, each by its path within it.
files() {
    (cd "$1" && find . ! -type d | LC_ALL=C sort)
}

# The library and the program are those that were just proved, also where a source is younger.
make_quietly() {
    make -s -o target/staticlib/libbasmuthar.a -o target/bin/dimacs "$@"
}

# Compiles an example of the installed folder outside of the project: its name, and words for the compiler.
compile() {
    local name=$1
    shift
    (cd "$work" && cc -std=c99 -Wall -Wextra -Werror $(pkg-config --cflags basmuthar) "$prefix/share/doc/basmuthar/examples/$name.c" "$@" -o "$work/$name")
}

find_program make make "nothing was installed." || exit 0
for built in target/staticlib/libbasmuthar.a target/bin/dimacs; do
    [ -e "$built" ] || fail "there is no $built: tools/build.sh library program writes them"
done
prefix=$work/prefix
rm -f target/staticlib/libbasmuthar.so.* # made anew: with -o, make does not see that the library is younger
make_quietly install PREFIX="$prefix"
version=$("$prefix/bin/board" --version | cut -d ' ' -f 2)

# ---- every file, and no other
same "$(files "$prefix" | grep -v '^./share/doc/')" "./bin/basmuthar
./bin/board
./include/basmuthar.h
./lib/libbasmuthar.a
./lib/libbasmuthar.so
./lib/libbasmuthar.so.${version%%.*}
./lib/libbasmuthar.so.$version
./lib/pkgconfig/basmuthar.pc
./libexec/basmuthar/dimacs
./share/man/man1/basmuthar.1
./share/man/man1/board.1" "the files installed"
cmp -s include/basmuthar.h "$prefix/include/basmuthar.h" || fail "the header is another"
! grep -rl '@[A-Z]*@' "$prefix/lib/pkgconfig" "$prefix/share/man" || fail "something was not filled in"
declared=$(sed -n 's/^void \(basmuthar_[a-z_]*\)(.*/\1/p' include/basmuthar.h | LC_ALL=C sort)
same "$(nm -D --defined-only "$prefix/lib/libbasmuthar.so" | awk '{ print $3 }' | LC_ALL=C sort)" "$declared" "what the shared library shows"

# ---- the programs, without the project and its tools
cp boards/one_hour.record boards/pottery_week.record boards/closing_hour.record examples/small.board "$work"
installed() { (cd "$work" && env -i PATH=/usr/bin:/bin LD_LIBRARY_PATH="$prefix/lib" ${QEMU_LD_PREFIX:+"QEMU_LD_PREFIX=$QEMU_LD_PREFIX"} "$@"); }
same "$(installed "$prefix/bin/basmuthar" one_hour.record)" "$(target/bin/dimacs <boards/one_hour.record)" "basmuthar one_hour.record"
same "$(installed "$prefix/bin/basmuthar" pottery_week.record || echo "status $?")" "refused 10 502034
status 1" "basmuthar pottery_week.record"
same "$(installed "$prefix/bin/board" cnf small.board | head -n 1)" "p cnf 11 17" "board cnf small.board"

# ---- what pkg-config tells is all that a compiler needs, for the shared library and for the static one
if find_program pkg-config pkgconf "nothing was compiled with what it tells."; then
    export PKG_CONFIG_PATH=$prefix/lib/pkgconfig
    same "$(pkg-config --modversion basmuthar)" "$version" "the version by pkg-config"
    compile clauses $(pkg-config --libs basmuthar)
    readelf -d "$work/clauses" | grep -q "NEEDED.*\[libbasmuthar.so.${version%%.*}\]" || fail "clauses does not use the shared library"
    listed="2 SAT variables, 3 clauses: -1 0 2 0 -1 2 0"
    same "$(installed ./clauses <boards/one_hour.record)" "$listed" "clauses, shared"
    compile clauses "$(pkg-config --variable=libdir basmuthar)/libbasmuthar.a"
    same "$(cd "$work" && ./clauses <one_hour.record)" "$listed" "clauses, static"
    same "$(installed ./clauses <boards/pottery_week.record | cut -d : -f 1)" "7984 SAT variables, 128008 clauses" "clauses of a real week"
    if compile round_trip $(pkg-config --libs basmuthar) -lcadical -lstdc++ -lm 2>"$work/trouble"; then
        installed ./round_trip closing_hour.record 8 >"$work/printed"
        same "$(grep -c '^# x8 at most' "$work/printed")" 7 "round_trip, the questions"
        same "$(grep '^x8' "$work/printed")" "x8 = -33" "round_trip, the closing hour"
    else
        echo 'int main(void) { return 0; }' | cc -x c - -o "$work/links" -lcadical 2>"$work/apt" && fail "round_trip: $(cat "$work/trouble")"
        echo "libcadical-dev is missing: the round trip was not compiled with what pkg-config tells (tests/round_trip.sh tries to install it)."
    fi
fi

# ---- the pages: clean, and the commands and statuses are those of board --help
if find_program man man-db "the pages were not formatted."; then
    for page in "$prefix"/share/man/man1/*.1; do
        LC_ALL=C.UTF-8 MANWIDTH=100 man --warnings=w -l "$page" >"$work/page" 2>"$work/trouble"
        [ ! -s "$work/trouble" ] || fail "$page: $(cat "$work/trouble")"
        [ "$(wc -l <"$work/page")" -gt 20 ] || fail "$page is nearly empty"
        tried=$((tried + 1))
    done
    named() { grep -oE '^ *board [a-z]+ [^a-z]' | awk '{ print $2 }' | LC_ALL=C sort -u; }
    same "$(sed -n '/^SYNOPSIS/,/^DESCRIPTION/p' "$work/page" | named)" "$("$prefix/bin/board" --help | named)" "the commands of board.1"
    same "$(sed -n '/^COMMANDS/,/^THE SOLVER/s/^ \{7\}\([a-z]\{1,\}\)\( .*\|$\)/\1/p' "$work/page" | LC_ALL=C sort)" \
        "$("$prefix/bin/board" --help | named)" "the commands that board.1 explains"
    grep -q "Basmuthar $version" "$work/page" || fail "board.1 does not name the version"
fi

# ---- DESTDIR: the same files, and no path of that folder in them
make_quietly install PREFIX=/usr DESTDIR="$work/root"
same "$(files "$work/root/usr")" "$(files "$prefix")" "the files below DESTDIR"
same "$(grep -rl "$work" "$work/root/usr/lib/pkgconfig" "$work/root/usr/share" "$work/root/usr/bin/basmuthar" || true)" "" "files that name DESTDIR"
same "$(sed -n 's/^prefix=//p' "$work/root/usr/lib/pkgconfig/basmuthar.pc")" /usr "the prefix below DESTDIR"

# ---- and away again; a path with a blank would remove something else
make_quietly uninstall PREFIX="$prefix"
same "$(files "$prefix")" "" "what uninstall leaves"
! make_quietly install PREFIX="$work/a b" 2>"$work/trouble" || fail "a path with a blank is taken"
grep -q "without blanks" "$work/trouble" || fail "a path with a blank: $(cat "$work/trouble")"

echo "install: $tried things are as they have to be, below PREFIX and below DESTDIR."
