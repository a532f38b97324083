#!/usr/bin/env bash
# The header in C99 and C++11 with every warning an error, and a program in both that calls the nine functions.
#
#     tests/header.sh
#
# libbasmuthar.a is taken from BASMUTHAR_LIB_DIR, or else from target/staticlib.
set -euo pipefail
cd "$(dirname "$0")/.."

library=${BASMUTHAR_LIB_DIR:-target/staticlib}/libbasmuthar.a
work=$(mktemp -d)
trap 'rm -rf "$work"' EXIT

warnings=(-Wall -Wextra -Wconversion -Wshadow -pedantic -Werror)
cc -std=c99 "${warnings[@]}" -Iinclude -c tests/header.c -o "$work/c.o"
c++ -std=c++11 -x c++ "${warnings[@]}" -Iinclude -c tests/header.c -o "$work/cpp.o"
for language in c cpp; do
    c++ "$work/$language.o" "$library" -o "$work/$language"
    "$work/$language"
done
echo "The header is clean in C99 and C++11, and both programs get the answers it promises."
