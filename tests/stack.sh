#!/usr/bin/env bash
# The stack that a call takes is within what docs/LIMITS.md says: 16 KiB on every record of boards/, 64 KiB for Read reply.
#
#     tests/stack.sh
#
# libbasmuthar.a is taken from BASMUTHAR_LIB_DIR, or else from target/staticlib.
set -euo pipefail
cd "$(dirname "$0")/.."

work=$(mktemp -d)
trap 'rm -rf "$work"' EXIT
cc -O1 -Wall -Wextra -Werror -Iinclude tests/stack.c "${BASMUTHAR_LIB_DIR:-target/staticlib}/libbasmuthar.a" -o "$work/stack"
"$work/stack" boards/*.record boards/refused/*.record || { echo "tests/stack.sh: more stack than docs/LIMITS.md says, or nothing was read" >&2; exit 1; }
grep -q "less than 16 KiB of stack, Read reply less than 64 KiB" docs/LIMITS.md || { echo "tests/stack.sh: docs/LIMITS.md names another limit" >&2; exit 1; }
