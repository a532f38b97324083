#!/usr/bin/env bash
# The comparison run: drawn boards, damaged records, and texts and replies damaged at every byte, through the proved
# library and the second program.
#
#     tests/compare.sh SEED COUNT
#
# libbasmuthar.a is taken from BASMUTHAR_LIB_DIR, or else from target/staticlib (`tools/build.sh library`).
set -euo pipefail
cd "$(dirname "$0")/../second"
export BASMUTHAR_LIB_DIR=${BASMUTHAR_LIB_DIR:-$PWD/../target/staticlib}
cargo build --quiet --release --features compare
target/release/compare "$@"
