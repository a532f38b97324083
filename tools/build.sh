#!/usr/bin/env bash
# Proves and builds what C and Rust link, and the program.
#
#     tools/build.sh library        target/staticlib/libbasmuthar.a: the nine functions of include/basmuthar.h
#     tools/build.sh program        target/bin/dimacs: the program that the script `basmuthar` runs
#
# `rt` of the Rattle kit builds only what it has proved, over what earlier runs kept in crates/*/out; RT is another one. Both are for
# x86-64; LIBRARY_TARGET is another target of the kit's for the library, such as aarch64-unknown-linux-gnu.
set -euo pipefail
cd "$(dirname "${BASH_SOURCE[0]}")/.."
rt=${RT:-rt}

fail() {
    echo "tools/build.sh: $*" >&2
    exit 2
}

# Puts what rt left into target/ in one step, so that nobody meets half of it.
leave() {
    mkdir -p "${2%/*}"
    cp "$1" "$2.new"
    mv "$2.new" "$2"
}

# For every x86-64 processor, and not only for those of the kit's default.
build_library() {
    local words=(--cpu x86-64)
    [ -z "${LIBRARY_TARGET-}" ] || words=(--target "$LIBRARY_TARGET")
    (cd crates/basmuthar_c && "$rt" lib "${words[@]}" </dev/null)
    leave crates/basmuthar_c/out/libbasmuthar_c.a target/staticlib/libbasmuthar.a
}

# `rt run` runs the program too, here on no bytes, which are refused.
build_program() {
    local printed
    printed=$(cd crates/dimacs && "$rt" run </dev/null)
    [ "$printed" = "refused 2 0" ] || fail "the program prints '$printed' for no bytes"
    leave crates/dimacs/out/dimacs target/bin/dimacs
}

[ $# -gt 0 ] || fail "say what to build: library, program, or both"
command -v "$rt" >/dev/null || fail "there is no $rt, which the Rattle kit has"
for what in "$@"; do
    case $what in
    library | program) "build_$what" ;;
    *) fail "$what is neither library nor program" ;;
    esac
done
