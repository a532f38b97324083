# What the tests need where the processor is not x86-64, to be sourced in the project's folder before the proofs.
#
#     . tests/other-processor.sh
#
# The kit's programs are for x86-64 alone, and so is the program that it builds here: an emulator runs them. The library is made by
# the kit for this processor, for tests in C and Rust to link: tools/build.sh takes the target from LIBRARY_TARGET.
#
# Tried on an x86-64 machine: the library with LIBRARY_TARGET=aarch64-unknown-linux-gnu, tests/header.c and tests/stack.c linked with
# it, run by qemu-aarch64. Not tried with today's kit, which needs a machine with another processor: this script, and whether the
# kit's own programs run under the emulator; an older kit brought an emulator of its own.

case $(uname -m) in
aarch64) export LIBRARY_TARGET=aarch64-unknown-linux-gnu ;;
*) echo "tests/other-processor.sh: the kit builds for x86-64 and aarch64, and this is $(uname -m)" >&2 && exit 1 ;;
esac

# The emulator is registered with the kernel, so that a program for x86-64 is run by its name.
formats=/proc/sys/fs/binfmt_misc
emulates=/usr/lib/binfmt.d/qemu-x86_64.conf
export QEMU_LD_PREFIX=/usr/x86_64-linux-gnu
if [ ! -e "$emulates" ] || [ ! -e "$QEMU_LD_PREFIX/lib/libgcc_s.so.1" ]; then
    { apt-get update && apt-get install -y qemu-user-binfmt libc6-amd64-cross libgcc-s1-amd64-cross; } >/dev/null
fi
[ -e "$formats/register" ] || mount -t binfmt_misc none "$formats"
[ -e "$formats/qemu-x86_64" ] || cat "$emulates" >"$formats/register"
