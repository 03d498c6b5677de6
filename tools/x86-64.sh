# To be sourced: how to build and run what links the archive, which is for x86-64. On any other machine
# tools/setup has installed cross compilers, Rust's standard library for x86-64 and an emulator.
# shellcheck shell=sh disable=SC2034
command -v cargo >/dev/null || PATH=$PATH:$HOME/.cargo/bin # where rustup puts it
if [ "$(uname -m)" = x86_64 ]; then
    x86_cc=cc
    x86_cxx=c++
    x86_binutils=
    # An emulator may be named here too, to see what the tests do on other machines.
    x86_run=${VESPRULDO_RUNNER-}
    x86_cargo() { env ${x86_run:+"CARGO_TARGET_X86_64_UNKNOWN_LINUX_GNU_RUNNER=$x86_run"} cargo "$@"; }
else
    x86_cc=x86_64-linux-gnu-gcc
    x86_cxx=x86_64-linux-gnu-g++
    x86_binutils=x86_64-linux-gnu-
    x86_run=qemu-x86_64
    # Debian's compiler, since its standard library for x86-64 is of the same release.
    x86_cargo() {
        RUSTC=/usr/bin/rustc RUSTDOC=/usr/bin/rustdoc \
            CARGO_BUILD_TARGET=x86_64-unknown-linux-gnu \
            CARGO_TARGET_X86_64_UNKNOWN_LINUX_GNU_LINKER=$x86_cc \
            CARGO_TARGET_X86_64_UNKNOWN_LINUX_GNU_RUNNER=$x86_run \
            cargo "$@"
    }
fi
