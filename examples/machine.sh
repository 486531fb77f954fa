# shellcheck shell=sh disable=SC2034 # its variables are for the scripts that source it
# To be sourced by scripts that build and run programs with the kernel's archive, which is for x86-64 Linux alone.
# It asks `uname -m` and sets
#   CC                  a C compiler for x86-64
#   RUSTC, RUSTC_FLAGS  rustc, and what to give it to build for x86-64
#   CARGO               cargo; it finds target, linker and runner in its environment
#   RUN                 what an x86-64 program is run with: nothing on x86-64 (unless RUN is set before), an emulator on Arm
# What is missing is installed with Debian's apt-get, which asks for root and the network; where nothing is missing, nothing is installed.

# Installs those of the named Debian packages that are not installed.
install_missing() {
    missing=
    for package in "$@"; do
        dpkg-query -W -f '${db:Status-Status}\n' "$package" 2>/dev/null | grep -qx installed || missing="$missing $package"
    done
    [ -n "$missing" ] || return 0
    # shellcheck disable=SC2086 # names of packages, one word each
    { apt-get -qq update && DEBIAN_FRONTEND=noninteractive apt-get -qq install --no-install-recommends $missing; } >&2
}

# Programs are built and run where they are, by whichever compilers are on the path.
on_x86_64() {
    command -v cc >/dev/null || install_missing gcc libc6-dev
    { command -v rustc && command -v cargo; } >/dev/null || install_missing rustc cargo
    CC=cc
    RUSTC=rustc
    RUSTC_FLAGS=
    CARGO=cargo
    RUN=${RUN:-}
}

# Debian's compilers build for the other machine, and its qemu runs that. They are named by their paths, since another rustc on the path
# would lack the libraries for x86-64. cargo builds build.rs for Arm, and all else for x86-64; Debian's cargo skips the doc tests then.
on_aarch64() {
    dpkg --print-foreign-architectures | grep -qx amd64 || dpkg --add-architecture amd64
    install_missing gcc libc6-dev rustc cargo libstd-rust-dev:amd64 gcc-x86-64-linux-gnu libc6-dev-amd64-cross \
        libc6:amd64 libc6-dev:amd64 libgcc-s1:amd64 qemu-user
    CC=x86_64-linux-gnu-gcc
    RUSTC=/usr/bin/rustc
    RUSTC_FLAGS="--target x86_64-unknown-linux-gnu -C linker=$CC"
    CARGO=/usr/bin/cargo
    RUN=qemu-x86_64
    export RUSTDOC=/usr/bin/rustdoc
    export CARGO_BUILD_TARGET=x86_64-unknown-linux-gnu CARGO_TARGET_X86_64_UNKNOWN_LINUX_GNU_LINKER="$CC"
}

case $(uname -m) in
x86_64) on_x86_64 ;;
aarch64) on_aarch64 ;;
*)
    echo "machine.sh: no way is known to run x86-64 programs on $(uname -m)" >&2
    exit 1
    ;;
esac
export RUSTC
[ -z "$RUN" ] || export CARGO_TARGET_X86_64_UNKNOWN_LINUX_GNU_RUNNER="$RUN"
