#!/bin/sh
# usage: second/build.sh path/to/libpimlasut.a
#
# Builds target/second/second with the proved archive in it. The archive holds
# x86-64 code, so the program is for x86-64 on every machine; second/run runs
# it, under an emulator where one is needed.
#
# SECOND_OUT   another folder than target/second
# RUSTC        another compiler than the rustc of the PATH
set -eu

if [ $# -ne 1 ] || [ ! -f "$1" ]; then
    echo "usage: second/build.sh path/to/libpimlasut.a" >&2
    exit 2
fi

here=$(cd "$(dirname "$0")" && pwd)
out=${SECOND_OUT:-$here/../target/second}
mkdir -p "$out/lib"
out=$(cd "$out" && pwd)
target=x86_64-unknown-linux-gnu

# The linker finds the archive by this name, whatever it is called.
cp "$1" "$out/lib/libpimlasut.a"

say() { echo "second/build.sh: $*"; }

# Installs Debian packages with apt-get.
install_packages() {
    say "installing with apt-get: $*"
    if [ "$(id -u)" = 0 ]; then
        apt-get update -q
        DEBIAN_FRONTEND=noninteractive apt-get install -y -q --no-install-recommends "$@"
    else
        sudo apt-get update -q
        sudo DEBIAN_FRONTEND=noninteractive apt-get install -y -q --no-install-recommends "$@"
    fi
}

# compile COMPILER... : runs it on the program.
compile() {
    # relocation-model=static links whether or not the archive's code is
    # position-independent.
    "$@" --edition 2021 --crate-name second --crate-type bin \
        -C opt-level=3 -C panic=abort -C relocation-model=static \
        -L "native=$out/lib" -l static=pimlasut \
        "$here/src/main.rs" -o "$out/second"
}

case $(uname -m) in
x86_64 | amd64)
    compile "${RUSTC:-rustc}"
    say "built $out/second"
    exit 0
    ;;
esac

# From here on: another machine, a cross build.

# Whether the compiler has the standard library for x86-64.
has_target() {
    libdir=$("$@" --print target-libdir --target $target 2>/dev/null) || return 1
    ls "$libdir"/libstd-*.rlib >/dev/null 2>&1
}

# Debian's rustc for this machine and its standard library for x86-64, unpacked
# into $out/rust. Nothing is installed: neither the packages nor the foreign
# architecture become known to dpkg, and a rustup toolchain is not touched.
own_rustc() {
    env LD_LIBRARY_PATH="$out/rust/usr/lib/$multiarch" \
        "$out/rust/usr/bin/rustc" --sysroot "$out/rust/usr" "$@"
}
unpack_rust() {
    arch=$(dpkg --print-architecture)
    apt=$out/apt
    rm -rf "$out/rust" "$apt"
    mkdir -p "$apt/lists/partial" "$apt/cache/archives/partial" "$apt/debs"
    options="-q -o Dir::State::Lists=$apt/lists -o Dir::Cache=$apt/cache \
        -o APT::Architectures::=amd64 -o Acquire::Languages=none -o Debug::NoLocking=1"
    say "fetching Debian's rustc ($arch) and libstd-rust-dev (amd64) into $out/rust"
    # $options is several words.
    apt-get $options update >"$apt/log" 2>&1 || { cat "$apt/log" >&2; return 1; }
    runtime=$(apt-cache $options show "libstd-rust-dev:$arch" |
        sed -n 's/^Depends:.*\(libstd-rust-[0-9.]*[0-9]\).*/\1/p' | head -n 1)
    (cd "$apt/debs" && apt-get $options download \
        "rustc:$arch" "$runtime:$arch" libstd-rust-dev:amd64) >>"$apt/log" 2>&1 ||
        { cat "$apt/log" >&2; return 1; }
    llvm=$(apt-cache $options show "$runtime:$arch" |
        sed -n 's/^Depends:.*\(libllvm[0-9.]*\).*/\1/p' | head -n 1)
    for deb in "$apt"/debs/*.deb; do
        dpkg-deb -x "$deb" "$out/rust"
    done
    rm -rf "$apt"
    # The one library that rustc needs and a machine may lack.
    if [ -n "$llvm" ] && ! dpkg -s "$llvm" >/dev/null 2>&1; then
        install_packages "$llvm"
    fi
}

multiarch=$(uname -m)-linux-gnu
if has_target "${RUSTC:-rustc}"; then
    compiler=${RUSTC:-rustc}
elif has_target /usr/bin/rustc; then
    compiler=/usr/bin/rustc
else
    has_target own_rustc || unpack_rust
    has_target own_rustc || {
        say "no rustc with the standard library for $target" >&2
        exit 1
    }
    compiler=own_rustc
fi

gcc=x86_64-linux-gnu-gcc
command -v $gcc >/dev/null ||
    install_packages gcc-x86-64-linux-gnu libc6-dev-amd64-cross

# Debian's libm.a for cross builds is a linker script with the paths of
# a native x86-64 system; the library itself stands beside it.
for libm in "$(dirname "$($gcc -print-file-name=libm.a)")"/libm-*.a; do
    [ ! -f "$libm" ] || ln -sf "$libm" "$out/lib/libm.a"
done

# Static, so that the emulator needs no loader and no libraries.
compile $compiler --target $target -C linker=$gcc -C target-feature=+crt-static
say "built $out/second with $($compiler --version)"
