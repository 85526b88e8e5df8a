#!/usr/bin/env bash
# Puts the program in its place: tools/install.sh PROGRAM install [PREFIX], or tools/install.sh PROGRAM package.
# `./box install` and `./box package` build it first.
# What is installed needs neither this repository nor rt nor cargo.
set -euo pipefail
root=$(cd "$(dirname "$0")/.." && pwd)
program=$1 what=$2
shift 2

# The program by both its names, its man page, its completion and its licence.
install_into() {
    local prefix=$1
    mkdir -p "$prefix"/{bin,share/man/man1,share/bash-completion/completions,share/doc/tuppencehop}
    install -m 755 "$program" "$prefix/bin/tuppencehop"
    ln -sf tuppencehop "$prefix/bin/box"
    "$program" man >"$prefix/share/man/man1/tuppencehop.1"
    ln -sf tuppencehop.1 "$prefix/share/man/man1/box.1"
    "$program" completion >"$prefix/share/bash-completion/completions/tuppencehop"
    ln -sf tuppencehop "$prefix/share/bash-completion/completions/box"
    install -m 644 "$root/NOTICE" "$prefix/share/doc/tuppencehop/NOTICE"
}

install_box() {
    local prefix=${1:-$HOME/.local}
    install_into "$prefix"
    echo "Installed into $prefix: bin/box, its man page and its completion for bash."
    case :$PATH: in
    *:"$prefix/bin":*) ;;
    *) echo "Put $prefix/bin into your PATH to call it." ;;
    esac
}

# The version, which the program says.
version() {
    "$program" --version | sed -n '1s/^box \([^ ]*\) .*/\1/p'
}

# What other programs use: both libraries with their header, the plugin, the Python module, the house model, an example.
install_libraries_into() {
    local prefix=$1
    build bindings/shared shared
    build bindings/ladspa ladspa
    mkdir -p "$prefix"/{lib/pkgconfig,lib/ladspa,include,share/tuppencehop,share/doc/tuppencehop/examples}
    install -m 644 "$root/target/staticlib/libexport.a" "$prefix/lib/libtuppence.a"
    install -m 644 "$root/target/shared/release/libtuppence.so" "$prefix/lib/libtuppence.so.1"
    ln -sf libtuppence.so.1 "$prefix/lib/libtuppence.so"
    install -m 644 "$root/target/ladspa/release/libtuppence_ladspa.so" "$prefix/lib/ladspa/tuppence_ladspa.so"
    install -m 644 "$root/bindings/c/tuppence.h" "$prefix/include/tuppence.h"
    install -m 644 "$root/bindings/python/tuppence.py" "$root/host/model/house.rnn" "$prefix/share/tuppencehop"
    install -m 644 "$root/bindings/c/clean_a_second.c" "$prefix/share/doc/tuppencehop/examples"
    install -m 644 "$root/docs/EMBEDDING.md" "$root/docs/STORE.md" "$prefix/share/doc/tuppencehop"
    pkg_config >"$prefix/lib/pkgconfig/tuppence.pc"
}

# A cdylib, built as this repository has it.
build() {
    command -v cargo >/dev/null || PATH="$PATH:$HOME/.cargo/bin"
    cargo build --quiet --release --offline --locked --manifest-path "$root/$1/Cargo.toml" \
        --target-dir "$root/target/$2"
}

# For pkg-config: the folders are found from the place of this file, so that a package works wherever it is unpacked.
pkg_config() {
    cat <<END
prefix=\${pcfiledir}/../..
Name: tuppence
Description: The proved denoiser of Tuppencehop
Version: $(version)
Cflags: -I\${prefix}/include
Libs: -L\${prefix}/lib -ltuppence
END
}

package() {
    local name scratch
    name=tuppencehop-$(version)-$(uname -m)-$(uname -s | tr '[:upper:]' '[:lower:]')
    scratch=$(mktemp -d)
    trap 'rm -rf "$scratch"' EXIT
    install_into "$scratch/$name"
    install_libraries_into "$scratch/$name"
    install -m 644 "$root/NOTICE" "$scratch/$name/NOTICE"
    tar -czf "$scratch/$name.tar.gz" -C "$scratch" "$name"
    mv "$scratch/$name.tar.gz" "$root/target/$name.tar.gz"
    trap - EXIT
    rm -rf "$scratch"
    echo "$root/target/$name.tar.gz"
}

# A Debian package of the same, made by dpkg-deb.
package_deb() {
    local name scratch
    command -v dpkg-deb >/dev/null || { echo "box: dpkg-deb is missing, which makes a Debian package" >&2; exit 1; }
    name=tuppencehop_$(version)_$(dpkg --print-architecture)
    scratch=$(mktemp -d)
    trap 'rm -rf "$scratch"' EXIT
    install_into "$scratch/usr"
    install_libraries_into "$scratch/usr"
    gzip -9n "$scratch/usr/share/man/man1/tuppencehop.1"
    ln -sf tuppencehop.1.gz "$scratch/usr/share/man/man1/box.1.gz"
    rm "$scratch/usr/share/man/man1/box.1"
    mv "$scratch/usr/share/doc/tuppencehop/NOTICE" "$scratch/usr/share/doc/tuppencehop/copyright"
    mkdir "$scratch/DEBIAN"
    control >"$scratch/DEBIAN/control"
    printf 'activate-noawait ldconfig\n' >"$scratch/DEBIAN/triggers"
    dpkg-deb --root-owner-group --build "$scratch" "$root/target/$name.deb" >/dev/null
    trap - EXIT
    rm -rf "$scratch"
    echo "$root/target/$name.deb"
}

control() {
    cat <<END
Package: tuppencehop
Version: $(version)
Architecture: $(dpkg --print-architecture)
Maintainer: Tuppencehop <tuppencehop@localhost>
Depends: libc6
Section: sound
Priority: optional
Description: noise suppression for dictation at two microphones
 Cleans the voices of a left and a right bench, with a proof that they never mix,
 and seals each recording with its side. With libraries for C and Python, and a
 LADSPA plugin.
END
}

case $what in
install)
    [ $# -le 1 ] || { echo "box: install takes one PREFIX" >&2; exit 2; }
    case ${1:-} in -*) echo "box: install: unknown option $1; ./box install [PREFIX]" >&2; exit 2 ;; esac
    install_box "$@" ;;
package)
    case "$*" in
    '') package ;;
    --deb) package_deb ;;
    *) echo "box: package takes nothing but --deb" >&2; exit 2 ;;
    esac ;;
esac
