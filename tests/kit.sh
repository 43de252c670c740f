# Sourced by the tests and the benchmark that need the library outside the prover: where the kit is, the archive, and how C is compiled, linked and run.
# The kit, the archive and what is linked with it are x86-64 code.
# It expects `set -e` and the repository's root as the current folder.

command -v rt >/dev/null || { echo "the kit's command rt is not on the PATH" >&2; exit 1; }
kit=$(dirname "$(rt doc)")
toolchain=$kit/toolchain

# The archive: the one that GLOWENZO_ARCHIVE names, or else a new one. Sets archive.
find_archive() {
    archive=${GLOWENZO_ARCHIVE:-}
    if [ -z "$archive" ]; then
        (cd crates/host && rt lib)
        archive=crates/host/out/libhost.a
    fi
    [ -f "$archive" ] || { echo "there is no archive $archive" >&2; exit 1; }
}

# compile_c OBJECT SOURCE [WORDS..]: C for x86-64, with every warning an error. The kit has no C headers: tests/headers declares what is used.
compile_c() {
    local object=$1 source=$2
    shift 2
    "$toolchain/bin/clang" --target=x86_64-unknown-linux-gnu -std=c11 -O2 -fPIE -Wall -Wextra -Werror -nostdinc -isystem tests/headers -I include "$@" \
        -c "$source" -o "$object"
}

# link_c PROGRAM OBJECT..: with the archive and the kit's C library.
link_c() {
    local program=$1
    shift
    local said
    said=$("$kit/bin/rattle-link" --target x86_64-unknown-linux-gnu --toolchain "$toolchain" -o "$program" "$@" "$archive" 2>&1) || {
        echo "$said" >&2
        return 1
    }
}

# The words that run a linked program, which follows them: by the kit's C library.
launch=("$toolchain/lib/ld-linux-x86-64.so.2" --library-path "$toolchain/lib")

# need COMMAND PACKAGE..: by apt-get, if there is no such command; the first of the packages that can be had.
need() {
    local command=$1 package
    shift
    if command -v "$command" >/dev/null; then return; fi
    apt-get update -q >/dev/null || true
    for package in "$@"; do
        echo "$command is not here: installing $package by apt-get"
        if DEBIAN_FRONTEND=noninteractive apt-get install -y -q "$package" >/dev/null; then return; fi
    done
    echo "$command can't be installed" >&2
    exit 1
}

# Rust of 2021 with let-else. Debian 12 has it as rustc-web, later ones as rustc.
install_rust() {
    local probe works=yes
    need rustc rustc-web rustc
    # The probe's output is a file of its own: rustc replaces what its -o names, and /dev/null would not survive that.
    probe=$(mktemp -d)
    echo 'fn main() { let Some(_) = Some(1) else { return }; }' >"$probe/probe.rs"
    rustc --edition 2021 --emit=metadata --out-dir "$probe" "$probe/probe.rs" 2>"$probe/said" || works=no
    rm -r "$probe"
    [ "$works" = yes ] || { echo "rustc is here, but too old: $(rustc --version)" >&2; exit 1; }
}

# build_independent FOLDER: the independent implementation as a Rust library there.
build_independent() {
    rustc --edition 2021 -C opt-level=3 --crate-type rlib --crate-name independent --out-dir "$1" tests/independent/src/lib.rs
}
