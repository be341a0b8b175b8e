# Sourced by the scripts that link the static library: finds, or on Debian fetches, what compiles and runs x86-64 programs.
# Nothing is skipped in silence: what can't be had ends the script with a message and status 77, what fails with status 1.
#   static_library              builds the archive
#   c_program OUT SOURCE..      compiles and links a C program
#   rust_program OUT SOURCE ..  the same for Rust, with more words for the compiler
#   run PROGRAM ARGUMENT..      runs it, under an emulator where the processor is another
ARCHIVES=crates/face/out
TARGET=x86_64-unknown-linux-gnu

fail() {
    echo "$0: $*" >&2
    exit 1
}

missing() {
    echo "$0: missing: $*" >&2
    exit 77
}

fetch() {
    [ "$(id -u)" = 0 ] && command -v apt-get > /dev/null || missing "$* (install them, or run as root on Debian)"
    echo "$0: fetching $*" >&2
    DEBIAN_FRONTEND=noninteractive apt-get install -y --no-install-recommends "$@" > /dev/null || missing "$* (could not be installed)"
}

# Debian's packages for x86-64 on another processor
fetch_amd64() {
    dpkg --add-architecture amd64 || missing "packages for amd64"
    apt-get update > /dev/null || missing "a list of packages"
    fetch "$@"
}

# the first rustc that has the standard library for x86-64
find_rustc() {
    for folder in $(echo "$PATH" | tr : ' '); do
        rustc=$folder/rustc
        if [ -x "$rustc" ] && ls "$("$rustc" --print sysroot)/lib/rustlib/$TARGET/lib"/libstd-*.rlib > /dev/null 2>&1; then
            RUSTC=$rustc
            return 0
        fi
    done
    return 1
}

if [ "$(uname -m)" = x86_64 ]; then
    GCC=gcc OBJCOPY=objcopy EMULATOR= STATIC= RUST_STATIC=
    command -v gcc > /dev/null || fetch gcc libc6-dev
    find_rustc || { fetch rustc && find_rustc; } || missing "a rustc for $TARGET"
else
    GCC=x86_64-linux-gnu-gcc OBJCOPY=x86_64-linux-gnu-objcopy EMULATOR=qemu-x86_64 STATIC=-static RUST_STATIC="-C linker=x86_64-linux-gnu-gcc -C target-feature=+crt-static"
    command -v "$GCC" > /dev/null || fetch_amd64 gcc-x86-64-linux-gnu libc6-dev-amd64-cross
    command -v "$EMULATOR" > /dev/null || fetch_amd64 qemu-user
    find_rustc || { fetch_amd64 rustc libstd-rust-dev:amd64 libc6-dev:amd64 && find_rustc; } || missing "a rustc for $TARGET"
fi

static_library() {
    mkdir -p target
    (cd crates/face && rt lib) > target/staticlib.log 2>&1 || { cat target/staticlib.log; fail "no static library"; }
}

c_program() {
    out=$1
    shift
    "$GCC" -std=c99 -Wall -Wextra -Werror -O2 $STATIC -Iinclude -o "$out" "$@" "$ARCHIVES/libface.a"
}

rust_program() {
    out=$1 source=$2
    shift 2
    "$RUSTC" -O --edition 2021 --target "$TARGET" $RUST_STATIC -L "$ARCHIVES" -l static=face "$@" -o "$out" "$source"
}

run() {
    $EMULATOR "$@"
}
