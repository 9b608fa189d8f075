# Read by the scripts that build and run what stands outside Rattle. Sets where things are; each can be given beforehand, but the
# gate (.ci/run, .ci/host) tests the archive that it makes itself.
#   TULONKASA_ARCHIVE        the archive                    (target/staticlib/libtulonkasa.a; see host/README.md for another processor)
#   TULONKASA_SHARED         the shared library made of it  (beside it, libtulonkasa.so)
#   TULONKASA_ORACLE_SOURCE  the original Rust's directory  (shared/docs/src beside the repository)
root=$(cd "$(dirname "${BASH_SOURCE[0]}")/.." && pwd)
machine=$(uname -m)
if [ "$machine" = x86_64 ]; then
    TULONKASA_ARCHIVE=${TULONKASA_ARCHIVE:-$root/target/staticlib/libtulonkasa.a}
else
    TULONKASA_ARCHIVE=${TULONKASA_ARCHIVE:-$root/target/staticlib/$machine/libtulonkasa.a}
fi
TULONKASA_ARCHIVE=$(realpath -m "$TULONKASA_ARCHIVE")
TULONKASA_SHARED=$(realpath -m "${TULONKASA_SHARED:-${TULONKASA_ARCHIVE%.a}.so}")
TULONKASA_ORACLE_SOURCE=$(realpath -m "${TULONKASA_ORACLE_SOURCE:-$root/../shared/docs/src}")
CARGO_TARGET_DIR=${CARGO_TARGET_DIR:-$root/target/cargo}
CARGO_NET_OFFLINE=true
export TULONKASA_ARCHIVE TULONKASA_SHARED TULONKASA_ORACLE_SOURCE CARGO_TARGET_DIR CARGO_NET_OFFLINE

# need_rt NAME: ends the script, which people know by that name, where the toolchain is missing.
need_rt() {
    if ! command -v rt >/dev/null 2>&1; then
        echo "$1: the command rt of the Rattle toolchain is not on the PATH; README.md names the kit to install." >&2
        exit 2
    fi
}

# need_archive: ends the script where the archive is missing.
need_archive() {
    if [ ! -f "$TULONKASA_ARCHIVE" ]; then
        echo "$TULONKASA_ARCHIVE is missing: make it with host/archive, or name it by TULONKASA_ARCHIVE." >&2
        exit 2
    fi
}

# need_shared: ends the script where the shared library is missing.
need_shared() {
    if [ ! -f "$TULONKASA_SHARED" ]; then
        echo "$TULONKASA_SHARED is missing: make it with host/archive, or name it by TULONKASA_SHARED." >&2
        exit 2
    fi
}

# is_made PROGRAM RT: the program was made by that toolchain, of the sources as they are.
is_made() {
    [ -x "$1" ] && [ "$(cat "$1.by" 2>/dev/null)" = "$2" ] &&
        [ -z "$(find "$root/crates.txt" "$root"/crates/*/{src,specs,proofs} -newer "$1" -print -quit)" ]
}

# make_program NAME: proves a program of crates/ and compiles it, where that was not done yet: $root/target/bin/NAME. The toolchain compiles
# a program only to run it, so it is run here, on nothing. Where it is not proved, what the toolchain says is shown.
make_program() {
    local folder=$root/crates/$1 to=$root/target/bin/$1 by said
    by=$(readlink -f "$(command -v rt)")
    if is_made "$to" "$by"; then return; fi
    said=$(cd "$folder" && rt run </dev/null 2>&1) || true
    if ! grep -q "^rt: running out/$1;" <<<"$said"; then
        printf '%s\n' "$said" >&2
        return 1
    fi
    mkdir -p "$root/target/bin"
    cp "$folder/out/$1" "$to.new" && mv "$to.new" "$to"
    printf '%s\n' "$by" >"$to.by"
}

# version: that of the header, MAJOR.MINOR.PATCH.
version() {
    sed -n 's/^#define TK_VERSION_\(MAJOR\|MINOR\|PATCH\) //p' "$root/include/tulonkasa.h" | paste -sd .
}

# make_shared ARCHIVE SHARED: links the whole archive as a shared library. Its code does not depend on where it is loaded, and of its
# names only the exports are global, so that the library shows those and nothing else. Programs look for it by the major version.
make_shared() {
    local name
    name=$(basename "$2").$(version | cut -d . -f 1)
    gcc -shared -o "$2" -Wl,-soname,"$name" -Wl,-z,defs,-z,now -Wl,--whole-archive "$1" -Wl,--no-whole-archive
}

# has_original: whether the original's source is there.
has_original() {
    [ -f "$TULONKASA_ORACLE_SOURCE/ultragfx/src/hle/tmem.rs" ]
}

# need_original: ends the script where the original's source is missing.
need_original() {
    if ! has_original; then
        echo "$TULONKASA_ORACLE_SOURCE is missing: name the original's source by TULONKASA_ORACLE_SOURCE." >&2
        exit 2
    fi
}
