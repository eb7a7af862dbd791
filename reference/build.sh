#!/bin/sh
# Puts the original Rust together, unchanged, and builds the programs of this folder.
#   [CAPI_DIR=FOLDER] ./build.sh RUST_FOLDER [REGISTRY]
# RUST_FOLDER: a checkout of jlogan03/interpn at 26574eb562 (src/lib.rs and so on),
#   or a folder of the flat files src--src--lib.rs.txt and so on.
# REGISTRY: the folder of crate sources with num-traits, crunchy and autocfg;
#   else where Debian puts them (apt-get install -y librust-num-traits-dev librust-crunchy-dev).
# CAPI_DIR: the folder that holds libcapi.a and libcapi_f32.a. Without it only `corpus` is built.
# Results: target/release (as measured) and target/checked (whole-number overflow panics).
set -eu
here=$(cd "$(dirname "$0")" && pwd)
[ $# -ge 1 ] || { sed -n '2,9s/^# \{0,1\}//p' "$0" >&2; exit 2; }
rust=$1
registry=${2:-$(dpkg -L librust-crunchy-dev 2>/dev/null | sed -n 's|/crunchy-[0-9.]*$||p' | grep /registry | head -n 1)}
[ -n "$registry" ] || { echo "build.sh: no crate sources; see the head of this script" >&2; exit 2; }

# original NAME: the path of one original, in either layout.
original() {
    flat="$rust/src--src--$(echo "$1" | sed 's|/|--|g').txt"
    for f in "$rust/src/$1" "$flat"; do
        if [ -f "$f" ]; then echo "$f"; return; fi
    done
    echo "build.sh: no $1 under $rust" >&2
    exit 2
}

out="$here/target/assembled"
mkdir -p "$out/multicubic"
# put NAME [TAIL]: the original, then our tail; left alone where nothing changed, so that cargo rests.
put() {
    f=$(original "$1")
    if ! grep -q "^$(sha256sum < "$f" | cut -d' ' -f1)  $1\$" "$here/originals.sha256"; then
        echo "build.sh: $f is not the file that this folder was made for (originals.sha256)" >&2
        exit 1
    fi
    { cat "$f"; [ -z "${2:-}" ] || cat "$here/tails/$2"; } > "$out/$1.new"
    if cmp -s "$out/$1.new" "$out/$1"; then rm "$out/$1.new"; else mv "$out/$1.new" "$out/$1"; fi
    # The original's bytes must stand unchanged at the head of the assembled file.
    if ! head -c "$(wc -c < "$f")" "$out/$1" | cmp -s - "$f"; then
        echo "build.sh: $out/$1 does not begin with $f" >&2
        exit 1
    fi
}
put lib.rs lib.tail.rs
put interp_math.rs
put multicubic/mod.rs
put multicubic/regular.rs regular.tail.rs
put multicubic/rectilinear.rs rectilinear.tail.rs

cd "$here"
programs="--bin corpus"
if [ -n "${CAPI_DIR:-}" ]; then
    CAPI_DIR=$(cd "$CAPI_DIR" && pwd)
    export CAPI_DIR
    for archive in libcapi.a libcapi_f32.a; do
        [ -f "$CAPI_DIR/$archive" ] || { echo "build.sh: no $archive in $CAPI_DIR" >&2; exit 2; }
    done
    programs="$programs --bin compare --bin bench"
fi
# RUSTFLAGS is emptied: the plain baseline of the target, no target-cpu=native.
for profile in release checked; do
    # shellcheck disable=SC2086
    RUSTFLAGS= cargo build -j1 --offline --profile "$profile" $programs \
        --config 'source.crates-io.replace-with="debian"' \
        --config "source.debian.directory=\"$registry\""
done
