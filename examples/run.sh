#!/bin/sh
# Links C and Rust programs with the archives of the calls for C, and runs all. The archives are those beside the library of ./veltzuma, which
# builds both where they are not built yet. Needs rt, python3, gcc and rustc.
set -eu
cd "$(dirname "$0")/.."
# By itself, so that its status counts.
library=$(VELTZUMA_LIBRARY='' ./veltzuma build)
archives=$(dirname "$library")
programs=build/examples
mkdir -p "$programs"
gcc -std=c11 -Wall -Wextra -Werror -O2 -o "$programs/read_c" examples/read.c "$archives/libcapi.a"
gcc -std=c11 -Wall -Wextra -Werror -O2 -o "$programs/widths" examples/widths.c "$archives/libcapi.a" "$archives/libcapi_f32.a"
rustc --edition 2024 -O -L "$archives" -o "$programs/read_rust" examples/read.rs
"$programs/read_c"
"$programs/read_rust"
"$programs/widths"
