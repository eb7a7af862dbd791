#!/bin/sh
# Instructions per query of both sides, counted by callgrind. Needs target/release/bench (build.sh with CAPI_DIR).
#   ./instructions.sh [f32] [CASE...]       without a name: every case of `bench list`
# A case is run twice, TIMES once and three times; the difference is two batches without the making of the table.
set -eu
here=$(cd "$(dirname "$0")" && pwd)
bench="$here/target/release/bench"
queries=2000
width=
if [ "${1:-}" = f32 ]; then width=f32; shift; fi
[ $# -gt 0 ] || set -- $("$bench" list)

# count SIDE CASE TIMES: instructions of the whole run.
count() {
    valgrind --tool=callgrind --callgrind-out-file=/dev/null "$bench" $width once "$1" "$2" "$3" "$queries" 2>&1 >/dev/null |
        sed -n 's/^==[0-9]*== Collected *: *\([0-9]*\).*/\1/p'
}
# per_query SIDE CASE
per_query() {
    three=$(count "$1" "$2" 3)
    one=$(count "$1" "$2" 1)
    echo "$three $one $queries" | awk '{ printf "%.1f", ($1 - $2) / (2 * $3) }'
}
printf '%-37s %10s %10s %10s\n' "instructions per query" Rust ours ours/Rust
for case in "$@"; do
    ours=$(per_query ours "$case")
    # Held is ours alone, and so are value and gradient of single queries.
    rust=- ratio=-
    case $case in *-held | *-apart | *-both) ;; *)
        rust=$(per_query rust "$case")
        ratio=$(echo "$ours $rust" | awk '{ printf "%.3f", $1 / $2 }') ;;
    esac
    printf '%-37s %10s %10s %10s\n' "$case" "$rust" "$ours" "$ratio"
done
