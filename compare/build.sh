#!/bin/sh
# compare/build.sh SOURCES [--self]: builds the comparison under target/compare, with the library's functions that there are.
# SOURCES is the folder that holds silk/. With --self the reference stands in the library's place.
set -eu
[ $# -ge 1 ] || { sed -n '2,3s/^# //p' "$0" >&2; exit 2; }
SILK_SOURCES=$(cd "$1" && pwd)
top=$(cd "$(dirname "$0")/.." && pwd)
target=$top/target/compare
unset POST_LIBRARIES
if [ "${2:-}" = --self ]; then
    target=$target/self
else
    mkdir -p "$target"
    log=$target/staticlib.log
    for crate in post post_filters post_recording post_load; do
        echo "compare: tools/staticlib $crate proves and builds the library" >&2
        "$top/tools/staticlib" "$crate" >"$log" 2>&1 || { cat "$log" >&2; exit 1; }
        POST_LIBRARIES=${POST_LIBRARIES:+$POST_LIBRARIES:}$top/target/staticlib/lib$crate.a
    done
    export POST_LIBRARIES
fi
export SILK_SOURCES
cargo build --quiet --release --jobs 1 --manifest-path "$top/compare/Cargo.toml" --target-dir "$target" >&2
echo "$target/release/compare"
