#!/bin/sh
# Builds the proved library and this program; compares both implementations and times them.
# run.sh: all of it. run.sh WORDS..: the words go to the program, as 'compare 300', 'time 5' or 'feed proved grid 500'.
set -eu
cd "$(dirname "$0")"
root=$(cd .. && pwd -P)
kit=$(dirname "$(rt doc)")
log=$root/target/bench.log

mkdir -p "$root/target"
(cd "$root/crates/mubdrax_c" && rt lib >"$log" 2>&1) || { tail -n 20 "$log"; exit 1; }
export RATTLE_HOME="$kit" CARGO_TARGET_DIR="$root/target/bench"
cargo build --quiet --release
bench=$CARGO_TARGET_DIR/release/bench
if [ $# -gt 0 ]; then
    exec "$bench" "$@"
fi
"$bench" compare
"$bench" time
