#!/bin/sh
# Proves and builds the static library, then builds and runs the C example and the Rust example against it, and holds
# what they print to c/expected and rust/expected. Needs rt, a C compiler and cargo.
set -eu
cd "$(dirname "$0")"
root=$(cd .. && pwd -P)
kit=$(dirname "$(rt doc)")
out=$root/target/bindings
mkdir -p "$out"

(cd "$root/crates/mubdrax_c" && rt lib >"$out/staticlib.log" 2>&1) || { tail -n 20 "$out/staticlib.log"; exit 1; }
tail -n 1 "$out/staticlib.log"

# The library calls malloc and free through the toolchain's own C code, so that is linked too.
${CC:-cc} -std=c11 -Wall -Wextra -Werror -O2 -o "$out/example" c/example.c "$root/crates/mubdrax_c/out/libmubdrax_c.a" "$kit/c/liblibc_c.a"
"$out/example" >"$out/c.out"
diff c/expected "$out/c.out"
echo "the C example prints what c/expected has"

RATTLE_HOME=$kit CARGO_TARGET_DIR=$out/cargo cargo run --quiet --release --manifest-path rust/Cargo.toml --example one_survey >"$out/rust.out"
diff rust/expected "$out/rust.out"
echo "the Rust example prints what rust/expected has"
