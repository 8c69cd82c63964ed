#!/bin/sh
# Builds the proved library and the plain one, checks that both give the same, and prints how their times compare.
# Needs rt, rustc and gcc. With the word `once` it makes each call once and prints nothing, to count instructions by.
set -e
cd "$(dirname "$0")/../.."
out=target/bench
mkdir -p $out
(cd crates/exports && rt lib) >$out/proved.log 2>&1 || { tail -n 20 $out/proved.log; exit 1; }
kit=$(dirname "$(rt doc)")
rustc --edition 2024 -C opt-level=3 --crate-type rlib --crate-name plain -o $out/libplain.rlib tools/bench/plain.rs
rustc --edition 2024 -C opt-level=3 --crate-name bench --extern plain=$out/libplain.rlib -o $out/bench \
    -C link-arg=crates/exports/out/libexports.a -C link-arg="$kit/c/libos_c.a" -C link-arg="$kit/c/liblibc_c.a" tools/bench/main.rs
exec $out/bench "$@"
