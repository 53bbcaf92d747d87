#!/usr/bin/env bash
# bench/field.sh [COUNT]   times products modulo 2013265921: as plain remainders and in Montgomery's form, by crates/field_bench and by bench/field.rs,
# which is the same in Rust. It builds both (rt and rustc must be on the path), runs all in turn, seven times over, and prints the least time of each
# as a ratio. COUNT products are made in each run, a hundred million if it is not given. It is no part of the gate.
set -eu
cd "$(dirname "$0")/.."
count=${1:-100000000}
work=$(mktemp -d)
trap 'rm -rf "$work"' EXIT

(cd crates/field_bench && rt run -- plain chain 4) >"$work/log" 2>&1 || { cat "$work/log" >&2; exit 1; }
cp crates/field_bench/out/field_bench "$work/rattle"
rustc --edition 2021 -C opt-level=3 -C target-cpu=x86-64-v2 -o "$work/rust" bench/field.rs

. bench/timing.sh

for _ in 1 2 3 4 5 6 7; do
    for shape in chain lanes; do
        for way in plain montgomery; do
            for program in rattle rust; do once "$way $shape" "$program" "$way" "$shape" "$count"; done
        done
    done
done

for shape in chain lanes; do
    for program in rattle rust; do
        echo "$shape, $program: plain takes $(ratio "${least[$program plain $shape]}" "${least[$program montgomery $shape]}") times as long as Montgomery"
    done
    for way in plain montgomery; do
        echo "$shape, $way: Rattle takes $(ratio "${least[rattle $way $shape]}" "${least[rust $way $shape]}") times as long as Rust"
    done
done
