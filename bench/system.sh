#!/usr/bin/env bash
# bench/system.sh   times the system that keeps values: crates/system_bench against bench/system.rs, the same steps on vectors in Rust. It builds both (rt and
# rustc must be on the path), runs them in turn, seven times over, and prints the least times as ratios: how the two compare, and what a call takes in a
# system of 2,500, 5,000 and 10,000 steps, against the first. Each run makes as many calls. It is no part of the gate.
set -eu
cd "$(dirname "$0")/.."
work=$(mktemp -d)
trap 'rm -rf "$work"' EXIT

(cd crates/system_bench && rt run -- 10 1) >"$work/log" 2>&1 || { cat "$work/log" >&2; exit 1; }
cp crates/system_bench/out/system_bench "$work/rattle"
rustc --edition 2021 -C opt-level=3 -C target-cpu=x86-64-v2 -o "$work/rust" bench/system.rs

. bench/timing.sh

for _ in 1 2 3 4 5 6 7; do
    for steps in 2500 5000 10000; do
        for program in rattle rust; do once "$steps" "$program" "$steps" $((10000000 / steps)); done
    done
done

for steps in 2500 5000 10000; do
    echo "$steps steps: Rattle takes $(ratio "${least[rattle $steps]}" "${least[rust $steps]}") times as long as Rust; a call takes $(ratio "${least[rattle $steps]}" "${least[rattle 2500]}") times as long as in 2500 steps"
done
