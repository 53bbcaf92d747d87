#!/bin/sh
# run.sh SRC [INPUTS WITNESSES TERMS ROWS PLACES] < LINES
#
# Runs tapes through the Rust crate ark-r1cs-std 0.5.0. SRC is the folder of its published source, that with lib.rs. LINES are
# lines `PRIME MODE HEX`, with the mode `values` or `setup`, as in
#   echo '101 values 010201010200' | beside/run.sh PATH/TO/ark-r1cs-std-0.5.0/src
# For each it prints the line, what came of the run, and `---`; see driver/src/main.rs. The first call compiles the crate, in
# half a minute. It needs cargo, and no network.
#
# The files below are run as they are published. All others of the crate are replaced by those in crate/missing, and the
# libraries that it uses by those in stand-ins: commands on bits and numbers want little of them.
set -eu
here=$(cd "$(dirname "$0")" && pwd)
source=${1:?the folder of the published source}
shift

published='lib.rs alloc.rs convert.rs eq.rs r1cs_var.rs select.rs
boolean/mod.rs boolean/allocated.rs boolean/and.rs boolean/cmp.rs boolean/eq.rs boolean/not.rs boolean/or.rs boolean/select.rs
boolean/xor.rs fields/mod.rs fields/fp/mod.rs fields/fp/cmp.rs'

laid=$here/target/source
mkdir -p "$laid/boolean" "$laid/fields/fp"
# Copies that are no newer than what cargo has seen are not compiled again.
for file in $published; do
    cmp -s "$source/$file" "$laid/$file" || cp "$source/$file" "$laid/$file"
done
(cd "$here/crate/missing" && find . -name '*.rs') | while read -r file; do
    cmp -s "$here/crate/missing/$file" "$laid/$file" || cp "$here/crate/missing/$file" "$laid/$file"
done

(cd "$here" && cargo build --quiet --offline) >&2
exec "$here/target/debug/driver" "$@"
