#!/usr/bin/env bash
# Proves and builds what links and runs: target/staticlib/libremap.a, and planner, runner and converter in target/bin.
set -euo pipefail
cd "$(dirname "$0")/.."

# Every crate, four at a time; what follows finds it proved.
rt all check --jobs 4

mkdir -p target/staticlib target/bin
(cd crates/remap_c && rt lib)
cp crates/remap_c/out/libremap_c.a target/staticlib/libremap.a
for program in planner runner converter; do
  # A run builds the program. It is given no input, and what it prints is of no use here.
  (cd "crates/$program" && rt run </dev/null >/dev/null 2>&1)
  cp "crates/$program/out/$program" target/bin/
done
