#!/usr/bin/env bash
# Times the lexer by the byte, and the raw crates that the program doesn't use yet against a plain `Vec`, and prints the figures.
# Machines differ and are noisy, so compare figures within one run. It is no test: nothing fails on a figure.
set -u
cd -- "$(dirname -- "${BASH_SOURCE[0]}")/../crates/mn_bench" || exit 1

# This proves and builds; the run that it ends with only tells the words.
rt run >/dev/null || exit 1

for round in 1 2 3; do
  printf 'round %s\n' "$round"
  out/mn_bench texts || exit 1
  out/mn_bench raw || exit 1
done
