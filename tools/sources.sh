#!/usr/bin/env bash
# Prints one checksum of all sources of the crates: whoever built the program keeps it beside the program, so that `run` knows
# whether it was built from these very sources.
export LC_ALL=C
cd "$(dirname "${BASH_SOURCE[0]}")/.." || exit 1
find crates.txt crates -name out -prune -o -type f \( -name '*.rt' -o -name '*.antt' -o -name crates.txt \) -print0 |
    sort -z | xargs -0 sha256sum | sha256sum | cut -d ' ' -f 1
