#!/bin/sh
# One sum over the contents of all that the program is made of and proved by: the crates that it
# needs, with their definitions and proofs. Tests have no part in it.
cd "$(dirname "$0")/.." || exit 1
{
    echo crates.txt
    awk -f tools/needed.awk crates.txt | while read -r _ crate; do
        find "crates/$crate" \( -name out -o -name must-fail -o -path '*/src/tests' \) -prune -o \
            -type f ! -name tests.rt \( -name '*.rt' -o -name '*.antt' \) -print
    done | LC_ALL=C sort
} | xargs sha256sum | sha256sum | cut -d ' ' -f 1
