#!/bin/sh
# Puts the program that the gate built into dist/, with the sum of what it is made of. With --check it
# changes nothing, and ends with status 1 where dist/ has another program or another sum.
cd "$(dirname "$0")/.." || exit 1
built=crates/mtune/out/mtune
[ -x $built ] || { echo "make_dist: there is no $built: run rt ci"; exit 1; }
kind=$(uname -m)-$(uname -s | tr '[:upper:]' '[:lower:]')
if [ "$1" = --check ]; then
    cmp $built "dist/mtune-$kind" && tools/sources.sh | cmp - "dist/mtune-$kind.sources" && exit 0
    echo 'make_dist: dist/ is not what the gate built from this tree: run tools/make_dist.sh and commit it'
    exit 1
fi
mkdir -p dist && cp $built "dist/mtune-$kind" && tools/sources.sh >"dist/mtune-$kind.sources"
