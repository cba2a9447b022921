#!/bin/sh
# Proves the crates that the program needs, lowest first and as many side by side as there are
# processors, and builds it. Says on standard error how far it is.
cd "$(dirname "$0")/.." || exit 1
if ! command -v rt >/dev/null; then
    echo 'mtune: it has to be built here, and the toolchain (rt) is missing' >&2
    exit 1
fi
room=$(mktemp -d) || exit 1
trap 'rm -rf "$room"' EXIT
trap 'exit 1' HUP INT TERM
processors=$(getconf _NPROCESSORS_ONLN 2>/dev/null || echo 2)
awk -f tools/needed.awk crates.txt | while read -r level crate; do
    echo "$level $crate $(find "crates/$crate" -name out -prune -o \( -name '*.rt' -o -name '*.antt' \) -exec cat {} + | wc -l)"
done >"$room/crates"
all=$(($(wc -l <"$room/crates")))
began=$(date +%s)
: >"$room/done"
echo "mtune: proving and building $all crates, once; this takes some minutes" >&2

# How far it is; the time left is reckoned from the lines that are left.
tell() {
    awk -v all="$all" -v took="$(($(date +%s) - began))" '
        NR == FNR { lines[$2] = $3; total += $3; next } { done += lines[$1]; count++; last = $1 }
        END {
            left = done ? took * (total - done) / done / 60 : 0
            printf "mtune: %d of %d done (%s)%s\n", count, all, last, count < all ? sprintf(", about %d min left", left + 1) : ""
        }' "$room/crates" "$room/done" >&2
}

# shellcheck disable=SC2016 # the inner shell has these names
prove='cd "crates/$2" && rt lib >"$1/$2.log" 2>&1 && echo "$2"'
levels=$(cut -d ' ' -f 1 "$room/crates" | sort -nu)
for level in $levels; do
    crates=$(grep "^$level " "$room/crates" | cut -d ' ' -f 2 | grep -vx mtune)
    printf '%s\n' "$crates" | grep . |
        xargs -P "$processors" -I '{}' sh -c "$prove" sh "$room" '{}' |
        while read -r crate; do
            echo "$crate" >>"$room/done"
            tell
        done
    for crate in $crates; do
        grep -qx "$crate" "$room/done" || { tail -n 20 "$room/$crate.log"; echo "mtune: $crate isn't proved"; exit 1; } >&2
    done
done
# What is built is run here once without words, and refuses them.
(cd crates/mtune && rt run --) >"$room/mtune.log" 2>&1
if [ ! -x crates/mtune/out/mtune ]; then
    tail -n 20 "$room/mtune.log" >&2
    echo 'mtune: not built' >&2
    exit 1
fi
tools/sources.sh >crates/mtune/out/mtune.sources
echo mtune >>"$room/done"
tell
