#!/bin/sh
# Tries the launcher in a copy of the tree, with the program that the gate built and with a toolchain
# that is played by a few lines of shell. Compares what is said, what is explained, and statuses.
top=$(cd "$(dirname "$0")/.." && pwd) || exit 1
program=${1:-$top/crates/mtune/out/mtune}
[ -x "$program" ] || { echo "launcher_test: there is no program $program"; exit 1; }
room=$(mktemp -d) || exit 1
trap 'rm -rf "$room"' EXIT
trap 'exit 1' HUP INT TERM

cases=0 failures=0
begin() { about=$* cases=$((cases + 1)); }
fail() { failures=$((failures + 1)); printf 'launcher_test: %s: %s\n' "$about" "$*"; }
skip() { printf 'launcher_test: left out: %s\n' "$*"; }

# A clone in a folder with a blank in its name, with dist/ made of the program.
copy=$room/a\ clone
mkdir "$copy" && cd "$top" || exit 1
find mtune crates.txt tools docs examples crates -name out -prune -o -type f -print |
    tar cf - -T - | (cd "$copy" && tar xf -) || exit 1
mkdir "$copy/crates/mtune/out" && cp "$program" "$copy/crates/mtune/out/mtune" || exit 1
"$copy/tools/make_dist.sh" && rm -r "$copy/crates/mtune/out" || exit 1

# The toolchain: it notes what it is asked for, and builds the program that there is, unless broken.
mkdir "$room/bin"
cat >"$room/bin/rt" <<END
#!/bin/sh
echo "\${PWD##*/} \$*" >>"$room/asked"
[ ! -e "$room/is_broken" ] || { echo 'no proof' ; exit 1; }
[ "\${PWD##*/}" != mtune ] || { mkdir -p out && cp "$program" out/mtune; }
END
chmod +x "$room/bin/rt"
PATH=$room/bin:$PATH
: >"$room/asked"

# Runs the launcher; keeps its status, what it said, and what it explained.
cd "$copy/examples" || exit 1
run() {
    "$copy/mtune" "$@" >"$room/said" 2>"$room/explained"
    status=$?
}
retune() { run --scale meantone.scl --a440 --route dump --out "$room/out.mid" "$1"; }
ends() {
    [ "$status" -eq "$1" ] || fail "status $status, and $1 is wanted"
    shift
    printf '%s\n' "$@" | cmp -s - "$room/said" || fail "it said: $(cat "$room/said")"
}
is_done() {
    [ "$status" -eq 0 ] || fail "status $status, and 0 is wanted"
    cmp -s "$room/said" "$room/report" || fail "it said: $(cat "$room/said")"
    cmp -s "$room/out.mid" "$room/wanted" || fail "another output"
    rm -f "$room/out.mid"
}
says_nothing_more() { [ ! -s "$room/explained" ] || fail "it wrote on standard error: $(cat "$room/explained")"; }
explains() { grep -qF -e "$1" "$room/explained" || fail "it doesn't explain: $1"; }
asks_nothing() { [ ! -s "$room/asked" ] || fail "it built: $(cat "$room/asked")"; : >"$room/asked"; }

# What the program itself does, without the launcher.
if ! "$program" --scale meantone.scl --a440 --route dump --out "$room/wanted" piece.mid >"$room/report"; then
    echo 'launcher_test: the program refuses the example'
    exit 1
fi

begin the program in dist
retune piece.mid
is_done
says_nothing_more
asks_nothing

begin files that are touched
find "$copy" -exec touch {} +
retune piece.mid
is_done
says_nothing_more
asks_nothing

begin a link to the launcher
ln -s "$copy/mtune" "$room/bin/mtune"
mtune --scale meantone.scl --a440 --route dump --out "$room/out.mid" piece.mid >"$room/said" 2>"$room/explained"
status=$?
is_done
says_nothing_more

# ---- explanations

begin no words
run
ends 1 'mtune: usage 1'
explains 'usage: mtune --scale SCALE'

begin a cry for help
run --help
ends 1 'mtune: usage 1'
while read -r option; do explains "$option"; done <"$copy/docs/usage.txt"

begin a missing input
retune no.mid
ends 3 'mtune: cannot load input'
explains "The input can't be read."
explains 'There is no no.mid.'

begin words in another order
run no.mid --a440 --out="$room/out.mid" --scale=meantone.scl
ends 3 'mtune: cannot load input'
explains 'There is no no.mid.'
run piece.mid --a440 --out="$room/out.mid" --scale=no.scl
ends 3 'mtune: cannot load scale'
explains 'There is no no.scl.'

begin more parts than zones
run --scale meantone.scl --a440 --route mpe --out "$room/out.mid" piece.mid
ends 2 'mtune: 3 parts on mpe'
explains 'The input is piece.mid.'

begin a folder as input
retune .
ends 3 'mtune: cannot load input'
explains '. is a folder.'

begin a scale that is none
run --scale make_piece.py --a440 --route dump --out "$room/out.mid" piece.mid
[ "$status" -eq 2 ] || fail "status $status, and 2 is wanted"
explains 'The scale is make_piece.py.'

begin a mapping that is none
run --scale meantone.scl --map make_piece.py --route dump --out "$room/out.mid" piece.mid
[ "$status" -eq 2 ] || fail "status $status, and 2 is wanted"
explains 'The mapping is make_piece.py.'

begin a missing mapping
run --scale meantone.scl --map no.kbm --route dump --out "$room/out.mid" piece.mid
ends 3 'mtune: cannot load map'
explains 'There is no no.kbm.'

begin an output in a missing folder
run --scale meantone.scl --a440 --route dump --out "$room/no/out.mid" piece.mid
ends 3 'mtune: cannot store'
explains "There is no folder $room/no."

begin a report that is not said
if [ -c /dev/full ]; then
    "$copy/mtune" --scale meantone.scl --a440 --route dump --out "$room/out.mid" piece.mid >/dev/full 2>"$room/explained"
    status=$?
    [ "$status" -eq 3 ] || fail "status $status, and 3 is wanted"
    explains "The report couldn't be said."
else
    skip "$about: there is no /dev/full"
fi

begin a name that is no text
retune "$(printf '\377').mid"
[ "$status" -eq 6 ] || fail "status $status, and 6 is wanted"
[ ! -s "$room/said" ] || fail "it said: $(cat "$room/said")"
explains "The words aren't text."

begin each row of the table of faults
tab=$(printf '\t')
tail -n +2 "$copy/docs/faults.tsv" >"$room/rows"
while IFS=$tab read -r pattern status meaning cause remedy; do
    line=$(printf '%s\n' "$pattern" | sed 's/\*/7/g')
    "$copy/tools/explain.sh" "$status" "$line" >"$room/explained"
    explains "$meaning"
    explains "$cause"
    explains "$remedy"
    [ "$(grep -c '^Usual cause: ' "$room/explained")" -eq 1 ] || fail "two rows fit $line"
done <"$room/rows"

begin each line that the program has
for kind in 1 2 3 4 5 6 7 8 9; do echo "2 mtune: scale line 12 kind $kind"; done >"$room/lines"
for kind in 1 2 3 4 5 6 7; do echo "2 mtune: map line 12 kind $kind"; done >>"$room/lines"
for kind in 1 2 3 4 5 6 7 8 9 10 11 12 13; do echo "2 mtune: input byte 12 kind $kind"; done >>"$room/lines"
for kind in 1 2 3 5 6 7 8 9 10 11; do echo "2 mtune: input event 12 tick 480 track 3 kind $kind"; done >>"$room/lines"
cat >>"$room/lines" <<'END'
1 mtune: usage 1
1 mtune: usage 2
1 mtune: usage 3
2 mtune: input event 12 tick 480 track 3 kind 4 q -341 r 8192
2 mtune: 3 parts on mpe
2 mtune: 3 parts on mpe on port 1
2 mtune: needs 17 channels of 15 at tick 480 position 12
2 mtune: needs 17 channels of 15 on port 1 at tick 480 position 12
2 mtune: too long scale
2 mtune: too long map
2 mtune: too long input
2 mtune: reference key 61 is not mapped
2 mtune: key 0 has more than 1700 ratio terms
3 mtune: cannot load scale
3 mtune: cannot load map
3 mtune: cannot load input
3 mtune: cannot store
4 mtune: out of memory
END
while read -r status line; do
    "$copy/tools/explain.sh" "$status" "$line" >"$room/explained"
    explains 'What to do: '
done <"$room/lines"

# ---- building

begin a changed tree
echo '// changed' >>"$copy/crates/mtune_core/src/call.rt"
retune piece.mid
is_done
explains 'mtune: proving and building'
awk -f "$copy/tools/needed.awk" "$copy/crates.txt" | while read -r _ crate; do echo "$crate"; done | sort >"$room/needed"
cut -d ' ' -f 1 "$room/asked" | sort | cmp -s - "$room/needed" || fail "it built other crates: $(cat "$room/asked")"
[ "$(head -n 1 "$room/asked" | cut -d ' ' -f 1)" != mtune ] || fail "it began at the top"
[ "$(tail -n 1 "$room/asked" | cut -d ' ' -f 1)" = mtune ] || fail "it didn't end at the top"
explains "mtune: $(wc -l <"$room/needed") of $(wc -l <"$room/needed") done"
: >"$room/asked"

begin the same tree again
retune piece.mid
is_done
says_nothing_more
asks_nothing

begin a changed tree that is not proved
touch "$room/is_broken"
echo '// changed' >>"$copy/crates/mt_base/src/lib.rt"
retune piece.mid
[ "$status" -eq 5 ] || fail "status $status, and 5 is wanted"
explains 'no proof'
explains "mt_base isn't proved"
[ ! -s "$room/said" ] || fail "it said: $(cat "$room/said")"
rm "$room/is_broken"
: >"$room/asked"

begin a dist that does not run here
sed -i '$d' "$copy/crates/mt_base/src/lib.rt" "$copy/crates/mtune_core/src/call.rt"
rm -r "$copy/crates/mtune/out"
retune piece.mid
is_done
asks_nothing
for file in "$copy"/dist/mtune-*; do
    case $file in *.sources) ;; *) echo 'no program' >"$file" ;; esac
done
retune piece.mid
is_done
explains 'mtune: proving and building'

# ---- the manual page

begin the manual page
page=$copy/docs/mtune.1
tr -s ' []' '\n' <"$copy/docs/usage.txt" | grep -e '^--' | sort -u | sed 's/^--/-/' >"$room/options"
sed -n 's/^\.It Fl \(-[a-z0-9]*\).*/\1/p' "$page" | sort -u | cmp -s - "$room/options" || fail "it has other options than docs/usage.txt"
if command -v mandoc >/dev/null; then
    mandoc -T lint "$page" >"$room/lint" || fail "$(cat "$room/lint")"
else
    skip 'mandoc is missing'
fi
if command -v groff >/dev/null && man --warnings -l "$page" >/dev/null 2>"$room/lint"; then
    [ ! -s "$room/lint" ] || fail "$(cat "$room/lint")"
else
    skip 'man -l is missing'
fi

cd "$top" || exit 1
echo "launcher_test: $cases cases, $failures failures"
[ $failures -eq 0 ]
