#!/bin/sh
# Runs the program on real files, and compares bytes, lines and statuses. Everything happens in a
# folder of its own, which is removed at the end. The program is the first word, or what the gate
# built. Where a tool is missing, this is said and the cases that need it are left out.
top=$(cd "$(dirname "$0")/.." && pwd) || exit 1
program=${1:-$top/crates/mtune/out/mtune}
case $program in /*) ;; *) program=$PWD/$program ;; esac
[ -x "$program" ] || { echo "real_files: there is no program $program"; exit 1; }
room=$(mktemp -d) || exit 1
trap 'chmod -R u+rwx "$room"; rm -rf "$room"' EXIT
trap 'exit 1' HUP INT TERM
# shellcheck disable=SC3045 # dash and bash both have it
ulimit -c 0

cases=0 failures=0
fail() { failures=$((failures + 1)); printf 'real_files: %s: %s\n' "$about" "$*"; }
skip() { printf 'real_files: left out: %s\n' "$*"; }

# Bytes, given in hexadecimal.
bytes() { for byte; do printf '%b' "\\0$(printf %o "0x$byte")"; done; }

# A case begins in a new folder, with the scale and the input of one note.
begin() {
    about=$*
    cases=$((cases + 1))
    cd "$room" && chmod -R u+rwx files 2>/dev/null
    rm -rf files && mkdir files && cd files && cp "$room/e12.scl" "$room/in.mid" . || exit 1
}

# Runs the program; keeps its status, what it said, and what it wrote on standard error.
run() {
    "$program" "$@" >"$room/said" 2>"$room/complained"
    status=$?
    [ -s "$room/complained" ] && fail "it wrote on standard error"
}
retune() { run --scale "$1" --a440 --route dump --out "$2" "$3"; }

# The same under a command before it. What is said goes through a pipe, so that no limit meets it.
run_under() {
    {
        "$@" --scale e12.scl --a440 --route dump --out out.mid in.mid
        echo $? >"$room/status"
    } 2>"$room/complained" | cat >"$room/said"
    status=$(cat "$room/status")
}

ends() {
    [ "$status" -eq "$1" ] || fail "status $status, and $1 is wanted"
    shift
    { [ $# -eq 0 ] || printf '%s\n' "$@"; } | cmp -s - "$room/said" || fail "it said: $(cat "$room/said")"
}
# The second word is the error that is told of the note; without it, that is 0.
is_retuned() {
    error=${2:-error 0.000 to 0.000}
    ends 0 'route dump' "key 69 to 45 00 00 $error" 'notes 1' 'channels 1' "$error"
    holds "$1" "$room/out.mid"
}
is_bent() {
    ends 0 'route bend' 'key 69 to 69 bend 0 error 0.000 to 0.000' 'notes 1' 'channels 1' 'need 1 tick 0 position 1' 'pair 1 0' \
        'error 0.000 to 0.000'
    holds "$1" "$room/bend.mid"
}
cannot_store() { ends 3 'mtune: cannot store'; }
holds() { cmp -s "$1" "$2" || fail "$1 holds something else"; }
leads() { [ "$(readlink "$1")" = "$2" ] || fail "$1 isn't the link to $2 any more"; }

# The folder has these names and no other.
has() {
    printf '%s\n' e12.scl in.mid "$@" | LC_ALL=C sort >"$room/wanted"
    # shellcheck disable=SC2012 # these names have no line feeds
    ls -A | LC_ALL=C sort | cmp -s - "$room/wanted" || fail "other files: $(ls -A)"
}

# Twelve equal steps; one note of key 69 on the first channel, from tick 0 to 480; what it becomes.
{ echo e12; echo 12; for cents in 1 2 3 4 5 6 7 8 9 10 11 12; do echo "${cents}00.0"; done; } >"$room/e12.scl"
bytes 4d 54 68 64 00 00 00 06 00 00 00 01 01 e0 >"$room/header"
bytes 00 90 45 40 83 60 80 45 40 00 ff 2f 00 >"$room/note"
{ cat "$room/header"; bytes 4d 54 72 6b 00 00 00 0d; cat "$room/note"; } >"$room/in.mid"
{
    cat "$room/header"
    bytes 4d 54 72 6b 00 00 01 b8 00 f0 83 17 7e 7f 08 01 00
    printf 'mtune           '
    key=0
    while [ $key -lt 128 ]; do
        bytes "$(printf %x $key)" 00 00
        key=$((key + 1))
    done
    bytes 4f f7 00 b0 65 00 00 64 03 00 06 00 00 65 7f 00 64 7f
    cat "$room/note"
} >"$room/out.mid"
# The same on the live route, by a tuning program: its selection, and the change of key 69 before its note.
live() {
    cat "$room/header"
    bytes 4d 54 72 6b 00 00 00 2b 00 b0 65 00 00 64 03 00 06 "$1" 00 65 7f 00 64 7f
    bytes 00 f0 0b 7f 7f 08 02 "$1" 01 45 45 00 00 f7
    cat "$room/note"
}
live 00 >"$room/live.mid"
live 7f >"$room/live127.mid"
# The same on bend, on a channel, and on MPE: a registered parameter of a channel, by its last byte, is told before the note.
told() {
    cat "$room/header"
    bytes 4d 54 72 6b 00 00 00 1d 00 "b$1" 65 00 00 64 "$2" 00 06 "$3" 00 65 7f 00 64 7f 00 "9$4" 45 40 83 60 "8$4" 45 40 00 ff 2f 00
}
told 0 00 0c 0 >"$room/bend.mid"
told 2 00 0c 2 >"$room/third.mid"
told 0 06 01 1 >"$room/mpe.mid"
# The note on two ports, and on three channels at once.
{
    bytes 4d 54 68 64 00 00 00 06 00 01 00 02 01 e0
    for port in 00 01; do
        bytes 4d 54 72 6b 00 00 00 12 00 ff 21 01 $port
        cat "$room/note"
    done
} >"$room/ports.mid"
three_parts() { cat "$room/header"; bytes 4d 54 72 6b 00 00 00 10 00 90 45 40 00 91 45 40 00 92 45 40 00 ff 2f 00; }
printf 'what was there before\n' >"$room/old"

# ---- names

begin one note
retune e12.scl out.mid in.mid
is_retuned out.mid
has out.mid

begin a file that is there
cp "$room/old" out.mid && chmod 640 out.mid
retune e12.scl out.mid in.mid
is_retuned out.mid
has out.mid
[ "$(find out.mid -perm 640)" ] || fail "its permissions are others"

begin a mapping of each key to the next note
printf '0\n0\n127\n60\n69\n440.0\n12\n' >next.kbm
run --scale e12.scl --map next.kbm --route dump --out out.mid in.mid
is_retuned out.mid
has next.kbm out.mid

begin no mapping
run --scale e12.scl --route dump --out out.mid in.mid
is_retuned out.mid 'error -0.001 to 0.001'
has out.mid

begin the live route
run --scale e12.scl --a440 --route live --out out.mid in.mid
ends 0 'route live' 'key 69 to 45 00 00 error 0.000 to 0.000' 'notes 1' 'channels 1' 'error 0.000 to 0.000'
holds out.mid "$room/live.mid"
has out.mid

begin drums to retune, and another tuning program
run --scale e12.scl --a440 --route live --drums retune --program 127 --out out.mid in.mid
ends 0 'route live' 'key 69 to 45 00 00 error 0.000 to 0.000' 'notes 1' 'channels 1' 'error 0.000 to 0.000'
holds out.mid "$room/live127.mid"

# ---- bends, zones, and the other words

begin the bend route, which is that without a route
run --scale e12.scl --a440 --out out.mid in.mid
is_bent out.mid
has out.mid
run --scale e12.scl --a440 --route bend --out other.mid in.mid
is_bent other.mid

begin words in another order
run in.mid --out=out.mid --a440 --scale=e12.scl
is_bent out.mid

begin another range
run --scale e12.scl --a440 --range 2 --out out.mid in.mid
ends 0 'route bend' 'key 69 to 69 bend 0 error 0.000 to 0.000' 'notes 1' 'channels 1' 'need 1 tick 0 position 1' 'pair 1 0' \
    'error 0.000 to 0.000'
holds out.mid "$room/in.mid"

begin a tail, and one channel
run --scale e12.scl --a440 --tail 480 --channels 3 --out out.mid in.mid
ends 0 'route bend' 'key 69 to 69 bend 0 error 0.000 to 0.000' 'notes 1' 'channels 1' 'need 1 tick 0 position 1' 'pair 1 0' \
    'error 0.000 to 0.000'
holds out.mid "$room/third.mid"

begin an audit
run --scale e12.scl --a440 --audit --out out.mid in.mid
ends 0 'route bend' 'key 69 to 69 bend 0 error 0.000 to 0.000' \
    'note 1 part 1 key 69 channel 1 tick 0 to 480 velocity 64 error 0.000 to 0.000' \
    'notes 1' 'channels 1' 'need 1 tick 0 position 1' 'pair 1 0' 'error 0.000 to 0.000'
holds out.mid "$room/bend.mid"

begin a sample
run --scale e12.scl --a440 --sample 1 --out out.mid none.mid
ends 0 'route bend' 'key 48 to 48 bend 0 error 0.000 to 0.000' 'key 52 to 52 bend 0 error 0.000 to 0.000' \
    'key 55 to 55 bend 0 error 0.000 to 0.000' 'notes 3' 'channels 1' 'need 1 tick 0 position 3' 'pair 1 0' 'error 0.000 to 0.000'
has out.mid

begin the mpe route
run --scale e12.scl --a440 --route mpe --out out.mid in.mid
ends 0 'route mpe' 'key 69 to 69 bend 0 error 0.000 to 0.000' 'notes 1' 'channels 1' \
    'zone lower part 1 need 1 tick 0 position 1' 'pair 1 0' 'error 0.000 to 0.000'
holds out.mid "$room/mpe.mid"

begin two ports
cp "$room/ports.mid" in.mid
run --scale e12.scl --a440 --audit --out out.mid in.mid
ends 0 'route bend' 'key 69 to 69 bend 0 error 0.000 to 0.000' \
    'note 1 part 1 port 0 key 69 channel 1 tick 0 to 480 velocity 64 error 0.000 to 0.000' \
    'note 2 part 1 port 1 key 69 channel 1 tick 0 to 480 velocity 64 error 0.000 to 0.000' \
    'notes 2' 'channels 2' 'port 0' 'need 1 tick 0 position 2' 'pair 1 0' 'port 1' 'need 1 tick 0 position 4' 'pair 1 0' \
    'error 0.000 to 0.000'

begin too many channels
three_parts >in.mid
run --scale e12.scl --a440 --channels 1-2 --out out.mid in.mid
ends 2 'mtune: needs 3 channels of 2 at tick 0 position 3'
has

begin too many parts
three_parts >in.mid
run --scale e12.scl --a440 --route mpe --out out.mid in.mid
ends 2 'mtune: 3 parts on mpe'
has

begin words that are none
run --scale e12.scl --route loud --out out.mid in.mid
ends 1 'mtune: usage 2'
run --scale e12.scl --route dump --range 12 --out out.mid in.mid
ends 1 'mtune: usage 3'
run --scale e12.scl --range 97 --out out.mid in.mid
ends 1 'mtune: usage 1'
has

begin an output as input
cp "$room/out.mid" in.mid
retune e12.scl out.mid in.mid
ends 2 'mtune: input event 1 tick 0 track 0 kind 7'
has

begin the output named as the input
retune e12.scl in.mid in.mid
is_retuned in.mid
has

begin the output named as the scale
retune e12.scl e12.scl in.mid
is_retuned e12.scl
has

begin names with spaces
mv e12.scl 'twelve  steps .scl' && mv in.mid ' in put'
retune 'twelve  steps .scl' 'out put ' ' in put'
is_retuned 'out put '

begin names that are not ASCII
mv e12.scl 'Zwölf.scl' && mv in.mid 'ひとつ.mid'
retune 'Zwölf.scl' 'één noot.mid' 'ひとつ.mid'
is_retuned 'één noot.mid'

begin names that begin with ./-
mv e12.scl ./-scale && mv in.mid ./-in
retune ./-scale ./-out ./-in
is_retuned ./-out

begin names in other folders
mkdir a a/b && mv e12.scl a && mv in.mid a/b
retune "$PWD/a/e12.scl" a/b/../out.mid a/./b/in.mid
is_retuned a/out.mid

begin a name that is no text
retune e12.scl out.mid "$(bytes ff).mid"
ends 6
has

# ---- the examples

# A piece in a scale, both of the examples; of the report all lines but those of keys are compared.
example() {
    scale=$1 piece=$2
    shift 2
    run --scale "$top/examples/$scale" --a440 "$@" --out out.mid "$top/examples/$piece"
    grep -v '^key ' "$room/said" >"$room/rest"
    mv "$room/rest" "$room/said"
}

begin an example on the bend route
example meantone.scl piece.mid
ends 0 'route bend' 'notes 19' 'channels 3' 'need 3 tick 0 position 16' 'pair 1 -23' 'pair 2 -93' 'pair 3 0' 'error -0.053 to 0.064'
has out.mid
example just_d.scl canon.mid --route bend
ends 0 'route bend' 'notes 471' 'channels 7' 'need 7 tick 11520 position 258' 'pair 1 -13' 'pair 2 -13' 'pair 3 -107' 'pair 4 -93' \
    'pair 4 0' 'pair 4 13' 'pair 5 0' 'error -0.051 to 0.064'

begin an example on the mpe route
example meantone_flats.scl prelude.mid --route mpe
ends 0 'route mpe' 'notes 549' 'channels 5' 'zone lower part 1 need 3 tick 480 position 15' 'pair 1 -6' 'pair 1 12' 'pair 1 18' \
    'zone upper part 2 need 2 tick 120 position 12' 'pair 2 -6' 'pair 2 18' 'error -0.283 to 0.283'
has out.mid

begin examples of too many parts for the mpe route
example meantone.scl piece.mid --route mpe
ends 2 'mtune: 3 parts on mpe'
example just_d.scl canon.mid --route mpe
ends 2 'mtune: 5 parts on mpe'
has

begin an example on the dump route, by a scale and by the same one through a mapping
example just_d.scl canon.mid --route dump
ends 0 'route dump' 'notes 471' 'channels 5' 'error -0.003 to 0.003'
cp out.mid "$room/canon.mid"
run --scale "$top/examples/just.scl" --map "$top/examples/on_d.kbm" --route dump --out out.mid "$top/examples/canon.mid"
holds out.mid "$room/canon.mid"

begin an example on the live route
example just_d.scl canon.mid --route live
ends 0 'route live' 'notes 471' 'channels 5' 'error -0.003 to 0.003'
has out.mid

begin an example with a key that the mapping leaves out
run --scale "$top/examples/e12.scl" --map "$top/examples/white.kbm" --route dump --out out.mid "$top/examples/piece.mid"
ends 2 'mtune: input event 12 tick 0 track 2 kind 1'
has

# ---- what can't be read, or isn't what it should be

begin a missing input
retune e12.scl out.mid no.mid
ends 3 'mtune: cannot load input'
has

begin a missing scale
retune no.scl out.mid in.mid
ends 3 'mtune: cannot load scale'
has

begin a folder as input
mkdir folder
retune e12.scl out.mid folder
ends 3 'mtune: cannot load input'
has folder

begin no words
run
ends 1 'mtune: usage 1'

begin a scale that is none
echo 12 >e12.scl
retune e12.scl out.mid in.mid
ends 2 'mtune: scale line 2 kind 2'
has

begin a mapping that is none
echo 12 >white.kbm
run --scale e12.scl --map white.kbm --route dump --out out.mid in.mid
ends 2 'mtune: map line 2 kind 1'
has white.kbm

begin a missing mapping
run --scale e12.scl --map no.kbm --route dump --out out.mid in.mid
ends 3 'mtune: cannot load map'
has

begin an empty input
: >in.mid
retune e12.scl out.mid in.mid
ends 2 'mtune: input byte 0 kind 1'
has

begin an input of 4,194,304 bytes
{ cat "$room/in.mid"; dd if=/dev/zero bs=4194269 count=1 2>/dev/null; } >in.mid
retune e12.scl out.mid in.mid
is_retuned out.mid

begin an input of 4,194,305 bytes
{ cat "$room/in.mid"; dd if=/dev/zero bs=4194270 count=1 2>/dev/null; } >in.mid
cp "$room/old" out.mid
retune e12.scl out.mid in.mid
ends 2 'mtune: too long input'
holds out.mid "$room/old"

begin a pipe as input, in pieces
{ head -c 20 in.mid; sleep 0.1; tail -c +21 in.mid; } |
    "$program" --scale e12.scl --a440 --route dump --out out.mid /dev/stdin >"$room/said"
status=$?
is_retuned out.mid

# ---- what can't be written

begin a folder as output
mkdir folder
retune e12.scl folder in.mid
cannot_store
has folder
[ -z "$(ls -A folder)" ] || fail "the folder isn't empty"

begin a read-only file as output
cp "$room/old" out.mid && chmod 444 out.mid
retune e12.scl out.mid in.mid
cannot_store
holds out.mid "$room/old"
has out.mid

begin an output in a missing folder
retune e12.scl no/out.mid in.mid
cannot_store
has

begin an output in a folder that may not be written
if [ "$(id -u)" -eq 0 ]; then
    skip "$about, since root may write it"
else
    mkdir folder && cp "$room/old" folder/out.mid && chmod 555 folder
    retune e12.scl folder/out.mid in.mid
    cannot_store
    holds folder/out.mid "$room/old"
fi

begin a full device as output
if [ -c /dev/full ]; then
    retune e12.scl /dev/full in.mid
    cannot_store
    [ -c /dev/full ] || fail "the device is gone"
    "$program" --scale e12.scl --a440 --route dump --out out.mid in.mid >/dev/full
    status=$?
    : >"$room/said"
    ends 3
    holds out.mid "$room/out.mid"
else
    skip "$about: there is no /dev/full"
fi

begin a pipe as output
mkfifo pipe
cat pipe >got & reader=$!
retune e12.scl pipe in.mid
wait $reader
is_retuned got
[ -p pipe ] || fail "the pipe is gone"

# ---- links

begin a link to a file
cp "$room/old" old.mid && ln -s old.mid out.mid
retune e12.scl out.mid in.mid
is_retuned old.mid
leads out.mid old.mid
has out.mid old.mid

begin a link to no file yet
mkdir folder && ln -s folder/new.mid out.mid
retune e12.scl out.mid in.mid
is_retuned folder/new.mid
leads out.mid folder/new.mid

begin a link to a link to a file in another folder
mkdir folder && cp "$room/old" folder/old.mid && ln -s old.mid folder/link && ln -s folder/link out.mid
retune e12.scl out.mid in.mid
is_retuned folder/old.mid
leads out.mid folder/link
leads folder/link old.mid

begin three links to no file yet
mkdir folder && ln -s ../new.mid folder/two && ln -s folder/two one && ln -s one out.mid
retune e12.scl out.mid in.mid
is_retuned new.mid
leads out.mid one
leads one folder/two
leads folder/two ../new.mid
has folder new.mid one out.mid

begin a link to itself
ln -s out.mid out.mid
retune e12.scl out.mid in.mid
cannot_store
leads out.mid out.mid
has out.mid

begin two links in a loop
ln -s other out.mid && ln -s out.mid other
retune e12.scl out.mid in.mid
cannot_store
leads out.mid other
leads other out.mid
has other out.mid

begin as many links as the system follows, and one more
number=1
while [ $number -le 40 ]; do
    ln -s $((number + 1)) $number
    number=$((number + 1))
done
retune e12.scl 1 in.mid
is_retuned 41
leads 1 2
leads 40 41
rm 41 && ln -s 1 0
retune e12.scl 0 in.mid
cannot_store
[ ! -e 41 ] || fail "a file was made"
leads 40 41

begin more links than the system follows
number=0
while [ $number -lt 100 ]; do
    ln -s $((number + 1)) $number
    number=$((number + 1))
done
retune e12.scl 0 in.mid
cannot_store
[ ! -e 100 ] || fail "a file was made"
leads 0 1
leads 50 51
leads 99 100
cp "$room/old" 100
retune e12.scl 0 in.mid
cannot_store
leads 99 100
holds 100 "$room/old"

# ---- a store that is cut off

# Commands before the program: a file of that many blocks at most; a signal at the limit, or a failure.
# shellcheck disable=SC2317 # called by run_under
killed_at() { (ulimit -f "$1" && shift && exec "$@"); }
# shellcheck disable=SC2317
fails_at() { (trap '' XFSZ && ulimit -f "$1" && shift && exec "$@"); }

begin a limit on the size of files
cp "$room/old" out.mid
run_under fails_at 0 "$program"
cannot_store
holds out.mid "$room/old"
has out.mid

begin a kill before the first byte
cp "$room/old" out.mid
run_under killed_at 0 "$program"
[ "$status" -gt 128 ] || fail "status $status, and a signal is wanted"
holds out.mid "$room/old"
has out.mid .mtune-0.new
retune e12.scl out.mid in.mid
is_retuned out.mid
has out.mid .mtune-0.new

begin a kill between two bytes
{
    cat "$room/header"
    bytes 4d 54 72 6b 00 00 40 0d
    number=0
    while [ $number -lt 2048 ]; do
        printf '\0\300\001\0\300\002\0\300'
        printf '\003'
        number=$((number + 1))
    done | head -c 16384
    cat "$room/note"
} >in.mid
cp "$room/old" out.mid
run_under killed_at 4 "$program"
[ "$status" -gt 128 ] || fail "status $status, and a signal is wanted"
holds out.mid "$room/old"
[ -s .mtune-0.new ] || fail "nothing was written before the kill"

if strace -o /dev/null true 2>/dev/null; then
    for call in fsync rename; do
        begin "a kill at $call"
        cp "$room/old" out.mid
        run_under strace -qq -o /dev/null -e trace="$call" -e inject="$call":signal=KILL "$program"
        [ "$status" -eq 137 ] || fail "status $status, and 137 is wanted"
        [ "$call" = rename ] || holds out.mid "$room/old"
        [ "$call" = fsync ] || cmp -s out.mid "$room/old" || holds out.mid "$room/out.mid"

        begin "a failure of $call"
        cp "$room/old" out.mid
        run_under strace -qq -o /dev/null -e trace="$call" -e inject="$call":error=EIO "$program"
        cannot_store
        holds out.mid "$room/old"
        has out.mid
    done
    begin a failure of reading
    cp "$room/old" out.mid
    run_under strace -qq -o /dev/null -P in.mid -e trace=read -e inject=read:error=EIO:when=2 "$program"
    ends 3 'mtune: cannot load input'
    holds out.mid "$room/old"
    has out.mid
else
    skip 'kills and failures at single calls: strace is missing, or may not trace'
fi

cd "$top" || exit 1
echo "real_files: $cases cases, $failures failures"
[ $failures -eq 0 ]
