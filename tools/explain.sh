#!/bin/sh
# Explains how the program ended, out of docs/faults.tsv. The first words are the status and the last
# line that was said; then come the words that the program was given.
docs=$(dirname "$0")/../docs
status=$1 line=$2
shift 2
case $line in 'mtune: '*) ;; *) line="status $status" ;; esac

# Why a name can't be read.
unread() {
    if [ -d "$1" ]; then echo "$1 is a folder."
    elif [ -L "$1" ] && [ ! -e "$1" ]; then echo "$1 is a link that leads to no file."
    elif [ ! -e "$1" ]; then echo "There is no $1."
    elif [ ! -r "$1" ]; then echo "$1 may not be read."
    else echo "The file is $1."; fi
}

# Why a name can't be written.
unwritten() {
    if [ -d "$1" ]; then echo "$1 is a folder."
    elif [ -L "$1" ] && [ ! -e "$1" ]; then echo "$1 is a link that leads to no file."
    elif [ ! -d "$(dirname "$1")" ]; then echo "There is no folder $(dirname "$1")."
    elif [ -e "$1" ] && [ ! -w "$1" ]; then echo "$1 may not be written."
    else echo "The file is $1."; fi
}

[ "$status" -eq 1 ] && cat "$docs/usage.txt"
while IFS="$(printf '\t')" read -r pattern _ meaning cause remedy; do
    # shellcheck disable=SC2254 # the table has patterns
    case $line in
        $pattern) printf '\n%s\nUsual cause: %s\nWhat to do: %s\n' "$meaning" "$cause" "$remedy" ;;
    esac
done <"$docs/faults.tsv"

# The names that the line doesn't have. Options stand in any order, each with its value behind it or behind an equals sign.
scale='' map='' out='' input=''
while [ $# -gt 0 ]; do
    name='' value=''
    case $1 in
        --a440 | --audit | --) ;;
        --*=*) name=${1%%=*} value=${1#*=} ;;
        --*)
            name=$1 value=$2
            [ $# -eq 1 ] || shift
            ;;
        *) input=$1 ;;
    esac
    case $name in
        --scale) scale=$value ;;
        --map) map=$value ;;
        --out) out=$value ;;
    esac
    shift
done
case $line in
    'mtune: cannot load scale') unread "$scale" ;;
    'mtune: cannot load map') unread "$map" ;;
    'mtune: cannot load input') unread "$input" ;;
    'mtune: cannot store') unwritten "$out" ;;
    'mtune: too long map' | 'mtune: map line '* | *'not mapped') echo "The mapping is $map." ;;
    *scale*) echo "The scale is $scale." ;;
    *input* | *'on mpe'* | *needs*) echo "The input is $input." ;;
esac
