#!/bin/sh
# Runs the program on one note, on each route, again and again, and refuses it memory: in the first run at its first allocation, then
# at its second, and so on; at that one alone, or from it on; over an output that is there, or that isn't yet. Each run
# has to answer want of memory or a failed store and to leave all files as they were, or to do without. The program is
# the first word, or what the gate built. It has to take its memory from malloc; cc makes what stands in for that.
top=$(cd "$(dirname "$0")/.." && pwd) || exit 1
program=${1:-$top/crates/mtune/out/mtune}
case $program in /*) ;; *) program=$PWD/$program ;; esac
[ -x "$program" ] || { echo "failing_memory: there is no program $program"; exit 1; }
room=$(mktemp -d) || exit 1
trap 'rm -rf "$room"' EXIT
trap 'exit 1' HUP INT TERM
# shellcheck disable=SC3045 # dash and bash both have it
ulimit -c 0

# It counts the allocations. ONLY is the number of the one that it refuses, or FROM of the first one; at the end it
# writes the count to the name in COUNT.
cc -shared -fPIC -O1 -o "$room/refusing.so" -x c - -ldl <<'END' || exit 1
#define _GNU_SOURCE
#include <dlfcn.h>
#include <stdio.h>
#include <stdlib.h>
static long calls, only, from;
static int refuses(void) {
    if (!calls++) {
        only = getenv("ONLY") ? atol(getenv("ONLY")) : 0;
        from = getenv("FROM") ? atol(getenv("FROM")) : 0;
    }
    return calls == only || (from && calls >= from);
}
void *malloc(size_t size) {
    static void *(*next)(size_t);
    if (!next) next = (void *(*)(size_t))dlsym(RTLD_NEXT, "malloc");
    return refuses() ? NULL : next(size);
}
void *realloc(void *old, size_t size) {
    static void *(*next)(void *, size_t);
    if (!next) next = (void *(*)(void *, size_t))dlsym(RTLD_NEXT, "realloc");
    return refuses() ? NULL : next(old, size);
}
__attribute__((destructor)) static void tell(void) {
    long all = calls;
    FILE *count = getenv("COUNT") ? fopen(getenv("COUNT"), "w") : NULL;
    if (count) fprintf(count, "%ld\n", all), fclose(count);
}
END

# Runs it in a new folder, with what is there before.
run() {
    rm -rf "$room/files" && cp -r "$room/before" "$room/files" && cd "$room/files" || exit 1
    # shellcheck disable=SC2086 # a route with other words
    env "$@" LD_PRELOAD="$room/refusing.so" "$program" --scale e12.scl --a440 --route $route --out out.mid in.mid
}

failures=0
try_each() {
    run COUNT="$room/count" >"$room/report" || { echo "failing_memory: it fails with all memory"; exit 1; }
    rm -rf "$room/made" && cp -r "$room/files" "$room/made" && all=$(cat "$room/count") || exit 1
    : >"$room/answers"
    words=yes number=1
    while [ "$number" -le "$all" ]; do
        run "$1=$number" >"$room/said" 2>&1
        status=$? wanted=$room/before
        case "$words $status $(cat "$room/said")" in
            *' 4 mtune: out of memory') answer='mtune: out of memory, status 4' words=no ;;
            'yes 4 ') answer='nothing, status 4: no memory for the words' ;;
            *' 3 mtune: cannot store') answer='mtune: cannot store, status 3' ;;
            *" 0 $(cat "$room/report")") answer='the report, status 0: it did without' wanted=$room/made ;;
            *) answer="WRONG: $(cat "$room/said"), status $status" ;;
        esac
        diff -r "$room/files" "$wanted" >"$room/differences" || answer="WRONG: files changed; $answer"
        case $answer in WRONG*) failures=$((failures + 1)) ;; esac
        echo "$answer" >>"$room/answers"
        number=$((number + 1))
    done
    echo "$route: $all allocations, $1 the first to the last, $2:"
    uniq -c "$room/answers"
}

for route in dump 'live --audit' 'bend --tail 10 --audit' 'mpe --audit'; do
    rm -rf "$room/before" && cp -r "$top/crates/mtune/data" "$room/before" || exit 1
    try_each ONLY 'no output yet'
    try_each FROM 'no output yet'
    printf 'what was there before\n' >"$room/before/out.mid"
    try_each ONLY 'over an output'
    try_each FROM 'over an output'
done
echo "failing_memory: $failures failures"
[ "$failures" -eq 0 ]
