#!/usr/bin/env bash
# Each request for memory of a run is refused in turn: the run ends with status 5 and its line, and the output path holds what it
# held; or, where the run can do without, it answers what it answers with ample memory. Then the same of a program whose linker links
# again where memory runs out in the link: whichever request of the link is refused, it answers what it answers with ample memory.
# The requests are refused by a small library that stands before the system's; where no C compiler is installed to make it, nothing is
# tried.
top=$(cd "$(dirname "$0")/.." && pwd) || exit 1
folder=$(mktemp -d) || exit 1
trap 'rm -rf "$folder"' EXIT

source "$top/checks/installed.bash" || exit 1

compiler=$(tool clang || command -v cc) || {
    echo "refused_memory: SKIPPED, since no C compiler is installed"
    exit 0
}
program=("$top/crates/wild_macho_main/out/wild_macho_main")
"$top/link" -x 2>/dev/null
[ -x "${program[0]}" ] || fail "there is no program"
cp "$top"/checks/many_kinds/* "$folder" && cd "$folder" || exit 1

cat >refuse.c <<'C'
#include <errno.h>
#include <stddef.h>
#include <stdio.h>
#include <stdlib.h>

extern void *__libc_malloc(size_t), *__libc_calloc(size_t, size_t), *__libc_realloc(void *, size_t), *__libc_memalign(size_t, size_t);

static long refused = -1, count;

static int is_refused(void) {
    if (refused < 0 || ++count != refused) return 0;
    errno = ENOMEM;
    return 1;
}

void *malloc(size_t size) { return is_refused() ? NULL : __libc_malloc(size); }
void *calloc(size_t number, size_t size) { return is_refused() ? NULL : __libc_calloc(number, size); }
void *realloc(void *old, size_t size) { return is_refused() ? NULL : __libc_realloc(old, size); }
void *aligned_alloc(size_t align, size_t size) { return is_refused() ? NULL : __libc_memalign(align, size); }

__attribute__((constructor)) static void begin(void) { refused = atol(getenv("REFUSED")); }

__attribute__((destructor)) static void end(void) {
    refused = -1;
    FILE *file = fopen("count", "w");
    if (file) fprintf(file, "%ld\n", count), fclose(file);
}
C
"$compiler" -O1 -shared -fPIC -o refuse.so refuse.c || fail "the library isn't made"

# The program whose linker links again, which is proved and built where a source of a crate is newer.
linking_again() {
    local name=wild_macho_cases
    local made=$top/crates/$name/out/$name
    local newer="none is made"
    local begun=$folder/begun
    [ -x "$made" ] && newer=$(find "$top/crates.txt" "$top/crates" -name out -prune -o \
        -type f \( -name '*.rt' -o -name '*.antt' -o -name crates.txt \) -newer "$made" -print -quit)
    if [ -n "$newer" ]; then
        touch "$begun" && rm -f "$made"
        python3 "$top/checks/prove.py" "$name" && python3 "$top/checks/prove.py" --program "$name" && touch -r "$begun" "$made"
    fi >/dev/null 2>&1
    [ -x "$made" ] && echo "$made"
}

# Runs the words with the request of this number refused; what is printed goes to `printed` and `said`.
run_without() {
    echo old >out
    REFUSED=$1 LD_PRELOAD=$folder/refuse.so "${program[@]}" -o out "${@:2}" >printed 2>said
}

# The line that tells a second link.
again='wild_macho_cases: linked again'

# Fails unless a run that ended with status 5 left all as it was.
check_refused() {
    [ "$(cat out)" = old ] || fail "$1: the output changes"
    [ -s printed ] && fail "$1: lines are printed"
    # (the program that links again says nothing where it can't have its words)
    [ -s said ] || [ ${#program[@]} -gt 1 ] || fail "$1: no line"
    [ ! -s said ] || [ "$(cat said)" = 'wild_macho: out of memory' ] || fail "$1: '$(cat said)'"
}

# Fails unless a run ended with this status, and left and printed what the run with ample memory does.
check_same() {
    [ "$2" = "$ample" ] && cmp -s out ample.out && cmp -s printed ample.printed && cmp -s said ample.said ||
        fail "$1: status $2, '$(cat said)'"
}

# The same, with ample memory, for each request of the words. A link that ran out of memory is made again, if the program does so: then
# no request between two of the link ends the run.
tried=0
linked_again=0
refuse_each() {
    run_without 0 "$@"
    ample=$?
    cp out ample.out && cp printed ample.printed && cp said ample.said
    requests=$(cat count)
    [ "$requests" -gt 0 ] || fail "'$*': no request is seen"
    begun= ended=
    for ((number = 1; number <= requests; number++)); do
        run_without "$number" "$@"
        status=$?
        case="'$*' without request $number"
        if [ "$(head -n 1 said)" = "$again" ]; then
            [ -z "$ended" ] || fail "$case: it links again, and not without request $ended"
            begun=$number linked_again=$((linked_again + 1))
            sed -i 1d said
            check_same "$case" "$status"
        elif [ "$status" = 5 ]; then
            [ -z "$begun" ] || ended=$number
            check_refused "$case"
        else
            check_same "$case" "$status"
        fi
    done
    tried=$((tried + requests))
}

# The stub of the system's library as three documents: the main one names the two others, which it reexports.
both='[ arm64-macos, arm64e-macos ]'
document() {
    printf '%s\n' '--- !tapi-tbd' 'tbd-version: 4' "targets: $both" "install-name: '$1'" 'current-version: 1351' "${@:3}" exports:
    printf '  - targets: %s\n    symbols: [ %s ]\n' "$both" "$2"
}
parts="'/usr/lib/system/libunwind.dylib', '/usr/lib/system/libdyld.dylib'"
{
    document /usr/lib/libSystem.B.dylib '_abort, _abs, _printf' reexported-libraries: "  - targets: $both" "    libraries: [ $parts ]"
    document /usr/lib/system/libunwind.dylib '__Unwind_Resume, ___gcc_personality_v0'
    document /usr/lib/system/libdyld.dylib __tlv_bootstrap
    echo ...
} >three.tbd

inputs=(main.o names.o locals.o guarded.o scaled.o libSystem.tbd)
all=(-map -platform_version macos 14.0 15.0 -exported_symbols_list counted.exports "${inputs[@]}")
refuse_each "${all[@]}"
refuse_each -generate 3
refuse_each "$top/examples/leaves/leaves.o" "$top/examples/leaves/libSystem.tbd"
refuse_each main.o names.o locals.o guarded.o scaled.o three.tbd
refuse_each -arch arm64 -lto_library /sdk/libLTO.dylib -no_deduplicate -platform_version macos 14.0 15.16.17 -demangle -syslibroot /sdk \
    -mllvm -enable-linkonceodr-outlining -L/a -L /b -F/c -F /d -framework X main.o -lc++ -dead_strip -search_paths_first \
    -no_warn_duplicate_libraries -headerpad_max_install_names
refuse_each -platform_version macos 1.2.3.4 1
refuse_each "${inputs[@]}" counted.exports

# The program that links again: two images, and a link that is refused for a symbol that no input defines.
program=("$(linking_again)" -again)
[ -x "${program[0]}" ] || fail "there is no program that links again"
refuse_each "${all[@]}"
refuse_each -generate 3
refuse_each "$top/examples/leaves/leaves.o" "$top/examples/leaves/libSystem.tbd"
refuse_each -platform_version macos 14.0 15.0 main.o names.o libSystem.tbd
[ "$linked_again" -gt 0 ] || fail "no linker links again"
echo "refused_memory: $tried requests refused, one in each run; $linked_again of them in a link that was made again"
