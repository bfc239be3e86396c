#!/usr/bin/env bash
# The script `link` in a checkout whose program is a stand-in that prints its words: it is found through symbolic links, by the names of
# all tools; a newer source is told in a line, and the program that is there runs; a build that fails leaves that program; a try says
# that it is one. Nothing is proved or compiled here.
top=$(cd "$(dirname "$0")/.." && pwd) || exit 1
folder=$(mktemp -d) || exit 1
trap 'rm -rf "$folder"' EXIT

source "$top/checks/installed.bash" || exit 1

mkdir -p "$folder"/{bin,else} "$folder"/checkout/{checks,out/tried,crates/{low,wild_macho_main,macho_inspect_main}/{src,out}}
cd "$folder/checkout" || exit 1
cp "$top/link" . && cp "$top/checks/prove.py" checks || exit 1
printf 'low:\nwild_macho_main: low # the linker\nmacho_inspect_main: low\n' >crates.txt
touch crates/{low,wild_macho_main,macho_inspect_main}/src/lib.rt

# A program that prints its name and its words.
stand_in() {
    printf '#!/bin/sh\necho "%s:" "$@"\n' "$2" >"$1" && chmod +x "$1"
}

# The words print this on standard output and this on standard error, and have this status.
answers() {
    wanted=$1 out=$2 err=$3
    shift 3
    "$@" >"$folder/out" 2>"$folder/err"
    status=$?
    [ "$status" = "$wanted" ] && [ "$(cat "$folder/out")" = "$out" ] && [[ "$(cat "$folder/err")" == $err ]] ||
        fail "'$*': status $status, '$(cat "$folder/out")', '$(cat "$folder/err")'"
}

# A toolchain that fails.
stand_in "$folder/bin/rt" rt
printf 'raise SystemExit("no proof")\n' >"$folder/bin/rtlib.py"
with_rt() {
    PATH=$folder/bin:$PATH "$@"
}

main=crates/wild_macho_main/out/wild_macho_main
sleep 0.02
stand_in $main proved
stand_in crates/macho_inspect_main/out/macho_inspect_main inspected
stand_in out/tried/wild_macho_main tried
answers 0 'proved: -o a b' '' ./link -o a b
answers 0 'proved: -x' '' bash link -x
answers 0 'tried: a' 'link: tried, not proved: *' ./link --try a

# Through links, near and far, by other names and from the path; and by the names of the other tools.
ln -s link inspect && ln -s link verify
ln -s "$PWD/link" ../else/linker && ln -s ../else/linker ../bin/other && ln -s ../checkout/inspect ../else/show
(cd / && answers 0 'proved: a b' '' "$folder/else/linker" 'a b') || exit 1
answers 0 'proved: a' '' ../bin/other a
answers 0 'proved: a' '' with_rt other a
answers 0 'inspected: a' '' ./inspect a
answers 0 'inspected: a' '' ../else/show a
answers 127 '' 'verify: this checkout has no crate macho_verify_main' ./verify a

# A newer source is told, one of another program isn't; the program that is there runs, and stays where it can't be built anew.
sleep 0.02
touch crates/macho_inspect_main/src/lib.rt
answers 0 'proved: a' '' ./link a
touch crates/low/src/lib.rt
answers 0 'proved: a' 'link: crates/low/src/lib.rt is newer than the program: ./link --build makes it anew' ./link a
answers 1 '' "*link: it isn't proved" with_rt ./link --build a
answers 1 '' "*link: it isn't compiled" with_rt ./link --try --build a
answers 0 'proved: a' 'link: crates/low/*' ./link a
answers 0 'tried: a' 'link: crates/low/*tried, not proved*' ./link --try a

# A build that goes well: the old program is there until the new one is, whose crates are told. Without words nothing runs.
cat >checks/prove.py <<'END'
import os, sys
if "--program" in sys.argv:
    main = f"crates/{sys.argv[-1]}/out/{sys.argv[-1]}"
    with open(f"{main}.new", "w") as file:
        file.write('#!/bin/sh\necho "again:" "$@"\n')
    os.chmod(f"{main}.new", 0o755)
    os.replace(f"{main}.new", main)
else:
    print("  1 of 2     0 s  low")
END
answers 0 '' 'link: its 2 crates are proved with*link:   1 of 2     0 s  low*link: it is proved and built*' with_rt ./link --build
answers 0 'again: a' '' ./link a
answers 0 'again: a b' 'link: its 2 crates*' with_rt ./link --build a b
rm $main
answers 0 'again: a' 'link: there is no proved program yet*link: it is proved and built*' with_rt ./link a
cp "$top/checks/prove.py" checks

# A try is what a toolchain compiles, runs once and removes. Of two calls at once, one waits for the other.
cat >"$folder/bin/rt" <<'END'
#!/bin/sh
[ "$1" = version ] && exec echo kit
mkdir "$TMPDIR/made" && printf '#!/bin/sh\necho "compiled:" "$@"\n' >"$TMPDIR/made/program" && chmod 700 "$TMPDIR/made/program"
for word; do [ -p "$word" ] && cat "$word"; done
rm -r "$TMPDIR/made"
exit 1
END
rm out/tried/wild_macho_main
for number in 1 2; do
    with_rt ./link --try a >"$folder/out$number" 2>"$folder/err$number" &
done
wait
[ "$(cat "$folder"/out[12])" = "$(printf 'compiled: a\ncompiled: a')" ] || fail "of two tries at once: $(cat "$folder"/out[12] "$folder"/err[12])"
[ "$(cat "$folder"/err[12] | grep -c 'link: it is compiled')" = 1 ] || fail "two calls compile at once: $(cat "$folder"/err[12])"
answers 0 'compiled: a' 'link: tried, not proved: *' ./link --try a
answers 0 'compiled: b' '*its sources are compiled with kit, *link: it is compiled*link: tried, not proved: *' with_rt ./link --try --build b
stand_in "$folder/bin/rt" rt

# Without a program and a toolchain the script says so; a build that fails leaves no program.
rm $main
mkdir "$folder/plain"
for name in bash awk find mkdir flock; do
    path=$(command -v "$name") && ln -s "$path" "$folder/plain"
done
answers 127 '' '*link: the toolchain is missing: *' env PATH="$folder/plain" ./link a
answers 1 '' "link: there is no proved program yet*no proof*link: it isn't proved" with_rt ./link a
[ -e $main ] && fail "a build that fails leaves a program"
echo "script: the program runs by links and by names, and stays where a build fails"
