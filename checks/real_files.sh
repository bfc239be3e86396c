#!/usr/bin/env bash
# The linker over the system's files: inputs that can't be read, outputs that can't be written, a disk that is full, links that are
# killed, and words that are no text. Each has its status and its line, and what stood at the output path stands there still, or the
# whole image does. A full disk is tried where a small one may be mounted.
top=$(cd "$(dirname "$0")/.." && pwd) || exit 1
folder=$(mktemp -d) || exit 1
disk=
trap '[ -z "$disk" ] || umount "$disk"; rm -rf "$folder"' EXIT

source "$top/checks/installed.bash" || exit 1

cp "$top/examples/hello/hello.o" "$folder/in.o" || exit 1
cd "$folder" || exit 1
mkdir folder same
echo plain >plain
echo other >other

# The words are linked; what is said goes to `said`.
linked() {
    "$top/link" "${macos[@]}" "$@" >said 2>&1
}

# The words end with this status, and say this line or nothing.
answers() {
    wanted=$1 line=$2
    shift 2
    linked "$@"
    status=$?
    [ "$status" = "$wanted" ] && [ "$(cat said)" = "${line:+wild_macho: $line}" ] || fail "'$*': status $status, '$(cat said)'"
}

# The same, and the file `out` still holds what it held.
refused() {
    echo old >out
    answers "$@"
    [ "$(cat out)" = old ] || fail "'$*' changes the output"
    nothing_beside .
}

# No file that was written beside an output is left in the folder.
nothing_beside() {
    [ -z "$(find "$1" -maxdepth 1 -name '.wild_macho.*')" ] || fail "a file beside the output is left in $1"
}

# Inputs: below a plain file, a folder, a file that opens and can't be read, one that may not be opened, none at all.
refused 3 'cannot read plain/in.o' -o out plain/in.o
refused 3 'cannot read folder' -o out in.o folder
refused 3 'cannot read /proc/self/mem' -o out /proc/self/mem in.o
refused 3 'cannot read folder' -o out -exported_symbols_list folder in.o
cp in.o locked.o && chmod 000 locked.o
[ -r locked.o ] || refused 3 'cannot read locked.o' -o out locked.o
refused 1 'cannot find gone.o' -o out in.o gone.o
printf '!<arch>\n' >lib.a
refused 1 'lib.a: not an arm64 object, dynamic library or stub' -o out in.o lib.a

# Outputs: below a plain file, in a folder that isn't there, a folder, a device that takes nothing.
refused 4 'cannot write the output' -o plain/out in.o
[ "$(cat plain)" = plain ] || fail "a plain file is changed by an output below it"
refused 4 'cannot write the output' -o gone/out in.o
[ -e gone ] && fail "a folder is made for an output"
refused 4 'cannot write the output' -o folder in.o
[ -z "$(ls -A folder)" ] || fail "a file is left in a folder that is an output"
refused 4 'cannot write the output' -o /dev/full in.o
answers 0 '' -o /dev/null in.o
[ -c /dev/null ] || fail "a device is replaced"

# A pipe takes the image that a file of its name takes.
answers 0 '' -o same/pipe in.o
mkfifo pipe && { cat pipe >taken & } && answers 0 '' -o pipe in.o && wait
[ -p pipe ] && cmp -s same/pipe taken || fail "a pipe doesn't take the image"

# A file that couldn't be run or written is replaced by a program that can be run, and no other file changes.
for mode in 644 600 444; do
    echo old >out && chmod "$mode" out
    answers 0 '' -o out in.o
    [ -x out ] || fail "over a file of mode $mode: the image can't be run"
done

# So is a symbolic link to a file or to nothing, in another folder too; what it leads to stays. One to a device doesn't become a file.
echo old >same/led && ln -s same/led led && ln -s gone nowhere && ln -s /dev/null null
for path in led nowhere; do
    answers 0 '' -o "$path" in.o
    [ -f "$path" ] && ! [ -L "$path" ] && [ -x "$path" ] || fail "a symbolic link isn't replaced by a program that can be run"
done
[ "$(cat same/led)" = old ] || fail "what a symbolic link leads to is changed"
[ -e gone ] && fail "what a symbolic link leads to is made"
answers 0 '' -o null in.o
[ -L null ] && [ -c /dev/null ] || fail "a symbolic link to a device is replaced"
nothing_beside .
[ "$(cat other)" = other ] || fail "another file is changed"
cmp -s in.o "$top/examples/hello/hello.o" || fail "an input is changed"

# An output may be an input of the same link, which is read before it.
cp in.o both
answers 0 '' -o same/both both
answers 0 '' -o both both
cmp -s both same/both || fail "over its own input: another image"

# Words that are no text are told by their number, before any file is looked at.
echo old >out
linked -o out $'in\xff.o'
[ $? = 6 ] && [ "$(cat said)" = 'wild_macho: word 6 is not UTF-8' ] || fail "of a word that is no text: '$(cat said)'"
[ "$(cat out)" = old ] || fail "a word that is no text changes the output"

# A limit on a file's size ends the write behind its first bytes.
echo old >out
(
    trap '' XFSZ
    ulimit -f 8
    linked -o out in.o
)
[ $? = 4 ] && [ "$(cat out)" = old ] || fail "of a limit on files: '$(cat said)', and the output isn't the old one"
nothing_beside .

full="a full disk isn't tried, since none may be mounted"
mkdir disk
if mount -t tmpfs -o size=16k none disk 2>/dev/null; then
    disk=$folder/disk full="a full disk keeps the old file"
    echo old >disk/out
    answers 4 'cannot write the output' -o disk/out in.o
    [ "$(cat disk/out)" = old ] || fail "a full disk loses the old file"
    nothing_beside disk
fi

# A number of so many bytes, its lowest byte first.
number() {
    local value=$1 bytes=$2
    while [ "$bytes" -gt 0 ]; do
        printf "\\x$(printf %02x $((value % 256)))"
        value=$((value / 256)) bytes=$((bytes - 1))
    done
}

# An object with a function `_main` of so many bytes: header, a segment with one section, a symbol, its name, the function.
object() {
    number 0xfeedfacf 4 && number 0x0100000c 4 && number 0 4 && number 1 4 && number 2 4 && number 176 4 && number 0 8
    number 0x19 4 && number 152 4 && number 0 24 && number "$1" 8 && number 232 8 && number "$1" 8 && number 7 4 && number 7 4 && number 1 8
    printf '__text' && number 0 10 && printf '__TEXT' && number 0 10 && number 0 8 && number "$1" 8
    number 232 4 && number 2 4 && number 0 8 && number 0x80000400 4 && number 0 12
    number 2 4 && number 24 4 && number 208 4 && number 1 4 && number 224 4 && number 8 4
    number 1 4 && number 0x0f 1 && number 1 1 && number 0 10 && number 0 1 && printf '_main' && number 0 2
    head -c "$1" /dev/zero
}

# Of links that are killed while they write, each behind one more kilobyte, each leaves the old file under the output path.
object $((64 * 1024)) >large.o
mkdir killed
echo old >killed/image
for kilobytes in {1..60}; do
    (
        ulimit -c 0
        ulimit -f "$kilobytes"
        linked -o killed/image large.o
    ) 2>kills
    [ "$(cat killed/image)" = old ] || fail "a kill behind $kilobytes kilobytes changes the output"
    [ "$(cat killed/.wild_macho.* | wc -c)" = $((kilobytes * 1024)) ] || fail "no link was killed behind $kilobytes kilobytes"
    rm killed/.wild_macho.*
done
answers 0 '' -o killed/image large.o
answers 0 '' -o same/image large.o
cmp -s killed/image same/image || fail "behind the kills: another image"
echo "real_files: each has its answer; 60 links that were killed while they wrote left the old file; $full"
