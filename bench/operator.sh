#!/bin/sh
# Tries what an operator meets first: locks, the guard of mkfdmn, several images, odd files, scripts
# that only look, and the words that go with each refusal. Each try has to end with its number, to
# tell the words that are wanted on standard error, and to leave the image as it was unless the try
# says that it writes. It says what cannot be tried on this machine. It needs a few MB in the folder
# that is named, or in the one for temporary files. ADVFS is the program, if it is not ./advfs.
top=$(cd "$(dirname "$0")/.." && pwd) || exit 1
advfs=${ADVFS:-$top/advfs}
case $advfs in
/*) ;;
*/*) advfs=$PWD/$advfs ;;
esac
"$advfs" --version >&2 || exit 1
folder=$(mktemp -d "${1:-${TMPDIR:-/tmp}}/advfs_operator.XXXXXX") || exit 1
trap 'rm -rf "$folder"' EXIT
cd "$folder" || exit 1
failed=0
tries=0

# says whether a command ends with a number, tells some words on standard error, and leaves
# home.img as it was: NAME NUMBER WORDS COMMAND..
ends() {
    name=$1 number=$2 wanted=$3
    shift 3
    cp home.img same.img
    "$@" >out 2>told </dev/null
    got=$?
    tries=$((tries + 1))
    if [ "$got" != "$number" ]; then
        echo "$name: ends with $got, not with $number"
    elif [ -n "$wanted" ] && ! grep -qF -- "$wanted" told; then
        echo "$name: does not tell \"$wanted\" but:"
        cat told
    elif ! cmp -s home.img same.img; then
        echo "$name: the image is not as it was"
    else
        return
    fi
    failed=1
}

# writes a script of one client
script() {
    name=$1
    shift
    printf '%s\n' "client 1" "$@" >"$name"
}

script make "mkfset home" "create home:/a 10 20"
script look "showfsets" "list home:/"
script change "create home:/c 10 20"
truncate -s 4M home.img
ends "a bad script on an empty image" 6 "no anchor counts" "$advfs" run make home.img

# making: a domain is made on zeros, and over nothing else
"$advfs" mkfdmn home.img 2>told || { echo "mkfdmn failed"; exit 1; }
grep -qF "home.img: version 4, 512 pages (4.0 MiB), 379 free" told || { cat told; failed=1; }
ends "mkfdmn over a domain" 13 "volume 1 of a domain of version 4" "$advfs" mkfdmn home.img
ends "mkfdmn -3 over a domain" 13 "mkfdmn -3 -o home.img" "$advfs" mkfdmn -3 home.img
truncate -s 4M other.img
printf x | dd of=other.img bs=1 seek=20000 conv=notrunc 2>/dev/null
ends "mkfdmn over something" 13 "page 2 is not all zeros" "$advfs" mkfdmn other.img
"$advfs" mkfdmn -o other.img 2>told || { echo "mkfdmn -o failed"; cat told; failed=1; }
truncate -s 1M small.img
ends "mkfdmn on a small file" 11 "a domain needs 160" "$advfs" mkfdmn small.img

# scripts that write and scripts that look
"$advfs" run make home.img >out 2>told || { echo "run failed"; cat told; failed=1; }
ends "a script that looks" 0 "" "$advfs" run look home.img
ends "run -r with a script that writes" 7 "open read-only because of -r" \
    "$advfs" run -r change home.img
if [ "$(id -u)" != 0 ]; then
    chmod a-w home.img
    ends "a look at an image that may not be written" 0 "" "$advfs" run look home.img
    ends "a change of it" 12 "cannot be opened: Permission denied" "$advfs" run make home.img
    chmod u+w home.img
    cp home.img hidden.img && cp look hidden && chmod a-r hidden.img hidden
    ends "an image that may not be read" 12 "hidden.img cannot be opened: Permission denied" \
        "$advfs" verify hidden.img
    ends "a script that may not be read" 12 "hidden cannot be opened: Permission denied" \
        "$advfs" run hidden home.img
else
    echo "files that may not be read or written: not tried, since root may do both"
fi

to_full() {
    "$@" >/dev/full
}
if [ -e /dev/full ]; then
    ends "standard output that takes nothing" 8 "a full device, or a closed pipe" \
        to_full "$advfs" run look home.img
else
    echo "standard output that takes nothing: not tried, since /dev/full is missing"
fi

# standard streams that are closed: an image must not take their place
mute() {
    "$@" >&-
}
silent() {
    "$@" 2>&-
}
deaf() {
    "$@" <&-
}
ends "standard output is closed" 8 "a full device, or a closed pipe" \
    mute "$advfs" run look home.img
ends "standard error is closed" 13 "" silent "$advfs" mkfdmn home.img
printf 'frob\n' >odd
ends "standard error is closed, a bad script" 5 "" silent "$advfs" run odd home.img
ends "standard input is closed" 3 "standard input could not be read" \
    deaf "$advfs" put home.img home:/stdin
ends "what was not put" 14 "E3 no-path" "$advfs" get home.img home:/stdin
cp home.img copy.img
mute "$advfs" run change copy.img 2>told
[ $? = 8 ] || { echo "a run without standard output does not end with 8"; failed=1; }
ends "an image after that" 0 "sound" "$advfs" verify copy.img

# locks: an image has one program that writes, or some that look
if command -v flock >/dev/null; then
    ends "run on a used image" 12 "home.img cannot be opened: another program uses it" \
        flock -s home.img "$advfs" run make home.img
    ends "mkfdmn -o on a used image" 12 "another program uses it" \
        flock -s home.img "$advfs" mkfdmn -o home.img
    ends "verify beside a look" 0 "sound" flock -s home.img "$advfs" verify home.img
    ends "verify beside a writer" 12 "another program uses it" \
        flock -x home.img "$advfs" verify home.img
else
    echo "locks of another program: not tried, since flock is missing"
fi

# two at once: each ends with 0 and has its work in the image, or ends with 12 and has not
round=0
while [ $round -lt 10 ]; do
    round=$((round + 1))
    script left "create home:/l$round 0 0"
    script right "create home:/r$round 0 0"
    "$advfs" run left home.img >out_left 2>told_left &
    left=$!
    "$advfs" run right home.img >out_right 2>told_right
    echo "r$round $?" >>rounds
    wait $left
    echo "l$round $?" >>rounds
done
"$advfs" run look home.img >out 2>told
while read -r file status; do
    tries=$((tries + 1))
    there=no
    grep -qE " $file( |\$)" out && there=yes
    case "$status $there" in
    "0 yes" | "12 no") ;;
    *) echo "two at once: $file ended with $status, in the image: $there"; failed=1 ;;
    esac
done <rounds

# images and odd files
ends "an image named twice" 12 "home.img cannot be opened: it is named twice" \
    "$advfs" verify home.img home.img
ln -s home.img link.img
ends "an image named twice by a link" 12 "link.img cannot be opened: it is named twice" \
    "$advfs" run make home.img link.img
ends "nine images" 2 "with one to eight images" "$advfs" verify 1 2 3 4 5 6 7 8 9
ends "no image" 12 "none.img cannot be opened: No such file" "$advfs" verify none.img
ends "no image for a script" 12 "none.img cannot be opened: No such file" \
    "$advfs" run look none.img
ends "no script" 12 "none cannot be opened: No such file" "$advfs" run none home.img
ends "a directory for an image" 12 "it is a directory" "$advfs" verify .
ends "a character device" 12 "neither a file nor a block device" "$advfs" verify /dev/null
mkfifo pipe.img
ends "a pipe" 12 "neither a file nor a block device" "$advfs" verify pipe.img
cp home.img long.img
truncate -s 5M long.img
ends "an image longer than its domain" 0 "the domain uses the first 512" \
    "$advfs" verify long.img
head -c 100000 /dev/zero >zeros.img
ends "a look at an image longer than its domain" 0 "the domain uses the first 512" \
    "$advfs" run look long.img
ends "zeros" 9 "code 2: no anchor counts" "$advfs" verify zeros.img
ends "get of no domain" 6 "no anchor counts" "$advfs" get zeros.img home:/a
ends "a look at no domain" 6 "no anchor counts" "$advfs" list zeros.img home:/

# a block device, whose size is not that of its file
truncate -s 4M block.img
device=$(losetup -f --show block.img 2>/dev/null)
if [ "$device" ] && dd if=/dev/zero of="$device" bs=512 count=1 2>/dev/null; then
    ends "mkfdmn on a block device" 0 "512 pages (4.0 MiB)" "$advfs" mkfdmn "$device"
    ends "verify of a block device" 0 "sound; version 4" "$advfs" verify "$device"
    ends "a block device named twice" 12 "it is named twice" "$advfs" verify "$device" "$device"
else
    echo "a block device: not tried, since none may be set up and written here"
fi
[ -z "$device" ] || losetup -d "$device"

# a domain of two volumes: the second is written here by hand, as docs/FORMAT.md has it
at() {
    dd of="$1" bs=1 seek="$2" conv=notrunc 2>/dev/null
}
truncate -s 4M one.img two.img
"$advfs" mkfdmn one.img 2>told || { echo "mkfdmn failed"; cat told; failed=1; }
printf 'ADVFSLAB\004\0\0\0\002\0\0\0\0\002\0\0\001\0\0\0' | at two.img 0
printf '\017' | at two.img 16384
head -c 8128 /dev/zero | tr '\0' '\377' | at two.img 16448
printf 'BMTP\0\0\0\0\0\0\0\0\033\0\0\0' | at two.img 24576
printf '\004\020\0\0\0\014\0\020\0\002\0\0\0\0\002\0\0\001\0\0\0' | at two.img 24607
printf '\0\002\0\0\001\0\0\0' | at one.img 8760
ends "two volumes" 0 "two.img: sound; version 4, 512 pages" "$advfs" verify one.img two.img
ends "the counts of two volumes" 0 "one.img: sound; version 4, 0 filesets, 0 files, 512 pages" \
    "$advfs" verify one.img two.img
ends "the first of two volumes" 6 "No image is named for volume 2" "$advfs" run look one.img
ends "the first of two volumes is verified" 9 "no image is named for it" "$advfs" verify one.img
ends "the second of two volumes" 6 "an image of it is not named" "$advfs" run look two.img
ends "two volumes in the other order" 9 "its images stand in another order" \
    "$advfs" verify two.img one.img
ends "a look at two volumes in the other order" 6 "its images stand in another order" \
    "$advfs" run look two.img one.img
script both "mkfset home" "create home:/a 0 0" "write home:/a 0 41x8192" "showfdmn"
"$advfs" run both one.img two.img >out 2>told || { echo "run on two failed"; cat told; failed=1; }
grep -qE 'showfdmn -> ok 1:512:[0-9]+:[0-9]+:L 2:512:[0-9]+:[0-9]+:-' out || {
    echo "showfdmn does not tell two volumes:"
    cat out
    failed=1
}
ends "two volumes after a run" 0 "one.img: sound" "$advfs" verify one.img two.img

# files in and out, and looks without a script
head -c 30000 /dev/urandom >file
"$advfs" put --owner 10:20 home.img home:/file <file 2>told || { cat told; failed=1; }
ends "get" 0 "" "$advfs" get home.img home:/file
cmp -s out file || { echo "get does not give what was put"; failed=1; }
head -c 100 file >short
"$advfs" put home.img home:/file <short 2>told || { cat told; failed=1; }
ends "get of what was replaced" 0 "" "$advfs" get home.img home:/file
cmp -s out short || { echo "get does not give what was put again"; failed=1; }
: >empty
"$advfs" put home.img home:/empty <empty 2>told || { cat told; failed=1; }
ends "get of an empty file" 0 "" "$advfs" get home.img home:/empty
cmp -s out empty || { echo "get gives bytes of an empty file"; failed=1; }
ends "get of what is not there" 14 "read home:/none 0 8192 -> E3 no-path" \
    "$advfs" get home.img home:/none
ends "get of a directory" 2 "advfs get IMAGE.. FS:/PATH > FILE" "$advfs" get home.img home:/
ends "put into no fileset" 14 "-> E1 no-fileset" "$advfs" put home.img none:/a
ends "put into no directory" 14 "-> E3 no-path" "$advfs" put home.img home:/none/a
ends "put over a directory" 2 "\`home:/\` does not fit" "$advfs" put home.img home:/
ends "put with a wrong owner" 2 "\`10\` does not fit" \
    "$advfs" put --owner 10 home.img home:/a
"$advfs" get home.img home:/file | "$advfs" put home.img home:/copy
ends "put of what get prints" 0 "" "$advfs" get home.img home:/copy
cmp -s out short || { echo "put does not take what get prints of the same image"; failed=1; }
head -c 5000000 /dev/zero >large
to_small() {
    "$advfs" put other.img home:/large <large
}
"$advfs" run make other.img >out 2>told || { echo "run failed"; cat told; failed=1; }
ends "put of more than there is room for" 14 "-> E20 no-space" to_small

# a file that takes several scripts to be put in and taken out
truncate -s 64M big.img && "$advfs" mkfdmn big.img 2>told && "$advfs" run make big.img >out ||
    { echo "a large domain is not made"; failed=1; }
head -c 20000000 /dev/urandom >big
tries=$((tries + 1))
"$advfs" put big.img home:/big <big 2>told || { cat told; failed=1; }
[ ! -s told ] || { echo "put tells something where no terminal is:"; cat told; failed=1; }
"$advfs" get big.img home:/big 2>told | cmp - big ||
    { echo "a file of several scripts does not come back"; failed=1; }

# what a long command tells on a terminal
if env script --version >/dev/null 2>&1; then
    tries=$((tries + 1))
    env script -qec "'$advfs' put home.img home:/typed <short" /dev/null </dev/null >typed
    grep -qF "the image is being written" typed ||
        { echo "put tells nothing on a terminal:"; cat typed; failed=1; }
    "$advfs" run - home.img >out 2>told <<'END'
client 1
unlink home:/typed
END
else
    echo "what is told on a terminal: not tried, since script is missing"
fi

shows() {
    grep -qE -- "$2" out || { echo "$1: does not show \"$2\" but:"; cat out; failed=1; }
}
ends "list" 0 "" "$advfs" list home.img home:/
shows "list" "^file +10 +20 +100 B  file\$"
ends "list -m" 0 "" "$advfs" list -m home.img home:/
shows "list -m" "^c1 list home:/ -> ok a copy empty file"
ends "list of what is not there" 14 "list none:/ -> E1 no-fileset" "$advfs" list home.img none:/
ends "showfsets" 0 "" "$advfs" showfsets home.img
shows "showfsets" "^home +[0-9]+ +- +[0-9.]+ KiB +-\$"
ends "showfdmn" 0 "" "$advfs" showfdmn home.img
shows "showfdmn" "^ +1 +4.0 MiB .* log +home.img\$"
ends "showfdmn -m" 0 "" "$advfs" showfdmn -m home.img
shows "showfdmn -m" "^c1 showfdmn -> ok 1:512:"

# words of the command line
ends "no words" 2 "advfs --help lists the commands" "$advfs"
ends "an unknown command" 2 "\`mkfs\` is not a command of advfs" "$advfs" mkfs home.img
ends "the form that comes nearest" 2 "The form of mkfdmn is: advfs mkfdmn [-3] [-o] IMAGE" \
    "$advfs" mkfs home.img
ends "an option out of place" 2 "look at \`-o\`" "$advfs" mkfdmn -o -3 home.img
ends "a missing word" 2 "advfs run [-r] SCRIPT IMAGE.." "$advfs" run make
ends "a word too many" 2 "advfs mkfdmn [-3] [-o] IMAGE" "$advfs" mkfdmn home.img home.img

# bad scripts: the line, and what is wrong with it
bad() {
    printf '%s\n' "$3" "$4" >bad
    ends "bad script, $1" 5 "$2" "$advfs" run bad home.img
}
bad "its line" "line 2: rename home:/a home:/b" "client 1" "rename home:/a home:/b"
bad "a path" "word 2: \`home:/b\` is no PATH, which begins with /" \
    "client 1" "rename home:/a home:/b"
bad "the forms" "rename NAMED PATH" "client 1" "rename home:/a home:/b"
bad "a count" "2 words after write, which takes 3: write P OFFSET BYTES" \
    "client 1" "write home:/a 0"
bad "a space" "in a name a space is %20" "client 1" "create home:/a b 10 20"
bad "a number" "word 2: \`-1\` is no OFFSET, a number below 2^64" "client 1" "read home:/a -1 3"
bad "an unknown word" "\`frob\` is not a command" "client 1" "frob home"
bad "a word that is to come" "\`balance\` is a command that is not built yet" \
    "client 1" "balance"
bad "no section" "a script begins with \`client 1\`" "mkfset home" "client 1"
bad "the ID of a fileset" "word 3: \`5\` is no ID, a number below 4294967296, and 0 after fileset" \
    "client 1" "setquota home fileset 5 1 1"
bad "a client" "word 1: \`9\` is no N, a number from 1 to 8" "client 9" "mkfset home"

echo "$tries tries"
exit $failed
