#!/bin/sh
# Puts the directories and files that are in a directory of this machine into one of a domain:
#   bench/import.sh IMAGE FS:/PATH DIRECTORY
# The directory FS:/PATH has to be there. Directories that are there already are used, and files
# that are there already are replaced. Each new file and directory gets the numbers of its owner
# and group here. Links and devices are left out, and told; so are names with a newline, and then it
# ends with 1. A file in the place of a directory ends it at once. It ends with 0 if all files are
# put. ADVFS is the program, if it is not ./advfs.
top=$(cd "$(dirname "$0")/.." && pwd) || exit 1
if [ $# != 3 ]; then
    echo "usage: bench/import.sh IMAGE FS:/PATH DIRECTORY" >&2
    exit 2
fi
unset CDPATH
advfs=${ADVFS:-$top/advfs}
case $advfs in
/*) ;;
*/*) advfs=$PWD/$advfs ;;
esac
image=$(readlink -f "$1") && place=${2%/} && cd "$3" || exit 1
"$advfs" --version >/dev/null || exit 1
work=$(mktemp -d "${TMPDIR:-/tmp}/advfs_import.XXXXXX") || exit 1
trap 'rm -rf "$work"' EXIT
LC_ALL=C
export LC_ALL
failed=0

# a name as scripts have it: % and two hexadecimal digits for what is no printable ASCII or a %
encode() {
    awk '
        BEGIN { for (i = 1; i < 256; i++) number[sprintf("%c", i)] = i }
        {
            sub(/^\.\//, "")
            told = ""
            for (i = 1; i <= length($0); i++) {
                byte = substr($0, i, 1)
                plain = byte ~ /[!-~]/ && byte != "%"
                told = told (plain ? byte : sprintf("%%%02x", number[byte]))
            }
            print told
        }'
}

# the numbers of the owner and the group of a file
owner_of() {
    ls -nd "$1" | awk '{ print $3, $4; exit }'
}

# directories, each after the one that it is in, in scripts of 1,900 commands: each is made, and
# then looked at, since it may be there already, or a file may be in its place
find . -type d ! -name . ! -path '*
*' >"$work/folders" || failed=1
encode <"$work/folders" >"$work/names" || failed=1
while IFS= read -r folder; do
    owner_of "$folder"
done <"$work/folders" | paste -d ' ' "$work/names" - | place=$place work=$work awk '
    BEGIN { place = ENVIRON["place"] "/"; work = ENVIRON["work"] }
    NR % 950 == 1 { script = sprintf("%s/script.%06d", work, NR); print "client 1" >script }
    { print "mkdir " place $0 >script; print "stat " place $1 >script }' || failed=1
for script in "$work"/script.*; do
    [ -e "$script" ] || continue
    "$advfs" run "$script" "$image" >"$work/replies" || exit
    if grep -v -e '^c1 mkdir .* -> ok$' -e '^c1 mkdir .* -> E4 exists$' \
        -e '^c1 stat .* -> ok dir ' "$work/replies" >&2; then
        exit 1
    fi
done

find . -type f ! -path '*
*' >"$work/files" || failed=1
encode <"$work/files" >"$work/names" || failed=1
while IFS= read -r file && IFS= read -r name <&3; do
    owner=$(owner_of "$file" | tr ' ' ':')
    "$advfs" put --owner "$owner" "$image" "$place/$name" <"$file" || failed=1
done <"$work/files" 3<"$work/names"

[ -z "$(find . \( -type f -o -type d \) -path '*
*' -print)" ] || failed=1
find . ! -type d ! -type f -o -path '*
*' | sed 's/^/import: left out: /' >&2
exit $failed
