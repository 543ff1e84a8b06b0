#!/bin/sh
# Makes a tree of 1,100 files, eleven in each directory, puts it into a new domain with
# bench/import.sh, takes it out again with bench/export.sh, and compares the two. It needs some 50
# MB in the folder that is named, or in the one for temporary files. ADVFS is the program, if it is
# not ./advfs, and DIRECTORIES the number of directories, if it is not 100.
top=$(cd "$(dirname "$0")/.." && pwd) || exit 1
advfs=${ADVFS:-$top/advfs}
"$advfs" --version >&2 || exit 1
folder=$(mktemp -d "${1:-${TMPDIR:-/tmp}}/advfs_trip.XXXXXX") || exit 1
trap 'rm -rf "$folder"' EXIT
cd "$folder" || exit 1

# sizes of files: none, around a page, and some pages
sizes="0 1 511 8191 8192 8193 20000 65536 3 100"
number=0
while [ $number -lt "${DIRECTORIES:-100}" ]; do
    directory="tree/part $((number % 7))/d$number"
    mkdir -p "$directory" || exit 1
    for size in $sizes; do
        head -c "$size" /dev/urandom >"$directory/file of $size%"
    done
    echo text >"$directory/back\\tslash \\0057"
    number=$((number + 1))
done

truncate -s 32M home.img && "$advfs" mkfdmn home.img || exit 1
printf 'client 1\nmkfset home\n' | "$advfs" run - home.img || exit 1
"$top/bench/import.sh" home.img home:/ tree || exit 1
"$advfs" verify home.img || exit 1
"$top/bench/export.sh" home.img home:/ back || exit 1
diff -r tree back || exit 1
echo "$(find back -type f | wc -l) files came back as they were"
