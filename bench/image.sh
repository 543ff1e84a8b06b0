#!/bin/sh
# Times calls of the program on an image of 65,536 pages of 8,192 bytes, each as a ratio to the time
# of copying that image and syncing the copy: mkfdmn; a run of 2,000 writes of one page each; a run
# that makes and writes 2,000 files in 20 directories; after each of these runs one of a script
# without a command, which attaches the domain and closes it; and verify. It needs 1.1 GB in the
# folder that is named, or in the one for temporary files.
top=$(cd "$(dirname "$0")/.." && pwd) || exit 1
"$top/advfs" --version >&2 || exit 1
folder=$(mktemp -d "${1:-${TMPDIR:-/tmp}}/advfs_bench.XXXXXX") || exit 1
trap 'rm -rf "$folder"' EXIT
image=$folder/image

# the time of the command after the first word, in seconds; the first word is its name
timed() {
    name=$1
    shift
    began=$(date +%s.%N)
    "$@" >"$folder/out" || { echo "$name ends with $?" >&2; exit 1; }
    ended=$(date +%s.%N)
    seconds=$(echo "$began $ended" | awk '{ printf "%.3f", $2 - $1 }')
}

# prints the time, and its ratio to that of the copy
told() {
    echo "$name $seconds $copy" | awk '{ printf "%-28s %8.2f s %8.2f\n", $1, $2, $2 / $3 }'
}

# a file of 2,000 pages, each written by one command
pages() {
    echo "client 1"
    echo "mkfset home"
    echo "create home:/large 10 20"
    echo "client 2"
    seq 0 1999 | awk '{ printf "write home:/large %d 41x8192\n", 8192 * $1 }'
}

# 2,000 files in 20 directories, each with a few bytes
files() {
    echo "client 3"
    echo "mkfset many"
    seq 0 19 | awk '{ printf "mkdir many:/d%d 10 20\n", $1 }'
    echo "client 4"
    seq 0 1999 | awk '{ printf "create many:/d%d/f%d 10 20\n", $1 % 20, $1 }'
    echo "client 5"
    seq 0 1999 | awk '{ printf "write many:/d%d/f%d 0 \"a few bytes\"\n", $1 % 20, $1 }'
}

copied() { cp "$image" "$folder/copy" && sync "$folder/copy"; }

dd if=/dev/zero of="$image" bs=1M count=512 2>/dev/null && sync "$image"
timed copy copied
copy=$seconds
told
rm "$folder/copy"
pages >"$folder/pages.advfs"
files >"$folder/files.advfs"
echo "client 1" >"$folder/nothing.advfs"
timed mkfdmn "$top/advfs" mkfdmn "$image" && told
timed pages "$top/advfs" run "$folder/pages.advfs" "$image" && told
timed attach_pages "$top/advfs" run "$folder/nothing.advfs" "$image" && told
timed verify_pages "$top/advfs" verify "$image" && told
timed files "$top/advfs" run "$folder/files.advfs" "$image" && told
timed attach_files "$top/advfs" run "$folder/nothing.advfs" "$image" && told
timed verify_files "$top/advfs" verify "$image" && told
