#!/bin/sh
# Tries the program when something outside of it goes wrong: an image or a script that does not
# exist, an image that may not be written, a directory in place of an image, an image that is named
# twice, standard output that takes nothing, and an image on a full device. Each has to end with its
# number and, except on the full device, to leave the image as it was. It says what cannot be tried
# on this machine. It needs a few MB in the folder that is named, or in the one for temporary files.
# ADVFS is the program, if it is not ./advfs.
top=$(cd "$(dirname "$0")/.." && pwd) || exit 1
advfs=${ADVFS:-$top/advfs}
"$advfs" --version >&2 || exit 1
folder=$(mktemp -d "${1:-${TMPDIR:-/tmp}}/advfs_edges.XXXXXX") || exit 1
trap 'umount "$folder/small" 2>/dev/null; rm -rf "$folder"' EXIT
image=$folder/image
failed=0

# says whether the command after the first two words ends with the number and leaves the image as
# it was
ends() {
    number=$1
    name=$2
    shift 2
    "$@" >"$folder/out" 2>"$folder/told"
    got=$?
    if [ "$got" != "$number" ]; then
        echo "$name: ends with $got, not with $number"
        failed=1
    elif ! cmp -s "$image" "$folder/same"; then
        echo "$name: the image is not as it was"
        failed=1
    else
        echo "$name: ok"
    fi
}

to_full() { "$@" >/dev/full; }

truncate -s 4M "$image"
"$advfs" mkfdmn "$image" || exit 1
cp "$image" "$folder/same"
printf 'client 1\nmkfset home\n' >"$folder/script"
printf 'client 1\nshowfsets\n' >"$folder/looks"

ends 12 "no image" "$advfs" run "$folder/script" "$folder/none"
ends 12 "no script" "$advfs" run "$folder/none" "$image"
ends 12 "a directory for an image" "$advfs" run "$folder/script" "$folder"
ends 12 "the image named twice" "$advfs" run "$folder/script" "$image" "$image"
ends 8 "standard output is full" to_full "$advfs" run "$folder/looks" "$image"

if [ "$(id -u)" = 0 ]; then
    echo "an image that may not be written: not tried, since root may write everything"
else
    chmod a-w "$image"
    ends 12 "an image that may not be written" "$advfs" run "$folder/script" "$image"
    ends 0 "it may be verified" "$advfs" verify "$image"
    chmod u+w "$image"
fi

mkdir "$folder/small"
if mount -t tmpfs -o size=32k none "$folder/small" 2>/dev/null; then
    truncate -s 4M "$folder/small/image"
    ends 7 "a full device" "$advfs" mkfdmn "$folder/small/image"
else
    echo "a full device: not tried, since nothing may be mounted here"
fi
exit $failed
