#!/bin/sh
# Takes the directories and files that are in a directory of a domain out into a new directory of
# this machine:
#   bench/export.sh IMAGE FS:/PATH DIRECTORY
# Names with a newline, and names that would lead out of the new directory, are left out, and told.
# It ends with 0 if all files are taken out. ADVFS is the program, if it is not ./advfs.
top=$(cd "$(dirname "$0")/.." && pwd) || exit 1
if [ $# != 3 ]; then
    echo "usage: bench/export.sh IMAGE FS:/PATH DIRECTORY" >&2
    exit 2
fi
unset CDPATH
advfs=${ADVFS:-$top/advfs}
case $advfs in
/*) ;;
*/*) advfs=$PWD/$advfs ;;
esac
image=$(readlink -f "$1") && place=${2%/} && mkdir "$3" && cd "$3" || exit 1
case $place in
*:) start=$place/ ;;
*) start=$place ;;
esac
"$advfs" --version >/dev/null || exit 1
work=$(mktemp -d "${TMPDIR:-/tmp}/advfs_export.XXXXXX") || exit 1
trap 'rm -rf "$work"' EXIT
LC_ALL=C
export LC_ALL
failed=0

# the bytes of a path that scripts write with % and hexadecimal digits
decode() {
    awk '
        function value(digit) { return index("0123456789abcdef", digit) - 1 }
        {
            told = ""
            rest = $0
            while ((i = index(rest, "%")) > 0) {
                byte = 16 * value(substr(rest, i + 1, 1)) + value(substr(rest, i + 2, 1))
                told = told substr(rest, 1, i - 1) sprintf("%c", byte)
                rest = substr(rest, i + 3)
            }
            print told rest
        }'
}

# the paths of directories that are still to be listed, from the first one, which is empty
echo >"$work/folders"
while IFS= read -r folder; do
    [ "$folder" ] && listed=$place$folder || listed=$start
    "$advfs" list -m "$image" "$listed" >"$work/list" </dev/null || exit
    sed 's/^[^ ]* list [^ ]* -> ok *//' "$work/list" | tr ' ' '\n' | sed '/^$/d' >"$work/names"
    while IFS= read -r name; do
        path=$folder/${name%/}
        case $path in
        *%0a*)
            echo "export: left out: $place$path" >&2
            failed=1
            continue
            ;;
        esac
        file=.$(printf '%s\n' "$path" | decode)
        case $file in
        */../* | */..)
            echo "export: left out: $place$path" >&2
            failed=1
            continue
            ;;
        esac
        case $name in
        */)
            mkdir "$file" && printf '%s\n' "$path" >>"$work/folders" || failed=1
            ;;
        *)
            "$advfs" get "$image" "$place$path" >"$file" </dev/null || failed=1
            ;;
        esac
    done <"$work/names"
done <"$work/folders"
exit $failed
