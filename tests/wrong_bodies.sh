#!/bin/sh
# Tries the wrong bodies of tests/wrong_bodies/, which are no part of the gate: a crate with even one costs the gate its
# whole proof once more, and the gate has to end within its time. The files there are as those of a crate's must-fail/.
set -u
usage='usage: tests/wrong_bodies.sh [CRATE..]

Tries the wrong bodies tests/wrong_bodies/CRATE/*.edit of the crates that are named, or of all there, by "rt must-fail" in a
copy of the sources that stand in this checkout. The status is 0 where each was refused. What "rt" kept no proof of is proved
first: minutes for a crate far below, hours for all.'
root=$(CDPATH='' cd -- "$(dirname -- "$0")/.." && pwd) || exit 125
case ${1-} in
    -h | --help)
        printf '%s\n' "$usage"
        exit
        ;;
    -*)
        printf '%s\n' "$usage" >&2
        exit 2
        ;;
esac

stop() {
    printf 'wrong_bodies: %s\n' "$1" >&2
    exit 1
}

bodies=$root/tests/wrong_bodies
if [ $# = 0 ]; then
    for folder in "$bodies"/*/; do
        folder=${folder%/}
        set -- "$@" "${folder##*/}"
    done
fi
for crate in "$@"; do
    [ -d "$root/crates/$crate" ] || stop "no crate $crate"
    ls "$bodies/$crate"/*.edit >/dev/null 2>&1 || stop "no wrong body of $crate"
done

# The sources, as they stand in the checkout. What `rt` made of them stays there, as it is large, and so do the wrong bodies
# of the gate, which has tried them.
room=$(mktemp -d) || exit 125
trap 'rm -rf "$room"' EXIT
trap 'exit 129' HUP
trap 'exit 130' INT
trap 'exit 143' TERM
copy=$room/copy
mkdir -p "$copy/crates" && cp "$root/crates.txt" "$root/HANDLES" "$copy" || exit 1
for folder in "$root"/crates/*/; do
    crate=${folder%/}
    crate=${crate##*/}
    mkdir "$copy/crates/$crate" || exit 1
    for part in "$folder"*; do
        case ${part##*/} in
            out | must-fail | '*') ;;
            *) cp -R "$part" "$copy/crates/$crate" || exit 1 ;;
        esac
    done
done
count=0
for crate in "$@"; do
    mkdir -p "$copy/crates/$crate/must-fail" && cp "$bodies/$crate"/*.edit "$copy/crates/$crate/must-fail" || exit 1
    count=$((count + $(find "$bodies/$crate" -name '*.edit' | wc -l)))
done

# What `rt` prints is shown as it comes, and kept: an edit that doesn't fit, or doesn't compile, shows nothing.
echo "$count wrong bodies of $# crates"
cd "$copy" || exit 1
{
    rt must-fail "$@" 2>&1
    echo $? >"$room/status"
} | tee "$room/said"
read -r status <"$room/status" || status=1
if grep -q 'BAD EDIT' "$room/said"; then
    stop 'not each wrong body could be tried'
fi
refused=$(grep -c '^rt: must-fail [^:]*: refused' "$room/said")
if [ "$status" != 0 ] || [ "$refused" != "$count" ]; then
    stop "$refused of $count were refused"
fi
echo "$count refused"
