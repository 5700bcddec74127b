#!/usr/bin/env bash
# measure_large.sh [--bundle] PROGRAM [EVENTS..]: how long PROGRAM judges each kind of make_large.py with so many events (100000 and
# 1000000), beside sha256sum of the same file, and its peak memory. Least of three runs. Every history has a `yes`. KINDS="both starts" in the
# environment measures these kinds alone, whose servers held something at first.
set -eu
how=
[ "${1-}" = --bundle ] && { how=--bundle; shift; }
program=$(realpath "$1")
shift
[ $# -gt 0 ] || set -- 100000 1000000
bench=$(dirname "$(realpath "$0")")
work=$(mktemp -d)
trap 'rm -rf "$work"' EXIT
printf '%-16s %8s %9s %9s %7s %8s %7s\n' kind MB seconds sha256 ratio RSS_MB RSS/MB
for kind in ${KINDS-mixed writes dirs deep crashes lanes}; do
  for events in "$@"; do
    python3 "$bench/make_large.py" "$kind" "$events" 1 "$work"
    python3 "$bench/measure_one.py" "$program" "$work/$kind-$events" "$kind $events" $how
    rm "$work/$kind-$events".*
  done
done
