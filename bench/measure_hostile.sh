#!/usr/bin/env bash
# measure_hostile.sh PROGRAM: how long PROGRAM judges each shape of make_hostile.py, beside sha256sum of the same file, and its
# peak memory. Least of three runs. Every shape has a `yes`.
set -eu
program=$(realpath "$1")
bench=$(dirname "$(realpath "$0")")
work=$(mktemp -d)
trap 'rm -rf "$work"' EXIT
printf '%-16s %8s %9s %9s %7s %8s %7s\n' shape MB seconds sha256 ratio RSS_MB RSS/MB
for shape in nested renames bytes handles eras; do
  python3 "$bench/make_hostile.py" "$shape" "$work"
  python3 "$bench/measure_one.py" "$program" "$work/$shape" "$shape"
  rm "$work/$shape".*
done
