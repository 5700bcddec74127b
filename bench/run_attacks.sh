#!/usr/bin/env bash
# Wants the prover to refuse the wrong bodies that lie outside the gate: those of crates/NAME/attacks, each of which shows in
# another place what one of must-fail shows. Give names of crates, or none for all, or --core for those alone that docs/PROOFS.md names as what the
# promises are measured by. It works in a copy of the repository, as it is in the commit that is checked out, and ends with the
# status of `rt must-fail`. Allow half a minute an edit.
set -eu
top=$(cd "$(dirname "$0")/.." && pwd)
folder=$(mktemp -d)
trap 'rm -rf "$folder"' EXIT
git clone -q "$top" "$folder/copy"
cd "$folder/copy"
if [ "${1-}" = --core ]; then
  core=$(sed -n '/^## Wrong bodies that the promises/,/^These meet/p' docs/PROOFS.md | grep -oE '[a-z_0-9]+: `[a-z_0-9]+`' | tr -d ' `' | tr : /)
  mkdir core
  for edit in $core; do
    mkdir -p "core/${edit%/*}"
    mv "crates/${edit%/*}/attacks/${edit#*/}.edit" "core/${edit%/*}/"
  done
  set -- $(ls core)
  for name in "$@"; do
    rm -rf "crates/$name/attacks"
    mv "core/$name" "crates/$name/attacks"
  done
  rmdir core
fi
[ $# -gt 0 ] || set -- $(for attacks in crates/*/attacks; do basename "$(dirname "$attacks")"; done)
for name in "$@"; do
  rm -rf "crates/$name/must-fail"
  mv "crates/$name/attacks" "crates/$name/must-fail"
done
rt must-fail "$@"
