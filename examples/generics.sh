#!/usr/bin/env bash
# Runs what the program prints for definitions with generic parameters.
#
# Usage: examples/generics.sh PROGRAM
#
# The definitions are those of generics.py: each class of types, each kind of bound, packed structs, inherited
# predicates, constants, lifetimes, defaults, where clauses, recursive types, markers, references and function
# pointers. Each is compiled without its `educe` attributes, with what the built program prints for it, and used at
# one type. `Ord` and `PartialOrd` ask for other traits, which are added where they are not listed. Then those of
# docs/DIFFERENCES.md that rustc rejects: it has to reject them still.
#
# Where rustc is missing, nothing is done.
set -eu
program=${1:?usage: examples/generics.sh PROGRAM}
case $program in
  */*) program=$(cd "$(dirname "$program")" && pwd)/$(basename "$program") ;;
esac
cd "$(dirname "$0")"

if ! command -v rustc > /dev/null; then
  echo "rustc is missing: no example is run"
  exit 0
fi

folder=$(mktemp -d)
trap 'rm -rf "$folder"' EXIT
PYTHONDONTWRITEBYTECODE=1
export PYTHONDONTWRITEBYTECODE
python3 generics.py "$program" "$folder"
