#!/usr/bin/env bash
# Compares the documents with the program and with the sources.
#
# Usage: examples/attributes.sh PROGRAM
#
# Compared are the blocks of docs/ATTRIBUTES.md and the first example of README.md with what the program prints, the
# two tables of docs/ATTRIBUTES.md that decide bounds with crates/educe_bound_classes/src/tables.rt, and the linter of
# README.md with crates/educe_linter/src/lib.rt.
set -eu
program=${1:?usage: examples/attributes.sh PROGRAM}
case $program in
  */*) program=$(cd "$(dirname "$program")" && pwd)/$(basename "$program") ;;
esac
cd "$(dirname "$0")"
PYTHONDONTWRITEBYTECODE=1
export PYTHONDONTWRITEBYTECODE
python3 attributes.py "$program"
