#!/usr/bin/env bash
# Runs the unit tests of published crates with the program's impls in place of the built-in derives.
#
# Usage: examples/crates.sh FOLDER PROGRAM [NAME..]
#
# FOLDER has unpacked crates with their dependencies, such as /usr/share/cargo/registry where packages librust-*-dev are
# installed. Each of them, or each that is named, is copied; in the copy the derive macro takes the place of the derives of
# the nine traits, and the unit tests are run. Prints a line for each crate: the definitions concerned, and the tests that
# pass; where they don't, how many pass with the built-in derives. Dependencies that are optional or only for tests are
# left out where they are not installed.
#
# Everything is built in a temporary folder, and nothing is fetched.
set -eu
folder=${1:?usage: examples/crates.sh FOLDER PROGRAM [NAME..]}
program=${2:?usage: examples/crates.sh FOLDER PROGRAM [NAME..]}
shift 2
folder=$(cd "$folder" && pwd)
program=$(cd "$(dirname "$program")" && pwd)/$(basename "$program")
temporary=$(mktemp -d)
trap 'rm -rf "$temporary"' EXIT
cp -R "$(dirname "$0")/../cargo/educe" "$temporary/educe"
PYTHONDONTWRITEBYTECODE=1 python3 "$(dirname "$0")/crates.py" "$folder" "$program" "$temporary/educe" "$temporary/crates" "$@"
