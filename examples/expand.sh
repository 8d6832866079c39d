#!/usr/bin/env bash
# Prints a Rust file without its `educe` attributes, with the impls that they ask for behind each definition.
#
# Usage: examples/expand.sh PROGRAM FILE.rs [EDITION]
#
# The output is a Rust file that needs no macro: examples/expand.sh educe handle.educe.rs > src/handle.rs
# It is laid out by rustfmt for the edition, 2024 if none is given, where that is installed. If a definition is rejected,
# nothing is printed but the messages, with their places in the file.
set -eu
program=${1:?usage: examples/expand.sh PROGRAM FILE.rs [EDITION]}
file=${2:?usage: examples/expand.sh PROGRAM FILE.rs [EDITION]}
edition=${3:-2024}
folder=$(mktemp -d)
trap 'rm -rf "$folder"' EXIT
PYTHONDONTWRITEBYTECODE=1 python3 "$(dirname "$0")/strip.py" "$file" "$program" > "$folder/expanded.rs"
if ! command -v rustfmt > /dev/null || ! rustfmt --edition "$edition" --quiet < "$folder/expanded.rs"; then
  cat "$folder/expanded.rs"
fi
