#!/usr/bin/env bash
# Compiles what the program prints for each example.
#
# Usage: examples/compile.sh PROGRAM
#
# For each examples/*.rs: the definition without its `educe` attribute lines, and behind it what the built
# program prints for the definition, are compiled as a library into a temporary folder. Where rustc is
# missing, nothing is done.
set -eu
program=${1:?usage: examples/compile.sh PROGRAM}
case $program in
  */*) program=$(cd "$(dirname "$program")" && pwd)/$(basename "$program") ;;
esac
cd "$(dirname "$0")"

if ! command -v rustc > /dev/null; then
  echo "rustc is missing: no example is compiled"
  exit 0
fi

folder=$(mktemp -d)
trap 'rm -rf "$folder"' EXIT
failed=0
for example in *.rs; do
  name=${example%.rs}
  if ! "$program" expand < "$example" > "$folder/impls"; then
    echo "$name: rejected"
    failed=1
    continue
  fi
  {
    grep -v '^ *#\[educe(.*)\] *$' "$example" || true
    cat "$folder/impls"
  } > "$folder/$name.rs"
  if rustc --edition 2021 --crate-type lib -A dead_code --crate-name "$name" --out-dir "$folder" "$folder/$name.rs"; then
    echo "$name: compiled"
  else
    echo "$name: NOT COMPILED"
    failed=1
  fi
done
exit "$failed"
