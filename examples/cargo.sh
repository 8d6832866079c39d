#!/usr/bin/env bash
# Tries the derive macro with the program.
#
# Usage: examples/cargo.sh PROGRAM [DOCUMENTATION]
#
# Builds cargo/educe, runs its tests and makes its documentation, and runs the tests of cargo/examples. Then the files of
# cargo/faults are built, whose errors have to be those that they say, and a definition with programs that give no answer.
# Last, definitions without the macro: what expand.sh prints for them is compiled and run.
#
# DOCUMENTATION is the file src/lib.rs of the crate educe 0.8.1. The examples in its documentation are built and run;
# those that need what is left out here stand in cargo_documentation.txt, with the reasons.
#
# Everything is built in a temporary folder, and nothing is fetched. Where cargo is missing, nothing is done.
set -eu
program=${1:?usage: examples/cargo.sh PROGRAM [DOCUMENTATION]}
documentation=${2:-}
program=$(cd "$(dirname "$program")" && pwd)/$(basename "$program")
[ -z "$documentation" ] || documentation=$(cd "$(dirname "$documentation")" && pwd)/$(basename "$documentation")
cd "$(dirname "$0")"
examples=$PWD

if ! command -v cargo > /dev/null; then
  echo "cargo is missing: nothing is built"
  exit 0
fi

folder=$(mktemp -d)
trap 'rm -rf "$folder"' EXIT
cp -R ../cargo "$folder/cargo"
derive=$folder/cargo/educe
export PYTHONDONTWRITEBYTECODE=1 CARGO_TARGET_DIR="$folder/target" CARGO_NET_OFFLINE=true
export RUSTFLAGS="-D warnings" RUSTDOCFLAGS="-D warnings"
status=0

echo "cargo/educe:"
(cd "$derive" && EDUCE=$program cargo test --quiet && EDUCE=$program cargo doc --quiet) || status=1
echo "cargo/examples:"
(cd "$folder/cargo/examples" && EDUCE=$program cargo test --quiet) || status=1

unset RUSTFLAGS RUSTDOCFLAGS
echo "cargo/faults:"
python3 cargo_faults.py "$program" "$derive" "$folder/cargo/faults" "$folder/faults" || status=1
echo "without the macro:"
python3 cargo_stripped.py "$program" "$examples/expand.sh" "$folder/stripped" || status=1
if [ -n "$documentation" ]; then
  python3 cargo_documentation.py "$program" "$derive" cargo_documentation.txt "$documentation" "$folder/documentation" || status=1
fi
exit "$status"
