#!/usr/bin/env bash
# What a derive through the macro costs the compiler.
#
# Usage: bench/derive.sh PROGRAM [TYPES]
#
# Makes a package of 500 types, or as many as are given, with ten fields of integers and nine traits, and measures the
# user and system time of `cargo check` for it: without a derive, with the built-in derives and with the macro, the least
# of three runs each. Prints the seconds, and the milliseconds that a derive adds.
set -eu
program=${1:?usage: bench/derive.sh PROGRAM [TYPES]}
types=${2:-500}
program=$(cd "$(dirname "$program")" && pwd)/$(basename "$program")
derive=$(cd "$(dirname "$0")/../cargo/educe" && pwd)
folder=$(mktemp -d)
trap 'rm -rf "$folder"' EXIT
cp -R "$derive" "$folder/educe"
export EDUCE="$program" CARGO_TARGET_DIR="$folder/target" CARGO_NET_OFFLINE=true

traits="Debug, Clone, Copy, PartialEq, Eq, PartialOrd, Ord, Hash, Default"

# A package whose types have these attributes.
make_package() {
  mkdir -p "$folder/$1/src"
  printf '[package]\nname = "%s"\nversion = "0.1.0"\nedition = "2021"\n\n[dependencies]\neduce = { path = "../educe" }\n' "$1" > "$folder/$1/Cargo.toml"
  for number in $(seq "$types"); do
    printf '%s pub struct S%d { pub a: u8, pub b: u16, pub c: u32, pub d: u64, pub e: u128, pub f: i8, pub g: i16, pub h: i32, pub i: i64, pub j: i128 }\n' "$2" "$number"
  done > "$folder/$1/src/lib.rs"
}

# The user and system seconds of a check of the package, the least of three; what it depends on is built before.
seconds() {
  cd "$folder/$1"
  cargo check --quiet
  for _ in 1 2 3; do
    touch src/lib.rs
    { time -p cargo check --quiet; } 2>&1 | awk '/^(user|sys)/ { sum += $2 } END { print sum }'
  done | sort -n | head -n 1
}

make_package none ""
make_package built_in "#[derive($traits)]"
make_package macro "#[derive(educe::Educe)] #[educe($traits)]"
none=$(seconds none)
for name in built_in macro; do
  seconds $name | awk -v name=$name -v none="$none" -v types="$types" '{ printf "%-9s %6.2f s, %5.2f ms a derive above %.2f s\n", name, $1, ($1 - none) * 1000 / types, none }'
done
