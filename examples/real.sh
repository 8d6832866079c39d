#!/usr/bin/env bash
# Counts which definitions of published crates the program expands.
#
# Usage: examples/real.sh FOLDER PROGRAM
#
# FOLDER has unpacked crates, each in a folder of its own, such as /usr/share/cargo/registry where packages
# librust-*-dev are installed. Their structs and enums that derive one of the nine traits are given to the program, with
# `educe` attributes in place of these derives. Prints a line for each that is rejected, the reasons, and the numbers.
set -eu
folder=${1:?usage: examples/real.sh FOLDER PROGRAM}
program=${2:?usage: examples/real.sh FOLDER PROGRAM}
PYTHONDONTWRITEBYTECODE=1 python3 "$(dirname "$0")/real.py" "$folder" "$program"
