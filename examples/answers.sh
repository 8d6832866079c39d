#!/usr/bin/env bash
# Runs what the program prints, and compares what it answers with the worked examples and with what the
# traits mean.
#
# Usage: examples/answers.sh PROGRAM
#
# First the rows with values of five files in crates/educe_vectors/src/value_examples, which rt ci has the evaluator
# answer: here compiled code answers them. It is each definition without its `educe` attributes, what the built
# program prints for it, and functions that answer as the rows say. A call that no row names panics. `Ord` and
# `PartialOrd` ask for other traits, which are added where they are not listed. What `default` makes by an expression
# of the whole type has to match that expression as a pattern; `new` has to make what the row says of `default`. Each
# parameter of a definition of `Hash` or `Default` is at its default. Left out are calls whose outcome is `stuck`,
# calls with a value that no variant has, and definitions that rustc does not take by themselves, since two variants
# have one discriminant, a discriminant is too large for its type, or its expression has names that nothing declares.
#
# Then the enums of enums.py, on all pairs of a few values: the answers are those that the traits mean, by the
# discriminants that rustc computes.
#
# Then the definitions of clones.py, on all pairs of a few values: what is made and what is called is what `Clone` means.
#
# Last the evaluator is asked the same about these enums and definitions, where rt is there: evaluated.py prints them as
# tables of worked examples, which take the place of those of educe_vectors in a copy of the crates, whose other tests
# are left out and which rt then tests. That proves nothing.
#
# Where rustc is missing, nothing is done.
set -eu
program=${1:?usage: examples/answers.sh PROGRAM}
case $program in
  */*) program=$(cd "$(dirname "$program")" && pwd)/$(basename "$program") ;;
esac
cd "$(dirname "$0")"
examples=$PWD

if ! command -v rustc > /dev/null; then
  echo "rustc is missing: no example is run"
  exit 0
fi

folder=$(mktemp -d)
trap 'rm -rf "$folder"' EXIT
tables=../crates/educe_vectors/src/value_examples
status=0
PYTHONDONTWRITEBYTECODE=1
export PYTHONDONTWRITEBYTECODE
python3 answers.py "$program" "$folder" $tables/methods.rt $tables/enum_orders.rt $tables/packed.rt $tables/hashes.rt $tables/defaults.rt || status=1
python3 pairs.py "$program" "$folder" || status=1
python3 clones.py "$program" "$folder" || status=1

if ! command -v rt > /dev/null; then
  echo "rt is missing: the evaluator is not asked"
  exit $status
fi
mkdir "$folder/copy"
tar -C .. --exclude=out -cf - crates crates.txt HANDLES | tar -C "$folder/copy" -xf -
cd "$folder/copy/crates/educe_vectors"
python3 - src/lib.rt << 'LEFT_OUT'
import re, sys
text = open(sys.argv[1]).read()
open(sys.argv[1], "w").write(re.sub(r"#\[cfg\(test\)\]\nmod (bound_examples|examples);\n", "", text))
LEFT_OUT
rm -r src/examples src/examples.rt src/bound_examples src/bound_examples.rt src/value_examples/*
printf 'mod clones;\nmod enums;\n' > src/value_examples.rt
for table in clones enums; do
  python3 "$examples/evaluated.py" "$program" "$folder" $table > src/value_examples/$table.rt || status=1
done
rt try --test || status=1
exit $status
