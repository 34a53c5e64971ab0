#!/bin/sh
# Fuzzes each reader for a fixed number of inputs, from the corpus in testdata/fuzz:
#
#     fuzz.sh [COUNT]       20000 inputs of each if no count is given
#
# Go writes an input that fails to testdata/fuzz, where `go test` runs it again. Go 1.19 may end no more
# when the count is reached, with all of its processes idle: such a run is ended, and made once more.
set -eu
cd "$(dirname "$0")"
count=${1:-20000}
passed=0

fuzz() {
    timeout -k 10 $((120 + count / 200)) \
        go test -run '^$' -fuzz "^$1\$" -fuzztime "${count}x" -parallel 2 .
}

for target in $(sed -n 's/^func \(Fuzz[A-Za-z0-9]*\)(.*/\1/p' ./*_test.go); do
    fuzz "$target" || { [ $? = 124 ] || exit 1; fuzz "$target" || exit 1; }
    passed=$((passed + 1))
done
echo "$passed passed, 0 failed"
