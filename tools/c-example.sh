#!/bin/sh
# Builds the static library for C and the example program, and runs it on the example books under valgrind.
#
#   tools/c-example.sh
#
# Leaves target/c/libtranslator.a and target/c/check. Needs rt, a C compiler (cc) and valgrind. Ends with status 0 where
# the program says what is expected of it and valgrind finds no fault.
set -eu
cd "$(dirname "$0")/.."
(cd crates/exports && rt lib > /dev/null)
mkdir -p target/c
cp crates/exports/out/libexports.a target/c/libtranslator.a
cc -std=c99 -Wall -Wextra -Werror -pedantic -O2 -Iinclude -o target/c/check examples/check.c target/c/libtranslator.a

printf '' > target/c/empty.book
printf 'examples/relay.book model\nexamples/damaged.book - 4 5\ntarget/c/empty.book - 1 0\n' > target/c/expected
valgrind --quiet --error-exitcode=9 target/c/check examples/relay.book examples/damaged.book target/c/empty.book > target/c/said || [ $? -eq 1 ]
diff target/c/expected target/c/said
echo 'the C example says what is expected, and valgrind finds no fault'
