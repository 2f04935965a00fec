#!/usr/bin/env bash
# Proves and builds the library for C, compiles the test program and the example with it, and runs both: the committed
# tables have to come out right, and the example has to print examples/c/check_sheet.txt. The programs stay in target/c.
set -eu
cd "$(dirname "$0")/../.."
(cd crates/capi && rt lib)
mkdir -p target/c
flags="-std=c99 -O1 -Wall -Wextra -Werror -pedantic -Iinclude"
library=crates/capi/out/libcapi.a
cc $flags tests/c/table.c $library -o target/c/table
cc $flags examples/c/check_sheet.c $library -o target/c/check_sheet
target/c/table tests/c/by_hand.txt tests/c/random.txt
target/c/check_sheet | diff examples/c/check_sheet.txt -
