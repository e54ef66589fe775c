#!/bin/sh
# The time for one sheet of a large answer: see bench/sheets.c. Needs a C compiler and the archive that `rt lib` writes in
# crates/host_c.
cd "$(dirname "$0")/.." || exit 1
archive=crates/host_c/out/libhost_c.a
[ -r "$archive" ] || { echo "no $archive: run rt lib in crates/host_c"; exit 1; }
program=$(mktemp) || exit 1
trap 'rm -f "$program"' EXIT
"${CC:-cc}" -std=c11 -O2 -Wall -Wextra -Werror -Iinclude bench/sheets.c "$archive" -o "$program" && "$program" && "$program" && "$program"
