#!/bin/sh
# Builds the examples of a host program, runs them on the paper's book and queries and on damaged input, and compares what
# they print with what the unit must print, and sheets with those of examples/sheets.py. Needs the Rattle kit, a C compiler (cc, or the one that CC names) and python3.
# Leaves nothing behind but the out/ of each crate. It is no part of the gate.
#   examples/run.sh [SEED]
top=$(cd "$(dirname "$0")/.." && pwd) || exit 1
cc=${CC:-cc}
for tool in rt "$cc" python3; do
    command -v "$tool" >/dev/null || { echo "examples/run.sh needs $tool" >&2; exit 1; }
done
folder=$(mktemp -d) || exit 1
trap 'rm -rf "$folder"' EXIT
book=$top/crates/unit/data/survey.book
queries=$top/crates/unit/stdin
archive=$folder/libhost.a
(cd "$top/crates/host_c" && rt lib) >"$folder/log" 2>&1 && cp "$top/crates/host_c/out/libhost_c.a" "$archive" ||
    { tail -n 20 "$folder/log" >&2; exit 1; }

fail() { echo "$1" >&2; exit 1; }
"$cc" -std=c11 -O2 -Wall -Wextra -Werror -I "$top/include" "$top/examples/host.c" "$archive" -o "$folder/host" &&
    "$cc" -std=c11 -O2 -Wall -Wextra -Werror -I "$top/include" "$top/examples/damaged.c" "$archive" -o "$folder/damaged" &&
    "$cc" -std=c11 -O2 -Wall -Wextra -Werror -I "$top/include" "$top/examples/sheets.c" "$archive" -o "$folder/sheets" &&
    "$cc" -shared -Wl,--whole-archive "$archive" -Wl,--no-whole-archive -o "$folder/libvingarbu.so" ||
    fail "not built"
"$folder/host" "$book" "$queries" | cmp - "$top/crates/unit/stdout" || fail "examples/host.c prints something else"
python3 "$top/examples/host.py" "$folder/libvingarbu.so" "$book" "$queries" | cmp - "$top/crates/unit/stdout" ||
    fail "examples/host.py prints something else"
echo "examples/host.c and examples/host.py print what the unit prints"
"$folder/sheets" "$book" "$queries" "$folder/answers" || fail "examples/sheets.c writes no sheets"
python3 "$top/examples/sheets.py" unit <"$top/crates/unit/stdout" | cmp - "$folder/answers" ||
    fail "examples/sheets.c writes other sheets"
echo "examples/sheets.c writes the sheets of the unit's answers"
python3 "$top/examples/sheets.py" "$folder/libvingarbu.so" || exit 1
"$folder/damaged" "$book" "$queries" "$@" || exit 1
