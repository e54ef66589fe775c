#!/bin/sh
# The unit's time for one query beside SQLite's, for some books and queries: see bench/answers.py. Builds nothing.
cd "$(dirname "$0")/.." || exit 1
[ -x crates/unit/out/unit ] || { echo "no crates/unit/out/unit: run rt run in crates/unit"; exit 1; }
exec python3 bench/answers.py
