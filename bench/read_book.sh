#!/bin/sh
# Microseconds for one reading of a book, for three books. `rows` (65,536 bytes or a few less): 4 attributes, 5 objects and
# 2,519 rows. `ring` (as long): 32 objects in a ring and 64 dependencies, each behind the one that it enables, so that closures
# take many passes; the rest is rows. `wide`, no rows: the slowest scheme of 64 objects that was found. A chain of 28 attributes,
# each of which determines those beside it, again with closures of many passes; 27 objects along the chain, so that sets of
# objects grow by one or two in a round; 37 objects of five attributes of the chain and one that nothing determines: they
# share more in round after round, are asked again each time and never join. Builds nothing: run `rt run` in crates/bench_read first.
# The time of starting the program is taken off by a run on an empty book.
cd "$(dirname "$0")/.." || exit 1
program=crates/bench_read/out/bench_read
[ -x "$program" ] || { echo "no $program: run rt run in crates/bench_read"; exit 1; }
books=$(mktemp -d)
python3 - "$books" <<'PY'
import struct, sys
word = lambda n: struct.pack('<I', n)
attributes = lambda n: b''.join(bytes([1, i, 0]) for i in range(n))
row = lambda number: bytes([4, number]) + word(1) + word(2) + bytes(16)
def save(name, head, number):
    with open(f'{sys.argv[1]}/{name}', 'wb') as f:
        f.write(head + row(number) * ((65536 - len(head)) // 26))
head = attributes(4)
for number, members in enumerate((1, 2, 4, 8, 3)):
    head += bytes([2, number]) + word(members)
save('rows', head, 4)
head = attributes(32)
for k in range(32):
    head += bytes([2, k]) + word(1 << k | 1 << (k + 1) % 32)
for k in 2 * list(range(31, -1, -1)):
    head += bytes([3]) + word(1 << k) + word(1 << (k + 1) % 32)
save('ring', head, 0)
sets = [1 << k | 2 << k for k in range(27)]
sets += [1 << 28 + j % 4 | sum(1 << (7 * j + 3 * i) % 28 for i in range(5)) for j in range(37)]
sides = [(k, k + 1) for k in range(26, -1, -1)] + [(k + 1, k) for k in range(27)]
head = attributes(32)
for number, members in enumerate(sets):
    head += bytes([2, number]) + word(members)
for left, right in 10 * [(31, 30)] + sides:
    head += bytes([3]) + word(1 << left) + word(1 << right)
with open(f'{sys.argv[1]}/wide', 'wb') as f:
    f.write(head)
PY
nanoseconds() { s=$(date +%s%N); "$program" <"$1" >/dev/null; e=$(date +%s%N); echo $((e - s)); }
empty=$(nanoseconds /dev/null)
for book in rows ring wide; do
    for run in 1 2 3; do
        took=$(nanoseconds "$books/$book")
        echo "$book, run $run: $(((took - empty) / 1000 / 1000)) microseconds for each of 1000 readings"
    done
done
rm -r "$books"
