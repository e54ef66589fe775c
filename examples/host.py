# What examples/host.c does, by ctypes: python3 host.py LIBRARY BOOK QUERIES, where LIBRARY is a shared object linked from
# libhost.a. The functions and their parts are those of include/vingarbu.h.
import ctypes, sys

BYTES, CELLS, TEXT, ITEMS = 65536, 8192, 98327, 8
library = ctypes.CDLL(sys.argv[1])
word, cells64 = ctypes.c_uint32, ctypes.c_uint64


def part(values, kind=ctypes.c_uint8):  # memory for the values, one element at least, so that no pointer is null
    return (kind * max(len(values), 1))(*values)


def call(name, *parts):  # a ctypes array is a pointer and its length; a pair says its length itself
    words = []
    for p in parts:
        lent, length = p if isinstance(p, tuple) else (p, len(p) if hasattr(p, '__len__') else None)
        words += [lent] if length is None else [lent, ctypes.c_size_t(length)]
    return getattr(library, name)(*words)


def read(name):
    try:
        with open(name, 'rb') as file:
            return file.read(BYTES + 1)
    except OSError:
        return b''


def refused(what, number):
    print(f'{what} refused {number}')
    sys.exit(0)


def main():
    book, queries = read(sys.argv[2]), read(sys.argv[3])
    lent, space, results = (part(book), len(book)), (word * CELLS)(), (cells64 * 4)()
    call('vingarbu_answer', lent, part(b'\x0a'), word(0), (space, 0), results)
    if results[0] != 10:  # a query of kind 10 alone is 10 over a good book
        refused('book', results[0])
    if len(queries) > BYTES:
        refused('query', 1)
    serial, kinds, text, one = 0, (ctypes.c_uint8 * ITEMS)(), (ctypes.c_uint8 * TEXT)(), (cells64 * 1)()
    while queries:
        asked = (part(queries), len(queries))
        call('vingarbu_answer', lent, asked, word(serial), space, results)
        number, rows, serial, used = results
        if number != 0:
            refused('query', number)
        call('vingarbu_kinds', lent, asked, kinds, one)
        if call('vingarbu_print', word(serial), cells64(rows), (kinds, one[0]), space, text, one) != 0:
            sys.exit('an answer was not printed')
        sys.stdout.write(bytes(text[:one[0]]).decode())
        queries = queries[used:]


main()
