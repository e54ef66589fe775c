"""A second, naive printing of sheets, from the words of request 3 in docs/REQUESTS.md. Needs python3 alone; no part of the
gate.
  python3 examples/sheets.py           what the program sheet_trials must write: its file stdout was made so
  python3 examples/sheets.py LIBRARY   random answers, through vingarbu_sheet of a shared library (see README.md)
  python3 examples/sheets.py unit      the sheets of the answers that the unit prints, from its printout"""
import ctypes, random, sys

LENGTH, ANGLE = 1, 2


def missing(kind, cell):
    return cell == (1 << 31 if kind == LENGTH else 0xFFFFFFFF)


def text(kind, cell):
    if missing(kind, cell):
        return "-"
    return str(cell - (1 << 32) if kind == LENGTH and cell >= 1 << 31 else cell)


def line(fields):
    """'Fields stand from the left, each right-justified in 12 columns, and blanks fill the rest.'"""
    return "".join(field.rjust(12) for field in fields).ljust(96) + "\n"


def is_fit(rows, kinds, cells):
    return (1 <= len(kinds) <= 8 and all(kind < 4 for kind in kinds) and rows <= 999999999999
            and rows * len(kinds) <= len(cells)
            and all(kinds[i % len(kinds)] != ANGLE or cells[i] < 36000 or missing(ANGLE, cells[i])
                    for i in range(rows * len(kinds))))


def sheets(rows):
    return max(1, -(-rows // 38))


def sheet(serial, rows, kinds, cells, number, room):
    """The number, and the sheet where it is 0."""
    if room < 3880 or not is_fit(rows, kinds, cells):
        return 18, None
    if not 1 <= number <= sheets(rows):
        return 19, None
    shown = range(38 * (number - 1), min(rows, 38 * number))
    lines = [line([str(serial), str(rows)])]
    lines += [line([text(k, c) for k, c in zip(kinds, cells[r * len(kinds):])]) for r in shown]
    lines += [line([])] * (39 - len(lines)) + [line([str(number)])]
    return 0, "".join(lines)


# ---- the calls of the program sheet_trials

def call(serial, rows, kinds, cells, number, room=3880):
    refusal, whole = sheet(serial, rows, kinds, cells, number, room)
    print("rows %d items %d sheet %d bytes %d: %d" % (rows, len(kinds), number, room, refusal))
    print(whole + "#" * (room - 3880) + "|" if refusal == 0 else "as before")


def trials():
    names = [1000 + i for i in range(77)]
    for rows, calls in (0, 3), (1, 3), (38, 3), (39, 4), (76, 4), (77, 5):
        for number in range(calls):
            call(7, rows, [0], names, number)
    for number in range(3):
        call(7, 1, [0], names, number, 3879)
    for number in range(2):
        call(7, 1, [0], names, number, 3881)
    call(4294967295, 1, [0, 1, 2, 3, 0, 1, 2, 3], [4294967294, 2147483649, 35999, 4294967294, 4294967295, 2147483648,
                                                  4294967295, 4294967295], 1)
    call(7, 77, [2], names, 1)
    for number in 1, 4:
        call(7, 77, [2], names[:76] + [36000], number)
    digits = list(range(1, 10))
    call(7, 10, [0], digits, 1)
    for kinds in [], [4], [0] * 9:
        call(7, 1, kinds, digits, 1)
    for rows in 0, 1, 38, 39, 76, 77, 999999999999:
        print("rows %d sheets %d" % (rows, sheets(rows)))


# ---- random answers

def random_cell(kind):
    if random.random() < 0.2:
        return 1 << 31 if kind == LENGTH else 0xFFFFFFFF
    return random.randrange(36000 if kind == ANGLE and random.random() < 0.999 else 1 << random.choice([1, 16, 32]))


def compare(path, count=5000):
    library = ctypes.CDLL(path)
    library.vingarbu_sheets.restype = ctypes.c_uint64
    size = ctypes.c_size_t
    said = {}
    for _ in range(count):
        kinds = [random.randrange(5 if random.random() < 0.02 else 4) for _ in range(random.choice([1, 2, 4, 8, 0, 9]))]
        rows = random.choice([0, 1, 37, 38, 39, 76, 77, random.randrange(300)])
        cells = [random_cell(kinds[i % len(kinds)]) for i in range(rows * len(kinds) - (random.random() < 0.02))]
        number = random.choice([0, 1, 2, random.randrange(1, 10), sheets(rows), sheets(rows) + 1, 1 << 63])
        room, serial = random.choice([3879, 3880, 3881, 5000]), random.randrange(1 << 32)
        out, results = (ctypes.c_uint8 * room)(*[35] * room), (ctypes.c_uint64 * 2)(9, 9)
        status = library.vingarbu_sheet(
            ctypes.c_uint32(serial), ctypes.c_uint64(rows), (ctypes.c_uint8 * len(kinds))(*kinds), size(len(kinds)),
            (ctypes.c_uint32 * len(cells))(*cells), size(len(cells)), ctypes.c_uint64(number), out, size(room), results,
            size(2))
        refusal, whole = sheet(serial, rows, kinds, cells, number, room)
        expected = ((whole or "") + "#" * room)[:room].encode()
        if (status, list(results), bytes(out)) != (0, [refusal, 9], expected):
            sys.exit("differs: %s" % [serial, rows, kinds, cells, number, room, status, list(results)])
        if library.vingarbu_sheets(ctypes.c_uint64(rows)) != sheets(rows):
            sys.exit("differs: sheets of %d rows" % rows)
        said[refusal] = said.get(refusal, 0) + 1
    print("sheets agree on %d random answers: %s" % (count, said))


# ---- the sheets of a printout

def of_printout(lines):
    while lines:
        _, serial, _, count = lines[0].split()
        rows, lines = [line.split() for line in lines[1:int(count) + 1]], lines[int(count) + 1:]
        for number in range(sheets(len(rows))):
            shown = [line(row) for row in rows[38 * number:38 * number + 38]]
            blank = [line([])] * (38 - len(shown))
            sys.stdout.write("".join([line([serial, count])] + shown + blank + [line([str(number + 1)])]))


if sys.argv[1:] == ["unit"]:
    of_printout(sys.stdin.read().splitlines())
elif len(sys.argv) > 1:
    random.seed(3)
    compare(sys.argv[1])
else:
    trials()
