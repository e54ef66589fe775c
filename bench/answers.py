# Prints a table: for each case the unit's milliseconds for one query, SQLite's for the same tables and the equivalent
# SQL, and the first divided by the second; then the unit's peak memory and the middle ratio. The rows of both are
# compared: where they differ it says so and ends with status 1. Needs crates/unit/out/unit, and python3 with sqlite3.
#
# The unit: the time of an input that has the query many times less that of one that has it once, divided by how many
# more there are; each is the best of RUNS. Starting and reading the book are so taken off, printing (to /dev/null) is
# not. A query over one second is run alone, less a run without a query. SQLite: in memory, the statement prepared once,
# all rows fetched, the best of RUNS; its tables have no index but those that it makes itself. LIMIT seconds end a case.
import os, random, signal, sqlite3, statistics, struct, subprocess, sys, tempfile, threading, time

RUNS, LIMIT, INPUT = 5, 60, 65536
UNIT = [os.path.abspath('crates/unit/out/unit')]
LIB = '/opt/rattle/on/x86_64/toolchain/lib'
NAME, LENGTH, DATE, EQUAL, LESS = 0, 1, 3, 0, 2
END = bytes([10])
word = lambda n: struct.pack('<I', n & 0xffffffff)
members = lambda numbers: word(sum(1 << k for k in numbers))
items = lambda variable, *attributes: b''.join(bytes([7, variable, a]) for a in attributes)
compare = lambda v, a, operator, w, b: bytes([8, v, a, operator, w, b])
compare_constant = lambda v, a, operator, cell: bytes([9, v, a, operator]) + word(cell)
shuffled = lambda count: random.sample(range(count), count)
pairs = lambda count: list(zip(shuffled(count), shuffled(count)))
shown = lambda seconds: f'> {LIMIT} s' if seconds is None else f'{1000 * seconds:.3f}'

class Book:
    def __init__(self, kinds, objects, dependencies, tables):
        self.objects, self.tables = objects, tables
        self.bytes = b''.join(bytes([1, a, kind]) for a, kind in enumerate(kinds))
        self.bytes += b''.join(bytes([2, n]) + members(attributes) for n, attributes in enumerate(objects))
        self.bytes += b''.join(bytes([3]) + members(left) + members(right) for left, right in dependencies)
        for n, rows in enumerate(tables):
            self.bytes += b''.join(bytes([4, n]) + b''.join(map(word, r)) + bytes(24 - 4 * len(r)) for r in rows)
        assert len(self.bytes) <= INPUT

    def save(self):
        with open('survey.book', 'wb') as file:
            file.write(self.bytes)

def star(tables, count):  # one key, attribute 0, and a column of each table's own
    return Book([NAME] * (tables + 1), [[0, n + 1] for n in range(tables)], [([0], [n + 1]) for n in range(tables)],
                [[(key, random.randrange(1000)) for key in shuffled(count)] for _ in range(tables)])

def chain(firsts, tables):  # attribute k determines attribute k + 1; each object has such a pair
    objects = [[k, k + 1] for k in firsts]
    return Book([NAME] * (len(objects) + 1), objects, [([a], [b]) for a, b in objects], tables)

def cases():  # name, book, query, SQL; another SQL for the rows alone, where the first may not end
    yield ('four tables of 600 on one key', star(4, 600), items(0, 1, 2, 3, 4) + END,
           'select distinct a1, a2, a3, a4 from t0 natural join t1 natural join t2 natural join t3 order by 1, 2, 3, 4')
    yield ('two tables of 1,250 on one key', star(2, 1250), items(0, 1, 2) + END,
           'select distinct a1, a2 from t0 natural join t1 order by 1, 2')
    yield ('chain of three of 800, numbers not along it', chain([0, 2, 1], [pairs(800) for _ in range(3)]),
           items(0, 0, 3) + END, 'select distinct a0, a3 from t0 natural join t2 natural join t1 order by 1, 2')
    cells = [tuple(random.randrange(low, low + (1 << 32)) for low in (-1 << 31, 0, 0)) for _ in range(2500)]
    yield ('2,500 rows in random order, three columns', Book([LENGTH, NAME, DATE], [[0, 1, 2]], [], [cells]),
           items(0, 0, 1, 2) + END, 'select distinct a0, a1, a2 from t0 order by 1, 2, 3')
    dates = Book([DATE, DATE], [[0, 1]], [], [pairs(1200)])
    yield ('two variables of 1,200, equality across', dates,
           items(0, 0) + items(1, 1) + compare(0, 1, EQUAL, 1, 0) + END,
           'select distinct x.a0, y.a1 from t0 x, t0 y where x.a1 = y.a0 order by 1, 2')
    yield ('two variables of 1,200, less across, item of one', dates, items(0, 0) + compare(0, 1, LESS, 1, 0) + END,
           'select distinct x.a0 from t0 x, t0 y where x.a1 < y.a0 order by 1')
    yield ('constant equality at the end of four of 600', chain(range(4), [pairs(600) for _ in range(4)]),
           items(0, 0) + compare_constant(0, 4, EQUAL, 77) + END,
           'select distinct a0 from t0 natural join t1 natural join t2 natural join t3 where a4 = 77 order by 1')
    complete = [(i, j) for i in range(22) for j in range(22)]
    yield ('five complete tables of 22 by 22, both ends', chain(range(5), [complete] * 5), items(0, 0, 5) + END,
           'select distinct a0,a5 from t0 natural join t1 natural join t2 natural join t3 natural join t4 order by 1,2',
           'select distinct a0, a5 from (select distinct a0, a3 from t0 natural join t1 natural join t2) '
           'natural join (select distinct a3, a5 from t3 natural join t4) order by 1, 2')

    complete = [(i, j) for i in range(9) for j in range(9)]
    yield ('chain of 30 complete tables of 9 by 9, both ends', chain(range(30), [complete] * 30), items(0, 0, 30) + END,
           f'select distinct a0, a30 from {" natural join ".join(f"t{k}" for k in range(30))} order by 1, 2',
           'select distinct x.a0, y.a30 from t0 x, t29 y order by 1, 2')
    several = Book([DATE] * 32, [[0, n + 1] for n in range(31)], [],
                   [[(random.randrange(1000), i) for i in range(80)] for _ in range(31)])
    union = 'with c as (' + ' union '.join(f'select a0 from t{n}' for n in range(31)) + ') '
    for count in 3, 4:
        compared = b''.join(compare(v, 0, LESS, v + 1, 0) for v in range(count - 1))
        below = 'select max(a0) from c'
        for _ in range(count - 2):
            below = f'select max(a0) from c where a0 < ({below})'
        yield (f'31 objects on one attribute, {count} variables', several, items(0, 0) + compared + END,
               union + 'select distinct c0.a0 from ' + ', '.join(f'c c{v}' for v in range(count)) + ' where '
               + ' and '.join(f'c{v}.a0 < c{v + 1}.a0' for v in range(count - 1)) + ' order by 1',
               union + f'select a0 from c where a0 < ({below}) order by 1')
    pairwise = Book([DATE] * 18, [o for k in range(1, 17) for o in ([0, k], [k, 17])],
                    [([k], [17]) for k in range(1, 17)],
                    [[(random.randrange(1000), i) if n % 2 == 0 else (i, random.randrange(1000)) for i in range(75)]
                     for n in range(32)])
    joins = ' union '.join(f'select a0, a17 from t{n} natural join t{n + 1}' for n in range(0, 32, 2))
    union = f'with c as ({joins}) '
    yield ('16 maximal objects of two tables, 3 variables', pairwise,
           items(0, 0) + compare(0, 17, LESS, 1, 0) + compare(1, 17, LESS, 2, 0) + END,
           union + 'select distinct x.a0 from c x, c y, c z where x.a17 < y.a0 and y.a17 < z.a0 order by 1',
           union + 'select distinct a0 from c where a17 < (select max(a0) from c where a17 < (select max(a0) from c)) '
           'order by 1')
    ring = b''.join(compare(v, 1, LESS, (v + 1) % 4, 0) for v in range(4))
    sql = ('select distinct x{}.a0 from t0 x0, t0 x1, t0 x2, t0 x3 where x0.a1 < x1.a0 and x1.a1 < x2.a0 and '
           'x2.a1 < x3.a0 and x3.a1 < x0.a0 order by 1')
    sixty = Book([DATE, DATE], [[0, 1]], [], [pairs(60)])
    for of, v in ('first', 0), ('last', 3):
        yield f'4 variables of 60, less in a ring, item of the {of}', sixty, items(v, 0) + ring + END, sql.format(v)
    rising = Book([DATE, DATE], [[0, 1]], [], [[(i, i) for i in shuffled(60)]])
    for of, v in ('first', 0), ('last', 3):
        yield f'the same with no answer, item of the {of}', rising, items(v, 0) + ring + END, sql.format(v)
    yield ('one row of 2,500 by a constant', Book([NAME, NAME], [[0, 1]], [], [pairs(2500)]),
           items(0, 1) + compare_constant(0, 0, EQUAL, 77) + END, 'select distinct a1 from t0 where a0 = 77')

def seconds(data, runs=RUNS):  # the unit's best time of some runs on this input, or None where the limit ends one
    best = LIMIT
    for _ in range(runs):
        start = time.perf_counter()
        with subprocess.Popen(UNIT, stdin=subprocess.PIPE, stdout=subprocess.DEVNULL) as unit:
            timer = threading.Timer(LIMIT, unit.kill)  # a wait with a limit of its own would poll, and be late
            timer.start()
            unit.communicate(data)
            timer.cancel()
        best = min(best, time.perf_counter() - start)
        if unit.returncode == -signal.SIGKILL:
            return None
        assert unit.returncode == 0, f'the unit ended with status {unit.returncode}'
    return best

def output(data):
    return subprocess.run(UNIT, input=data, stdout=subprocess.PIPE, check=True).stdout.decode().splitlines()

def unit_time(query):  # seconds for one query, and the rows; None twice past the limit
    if (once := seconds(query, 1)) is None:
        return None, None
    lines = output(query)
    if lines[:1] != [f'Q 1 rows {len(lines) - 1}']:
        return once, lines[:1]
    rows = [tuple(map(int, line.split())) for line in lines[1:]]
    if once > 1:
        return (once if once > 10 else seconds(query)) - seconds(b''), rows
    few = seconds(query)
    many = min(INPUT // len(query), 11 + int(4 / max(1e-4, seconds(query * 11) - few)))  # some 0.4 s
    assert sum(line.startswith('Q') for line in output(query * many)) == many
    return (seconds(query * many) - few) / (many - 1), rows

def sqlite_time(book, sql, other=None):  # the same for SQLite, the rows by the other SQL past the limit
    base = sqlite3.connect(':memory:', check_same_thread=False)
    for n, attributes in enumerate(book.objects):
        base.execute(f'create table t{n} ({", ".join(f"a{a} integer" for a in attributes)})')
        base.executemany(f'insert into t{n} values ({", ".join("?" * len(attributes))})', book.tables[n])
    best, rows, runs, limit = None, None, 0, time.perf_counter() + LIMIT
    timer = threading.Timer(LIMIT, base.interrupt)
    timer.start()
    try:
        while (runs := runs + 1) <= RUNS and (start := time.perf_counter()) + (best or 0) < limit:
            rows = base.execute(sql).fetchall()
            best = min(best or LIMIT, time.perf_counter() - start)
    except sqlite3.OperationalError as error:
        if str(error) != 'interrupted':
            raise
    timer.cancel()
    return best, base.execute(other).fetchall() if rows is None and other else rows

def reading_time():  # seconds for a book of 65,536 bytes less those for an empty one, without a query
    rows = [(random.randrange(1 << 32), random.randrange(1 << 32)) for _ in range(2519)]
    full, empty = Book([NAME] * 4, [[0], [1], [2], [3], [0, 1]], [], [[]] * 4 + [rows]), Book([], [], [], [])
    assert len(full.bytes) == INPUT
    best = {full: LIMIT, empty: LIMIT}
    for book in 20 * [full, empty]:  # by turns, so that both meet the same load
        book.save()
        best[book] = min(best[book], seconds(b''))
    return best[full] - best[empty]

def peak_memory(query):  # kB resident at most; this query's output must be long
    with subprocess.Popen(UNIT, stdin=subprocess.PIPE, stdout=subprocess.PIPE) as unit:
        unit.stdin.write(query * 100)
        unit.stdin.close()
        unit.stdout.read(1 << 20)  # some answers; then the unit waits on a full pipe, and can be looked at
        with open(f'/proc/{unit.pid}/status') as status:
            return next(int(line.split()[1]) for line in status if line.startswith('VmHWM'))

def main():
    random.seed(7)
    try:
        subprocess.run(UNIT, stdin=subprocess.DEVNULL)
    except OSError:
        UNIT[:0] = [f'{LIB}/ld-linux-x86-64.so.2', '--library-path', LIB]
    line, ratios, wrong, memory = '{:<50}{:>6}{:>12}{:>12}{:>9}', [], [], 0
    print(line.format('case', 'rows', 'unit, ms', 'SQLite, ms', 'ratio'))
    for name, book, query, *sql in cases():
        book.save()
        (unit, rows), (sqlite, expected) = unit_time(query), sqlite_time(book, *sql)
        ratios += [(unit or LIMIT) / (sqlite or LIMIT)] if unit or sqlite else []
        ratio = ('' if unit and sqlite else '< ' if unit else '> ') + f'{ratios[-1]:.2f}' if unit or sqlite else '-'
        print(line.format(name, '-' if rows is None else len(rows), shown(unit), shown(sqlite), ratio), flush=True)
        if rows is None or expected is None:
            print('    rows not compared')
        elif rows != expected:
            wrong.append(name)
            first = next((pair for pair in zip(rows, expected) if pair[0] != pair[1]), 'one ends before the other')
            print(f'    ROWS DIFFER: the unit has {len(rows)}, SQLite {len(expected)}; where first: {first}')
        memory = max(memory, peak_memory(query) if len(rows or []) > 2000 else 0)
    print(line.format('reading a book of 65,536 bytes, no query', '-', shown(reading_time()), '-', '-'))
    print(f'peak memory of the unit: {memory} kB resident, the loader and the C library among them')
    print(f'middle ratio: {statistics.median(ratios):.2f} of {len(ratios)} (a time over {LIMIT} s counts as {LIMIT} s)')
    sys.exit('ROWS DIFFER: ' + '; '.join(wrong) if wrong else 0)

with tempfile.TemporaryDirectory() as place:
    os.chdir(place)
    main()
