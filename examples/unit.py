"""Runs the unit on the books and queries of the program `trials`, and looks whether it refuses exactly those that
crates/trials/stdout says are refused, with that number. Needs python3 and the unit that `rt run` builds in crates/unit. It
is no part of the gate.
  python3 examples/unit.py [UNIT]"""
import pathlib, re, subprocess, sys, tempfile

top = pathlib.Path(__file__).resolve().parent.parent
unit = sys.argv[1] if len(sys.argv) > 1 else str(top / "crates/unit/out/unit")
trials = top / "crates/trials"
source = (trials / "src/queries_trial.rt").read_text()
said = dict(line.split(":", 1) for line in (trials / "stdout").read_text().splitlines() if ":" in line)


def constant(name):
    body = re.search(r"const %s: [^=]*= \[([^]]*)\]" % name, source).group(1)
    return bytes(int(n) for n in body.replace(",", " ").split())


def printed(book, query, folder):
    (pathlib.Path(folder) / "survey.book").write_bytes(book)
    return subprocess.run([unit], input=query, cwd=folder, capture_output=True, check=True).stdout.decode()


count = 0
with tempfile.TemporaryDirectory() as folder:
    for line in (trials / "stdin").read_text().splitlines():
        name, numbers = line.split(":", 1)
        given = bytes(int(n) for n in numbers.replace("/", " ").split())
        over = {"?": "BOOK", "!": "BARE"}.get(name[0])
        text = printed(constant(over), given, folder) if over else printed(given, b"", folder)
        number = re.fullmatch(r" refused (\d+)", said[name])
        whole = "%s refused %s\n" % ("query" if over else "book", number and number.group(1))
        if over and not given:
            whole = ""  # "Empty input prints nothing if the book is good."
        # bytes behind an answered query are a query of their own, so that a refusal may stand behind an answer
        if (text != whole) if number else text.startswith(("book refused", "query refused")):
            sys.exit("%s: the unit prints %r" % (name, text))
        count += 1
print("the unit refuses what the %d books and queries of the trials say, and nothing else of them" % count)
