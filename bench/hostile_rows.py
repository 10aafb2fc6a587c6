"""What `hostile.py` tries: rows with their files and texts, the program, and what is counted of a table."""

import collections
import concurrent.futures
import os
import pathlib
import re
import shutil
import string
import subprocess
import tempfile
import threading
import time

HERE = pathlib.Path(__file__).resolve().parent
BUILT = HERE.parent / "crates" / "expresso_cli" / "out" / "expresso_cli"
SAMPLES = HERE.parent / "crates" / "samples" / "src"
LONGEST = 65_536
NOBODY = 65_534

# The statuses of the program.
DONE, REFUSED, USAGE, READ_FAULT, WRITE_FAULT, OUT_OF_MEMORY, STALLED, UNREADABLE = range(8)

# How long one run may take: longer is a hang.
PATIENCE = 60

# How many of the cases that fail are printed of one table.
SHOWN = 20

Found = collections.namedtuple("Found", "status text seconds refused")
Row = collections.namedtuple("Row", "words files status text")


def samples(name):
    """The texts of one file of samples, by their names."""
    text = (SAMPLES / name).read_text()
    return {key: value.encode() for key, value in re.findall(r'pub const (\w+): &\[u8\] =\s*b"([^"]*)";', text)}


MONITORS = samples("monitors.rt")
CLIENTS = samples("clients.rt")
BUFFER, LOCK, LEVEL = MONITORS["BUFFER"], MONITORS["LOCK"], MONITORS["LEVEL"]
READERS_AND_WRITERS = MONITORS["READERS_AND_WRITERS"]
TWO, TWO_LOCKS = CLIENTS["TWO"], CLIENTS["TWO_LOCKS"]
PRODUCT = b"monitor M { int x = 0; int y = 0; method m() waituntil (x * y < 4) { } }"
PUT_GET = b"client A { put(); get(); }"

# The names of as many clients as there may be.
LETTERS = string.ascii_letters[:32].encode()

TWO_RUN = b"""A.1 put() = -
B.1 get() = -
A.2 put() = -
B.2 get() = -
done
state count=0
"""

BUFFER_PLAN = b"""plan Buffer
keep count >= 0
keep count >= -1
keep count <= 1
keep count <= 2
condition 1 signal: count < CAP
condition 2 signal: count > 0
block put: 2 signal
block get: 1 signal
"""

LOCK_PLAN = b"""plan Lock
condition 1 signal: !held
condition 2 signal: held
block acquire: 2 signal
block release: 1 signal
"""

LOCK_LOG = b"""A.1 acquire() = -
B.1 acquire() waits
A.2 release() = - wakes B
B.1 acquire() = -
B.2 release() = -
done
state held=false
"""

READERS_AND_WRITERS_PLAN = b"""plan RW
keep readers >= 0
keep readers >= -1
condition 1 broadcast: !writing
condition 2 broadcast: readers > 0
condition 3 signal: readers == 0 && !writing
condition 4 signal: writing
block startRead: 2 broadcast
block endRead: 3 signal tested
block startWrite: 4 signal
block endWrite: 1 broadcast, 3 signal tested
"""

USAGE_TEXT = b"""usage:
expresso check FILE
expresso turns FILE CLIENTS
expresso compile FILE [--count] [--relay]
expresso simulate FILE CLIENTS [--seed N] [--spurious K] [--count] [--relay]
expresso run FILE CLIENTS [--workers N] [--count] [--relay]
expresso stress N [--workers N]
expresso report FILE [--count] [--fits]
expresso recheck FILE REPORT
expresso block FILE CLIENTS [--count]
expresso audit FILE PLAN [--count]
expresso explain FILE [--count] [--fits]
expresso emit FILE
expresso --version
"""

SUMMARY = b"calls 16384\ndone\nstate count=0\n"


def two(monitor, clients):
    """The files of a call."""
    return {"m.mon": monitor, "c.cl": clients}


CHECK = Row(["check", "m.mon"], {"m.mon": LOCK}, DONE, LOCK)
TURNS = Row(["turns", "m.mon", "c.cl"], two(BUFFER, TWO), DONE, TWO_RUN)
SIMULATE = Row(["simulate", "m.mon", "c.cl"], two(LOCK, TWO_LOCKS), DONE, LOCK_PLAN + LOCK_LOG)
COMPILE = Row(["compile", "m.mon"], {"m.mon": READERS_AND_WRITERS}, DONE, READERS_AND_WRITERS_PLAN)
REFUSAL = Row(
    ["check", "m.mon"], {"m.mon": PRODUCT}, REFUSED, b"refused: m.mon:1:59: product of two variables\n"
)
RUN = Row(
    ["run", "m.mon", "c.cl", "--workers", "2"],
    two(BUFFER, PUT_GET),
    DONE,
    BUFFER_PLAN + b"A.1 put() = -\nA.2 get() = -\ndone\nstate count=0\n",
)
STALL = Row(
    ["turns", "m.mon", "c.cl"],
    two(BUFFER, b"client A { get(); }"),
    STALLED,
    b"stalled\nA.1 get() blocked\nstate count=0\n",
)
OTHER_WORDS = Row(["frob", "x"], {}, USAGE, USAGE_TEXT)
STRESS = Row(["stress", "3", "--workers", "1"], {}, DONE, SUMMARY)
COMMANDS = [CHECK, TURNS, COMPILE, SIMULATE, RUN]


class Program:
    """The program that is tried, and the system that refuses, in a folder of their own."""

    def __init__(self, program, folder):
        self.folder = pathlib.Path(folder)
        self.folder.chmod(0o755)
        self.path = self.folder / "expresso"
        shutil.copy(program, self.path)
        self.path.chmod(0o755)
        self.shim = self.folder / "refusing.so"
        compiled = ["gcc", "-shared", "-fPIC", "-O1", "-o", self.shim, HERE / "refusing.c", "-ldl"]
        subprocess.run(compiled, check=True)
        self.mine = threading.local()

    def place(self, files):
        """This thread's folder, with these files and no others."""
        if not hasattr(self.mine, "folder"):
            self.mine.folder = pathlib.Path(tempfile.mkdtemp(dir=self.folder))
            self.mine.folder.chmod(0o755)
        for old in self.mine.folder.iterdir():
            old.unlink()
        for name, held in files.items():
            (self.mine.folder / name).write_bytes(held)
        return self.mine.folder

    def run(self, words, folder, refusing=None, **more):
        """One run of the program in a folder, on a system that refuses what is named."""
        told = folder / "told"
        environment = {**os.environ, "LC_ALL": "C"}
        if refusing is not None:
            named = {f"REFUSE_{key}": str(value) for key, value in refusing.items()}
            environment |= {"LD_PRELOAD": str(self.shim), "REFUSE_TOLD": str(told), **named}
        more = {"stdout": subprocess.PIPE, "stderr": subprocess.DEVNULL, "stdin": subprocess.DEVNULL, **more}
        start = time.perf_counter()
        command = [more.pop("called", "expresso"), *words]
        process = subprocess.Popen(command, executable=self.path, cwd=folder, env=environment, **more)
        try:
            text, _ = process.communicate(timeout=PATIENCE)
        except subprocess.TimeoutExpired:
            process.kill()
            text, _ = process.communicate()
            return Found("no end", text, PATIENCE, told.exists())
        seconds = time.perf_counter() - start
        refused = told.exists()
        told.unlink(missing_ok=True)
        return Found(process.returncode, text, seconds, refused)

    def row(self, row, **refusing):
        """One run of a row."""
        return self.run(row.words, self.place(row.files), refusing or None)


class Table:
    """How many cases there are, which failed, and how long they took."""

    def __init__(self, name):
        self.name = name
        self.lock = threading.Lock()
        self.start = time.perf_counter()
        self.cases, self.failed, self.slowest = 0, 0, (0.0, "none")

    def demand(self, case, found, holds, wanted=""):
        """Counts a case, which failed where this doesn't hold."""
        with self.lock:
            self.cases += 1
            self.slowest = max(self.slowest, (found.seconds, case))
            if not holds:
                self.failed += 1
                if self.failed <= SHOWN:
                    shown = f"status {found.status}, {found.text!r:.300} {wanted}"
                    print(f"FAILED {self.name}: {case}: {shown}", flush=True)

    def answers(self, case, found, status, text):
        """Counts a case that has to have this status and text."""
        self.demand(case, found, (found.status, found.text) == (status, text), f"in place of {status}, {text!r:.300}")

    def each(self, jobs):
        """Does the jobs, several at once: each is a function and what it is given."""
        with concurrent.futures.ThreadPoolExecutor(os.cpu_count()) as pool:
            for done in [pool.submit(*job) for job in jobs]:
                done.result()

    def end(self):
        """Prints the table's line, and says whether all was as it had to be."""
        spent, (longest, case) = time.perf_counter() - self.start, self.slowest
        counts = f"{self.cases} cases, {self.failed} failed, {spent:.1f} seconds"
        print(f"{self.name}: {counts}, slowest {longest:.3f} of {case}", flush=True)
        return self.failed == 0


def named(row, *more):
    """What a case is called."""
    return " ".join([*row.words, *map(str, more)])
