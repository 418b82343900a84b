"""Processor seconds of the merge gate, user and system, as each process that it starts reports them when it ends."""

import collections
import importlib.machinery
import importlib.util
import os
import re
import resource
import shutil
import subprocess
import sys
import tempfile
import threading
import time

KINDS = ("proof", "edits", "tests", "programs")
# A process that is none of a crate's, or none that has a kind.
NONE = "(other)"


def kind_of(words, folder):
    """The crate that a process works for, and which of its kinds it is: by its words, and the folder that it runs in."""
    words = [str(word) for word in words]
    run = re.search(r"/rt-run-[^/]+/bin/(\S+)", " ".join(words))
    if run:
        name = run[1]
        return (name.removesuffix("_tests"), "tests") if name.endswith("_tests") else (name, "programs")
    if "--crate-name" in words:
        name = words[words.index("--crate-name") + 1]
        if os.path.basename(str(folder)).startswith("rt-edit-"):
            return name, "edits"
        if "--test" in words:
            return name, "tests"
        return name, "programs" if "--crate-checked" in words else "proof"
    inside = re.search(r"/crates/(\w+)$", str(folder))
    if inside and any(os.path.basename(word) == "rattle-link" for word in words):
        return inside[1], "tests" if any(word.endswith("_tests.o") for word in words) else "programs"
    return NONE, NONE


class Figures:
    """The seconds of each crate, by kind."""

    def __init__(self):
        self.seconds = collections.defaultdict(lambda: dict.fromkeys(KINDS, 0.0))
        self.other = 0.0
        self.counts = collections.Counter()

    def add(self, crate, kind, seconds):
        if kind in KINDS:
            self.seconds[crate][kind] += seconds
            self.counts[kind] += 1
        else:
            self.other += seconds

    def of_crate(self, crate):
        return sum(self.seconds[crate].values())

    def of_kind(self, kind):
        return sum(row[kind] for row in self.seconds.values())

    def whole(self):
        return sum(map(self.of_crate, self.seconds)) + self.other

    def lines(self):
        """The table: a line for each crate, and the sums."""
        row = "{:12}" + " {:>9}" * (len(KINDS) + 1)
        yield row.format("crate", *KINDS, "all")
        for crate in sorted(self.seconds, key=lambda it: -self.of_crate(it)):
            parts = [f"{self.seconds[crate][kind]:.1f}" for kind in KINDS]
            yield row.format(crate, *parts, f"{self.of_crate(crate):.1f}")
        sums = [self.of_kind(kind) for kind in KINDS]
        yield row.format("seconds", *[f"{it:.1f}" for it in sums], f"{sum(sums):.1f}")
        yield row.format("minutes", *[f"{it / 60:.1f}" for it in sums], f"{sum(sums) / 60:.1f}")
        yield row.format("processes", *[self.counts[kind] for kind in KINDS], sum(self.counts.values()))
        yield f"layout, guards and the like: {self.other:.1f} s; with them {self.whole() / 60:.1f} minutes"


def measured(call):
    """What the call gives, and the figures of the processes that it starts. Each is waited for by the call that also says what it
    has used, itself and all that it waited for; nothing else of it is changed."""
    figures, started = Figures(), {}
    start, reap = subprocess.Popen.__init__, os.waitpid

    def starting(self, words, *more, **named):
        start(self, words, *more, **named)
        started[self.pid] = kind_of(words, named.get("cwd"))

    def reaping(pid, flags):
        found, status, usage = os.wait4(pid, flags)
        if found:
            crate, kind = started.pop(found, (NONE, NONE))
            figures.add(crate, kind, usage.ru_utime + usage.ru_stime)
        return found, status

    subprocess.Popen.__init__, os.waitpid = starting, reaping
    try:
        return call(), figures
    finally:
        subprocess.Popen.__init__, os.waitpid = start, reap


def load(file):
    """The command rt as a module, so that it runs in this process and its own processes can be measured."""
    loader = importlib.machinery.SourceFileLoader("rt", file)
    made = importlib.util.module_from_spec(importlib.util.spec_from_loader("rt", loader))
    loader.exec_module(made)
    return made


def keep_alone(root, names):
    """Leaves these crates alone, with what they stand on, in a clone."""
    with open(f"{root}/crates.txt") as file:
        lines = file.read().splitlines()
    rows = {line.partition(":")[0].split()[0]: line for line in lines if line.partition("#")[0].strip()}
    wanted, left = set(), list(names)
    while left:
        name = left.pop()
        if name in rows and name not in wanted:
            wanted.add(name)
            left += rows[name].partition(":")[2].split()
    unknown = sorted(set(names) - wanted)
    if unknown:
        sys.exit(f"crates.txt has no {', '.join(unknown)}")
    with open(f"{root}/crates.txt", "w") as file:
        file.writelines(f"{line}\n" for name, line in rows.items() if name in wanted)
    for name in set(os.listdir(f"{root}/crates")) - wanted:
        shutil.rmtree(f"{root}/crates/{name}")


def machine():
    """The machine, in a line."""
    with open("/proc/cpuinfo") as file:
        names = [line.partition(":")[2].strip() for line in file if line.startswith("model name")]
    with open("/proc/meminfo") as file:
        memory = int(re.search(r"MemTotal:\s+(\d+)", file.read())[1]) / 2**20
    return f"{len(os.sched_getaffinity(0))} processors ({names[0] if names else 'unknown'}), {memory:.0f} GiB"


class Pace(threading.Thread):
    """How fast the processors are while something runs: what one and the same loop takes of a processor, every ten seconds.
    A machine that shares its cores with others may be twice as slow in one run as in the next, and processor seconds with it."""

    def __init__(self):
        super().__init__(daemon=True)
        self.took, self.ended = [], threading.Event()

    def run(self):
        while not self.ended.wait(10):
            began = time.thread_time()
            sum(turn * turn % 7 for turn in range(100_000))
            self.took.append(1000 * (time.thread_time() - began))

    def line(self):
        """Ends it, and gives the milliseconds of the loop, the quickest and the slowest tenth left out."""
        self.ended.set()
        self.join()
        took = sorted(self.took) or [0.0]
        tenth = len(took) // 10
        low, middle, high = took[tenth], took[len(took) // 2], took[-1 - tenth]
        return f"a loop of 100,000 turns took {middle:.1f} ms of a processor meanwhile ({low:.1f} to {high:.1f})"


def spent(who=resource.RUSAGE_CHILDREN):
    """What all processes have used that this one has waited for, or another of what the system tells apart."""
    usage = resource.getrusage(who)
    return usage.ru_utime + usage.ru_stime


def add_up(figures, used):
    """Whether the figures are all that was used: each crate's kinds make its sum, and the sums, with the rest, the whole."""
    whole = sum(figures.of_kind(kind) for kind in KINDS) + figures.other
    return abs(whole - figures.whole()) < 0.001 and abs(whole - used) < 0.05 + 0.001 * used


def gate(root, names):
    """Runs the gate in a clean clone, prints the table, and gives the gate's status."""
    file = os.path.realpath(shutil.which("rt") or sys.exit("there is no command rt"))
    with tempfile.TemporaryDirectory(prefix="gate-") as room:
        subprocess.run(["git", "clone", "-q", "--no-hardlinks", root, f"{room}/clone"], check=True)
        head = ["git", "-C", f"{room}/clone", "log", "-1", "--format=%h of %cs"]
        commit = subprocess.run(head, check=True, stdout=subprocess.PIPE, text=True).stdout.strip()
        if names:
            keep_alone(f"{room}/clone", names)
        os.chdir(f"{room}/clone")
        rt = load(file)
        before, began, pace = spent(), time.time(), Pace()
        own_before = spent(resource.RUSAGE_SELF)
        pace.start()
        status, figures = measured(lambda: rt.main(["ci"]))
        used, wall = spent() - before, time.time() - began
        own = spent(resource.RUSAGE_SELF) - own_before
        os.chdir(root)
    with open(f"{rt.KIT}/KIT-ID") as it:
        kit = it.read().strip()
    print(f"\n{time.strftime('%Y-%m-%d')}, {machine()}; commit {commit}; {kit}")
    print(f"processor seconds; by the clock {wall / 60:.1f} minutes; {pace.line()}")
    for line in figures.lines():
        print(line)
    print(f"beside the table, rt's own process took {own / 60:.1f} minutes of a processor")
    if not add_up(figures, used):
        print(f"the sums don't add up: the processes used {used:.1f} s")
        return status or 1
    return status


BURN = "import sys, time\nwhile time.process_time() < float(sys.argv[1]): pass"
FORK = "import subprocess, sys; subprocess.run([sys.executable, '-c', sys.argv[2], sys.argv[1]])"


def stand_ins(room):
    """Processes as the gate starts them, with the crate, the kind and the seconds of each: a proof that starts another process
    and waits for it, an edit, a test, a compilation, the run of a program, and one that is no crate's."""
    burn, fork = [sys.executable, "-c", BURN], [sys.executable, "-c", FORK]
    folder = f"{room}/crates/low"
    edit = tempfile.mkdtemp(prefix="rt-edit-", dir=room)
    os.makedirs(folder)
    yield [*fork, "0.3", BURN, "rattle", "build", "--crate-name", "low"], folder, ("low", "proof", 0.3)
    yield [*burn, "0.2", "rattle", "check", "--crate-name", "low"], edit, ("low", "edits", 0.2)
    yield [*burn, "0.1", "rattle", "check", "--crate-name", "low"], edit, ("low", "edits", 0.1)
    yield [*burn, "0.2", "rattle", "build", "--crate-name", "low", "--test"], folder, ("low", "tests", 0.2)
    yield [*burn, "0.2", "rattle", "check", "--crate-name", "top"], folder, ("top", "proof", 0.2)
    yield [*burn, "0.1", "rattle", "build", "--crate-name", "top", "--crate-checked", "made"], folder, ("top", "programs", 0.1)
    yield [*burn, "0.1", "/tmp/rt-run-one/bin/top"], room, ("top", "programs", 0.1)
    yield [*burn, "0.1", "rattle", "fmt", "--check"], room, (NONE, NONE, 0.1)


def try_sums():
    """Whether the figures of a few processes are theirs, and add up."""
    with tempfile.TemporaryDirectory() as room:
        rows = list(stand_ins(room))
        before = spent()
        _, figures = measured(lambda: [subprocess.run(words, cwd=folder, check=True) for words, folder, _ in rows])
        used = spent() - before
    for line in figures.lines():
        print(line)
    for crate in ("low", "top"):
        for kind in KINDS:
            wanted = sum(seconds for _, _, (name, of, seconds) in rows if (name, of) == (crate, kind))
            # (a Python takes some hundredths of a second to start, and one that starts another twice that)
            assert wanted <= figures.seconds[crate][kind] < wanted + 0.3, (crate, kind, wanted)
        assert abs(figures.of_crate(crate) - sum(figures.seconds[crate].values())) < 0.001, crate
    assert figures.counts == {"proof": 2, "edits": 2, "tests": 1, "programs": 2}, figures.counts
    assert add_up(figures, used) and not add_up(figures, used + 1), used
    print("the sums add up")


if __name__ == "__main__":
    if sys.argv[1:] == ["--try-sums"]:
        try_sums()
    else:
        sys.exit(gate(os.path.dirname(os.path.dirname(os.path.abspath(__file__))), sys.argv[1:]))
