"""Runs the built program on inputs of rising size: seconds, peak memory and nanoseconds a byte, or its instructions."""

import os
import re
import shutil
import subprocess
import sys
import tempfile

PROGRAM = os.environ.get("CLARITY", "../crates/clarity/out/clarity")
if not os.access(PROGRAM, os.X_OK):
    sys.exit("the program isn't built yet: ./prove does that (or CLARITY names one)")
# Runs a program and writes what it used to descriptor 3. What starts a process counts to its peak, so this one is small, and
# no memory is counted below some 8 MiB.
STARTER = """
import os, resource, signal, sys
bytes_of, seconds, words = int(sys.argv[1]), int(sys.argv[2]), sys.argv[3:]
child = os.fork()
if child == 0:
    os.close(3)
    resource.setrlimit(resource.RLIMIT_AS, (bytes_of, bytes_of))
    resource.setrlimit(resource.RLIMIT_CPU, (seconds, seconds))
    os.execv(words[0], words)
_, ended, usage = os.wait4(child, 0)
os.write(3, b"%d %f %d" % (os.waitstatus_to_exitcode(ended), usage.ru_utime + usage.ru_stime, usage.ru_maxrss))
"""


class Ended:
    """How a run ended: its status (of a signal a negative one), what it wrote, processor seconds and peak MiB."""

    def __init__(self, status, written, seconds, memory):
        self.status, self.written, self.seconds, self.memory = status, written, seconds, memory


def ended(words, gibibytes=16, seconds=600):
    """Runs the program with these words, with so much address space and so many processor seconds at most."""
    out, into = os.pipe()
    start = [sys.executable, "-I", "-S", "-c", "import os, sys; os.dup2(int(sys.argv[1]), 3); del sys.argv[1]" + STARTER, str(into)]
    child = subprocess.Popen([*start, str(gibibytes << 30), str(seconds), PROGRAM, *words], stdout=subprocess.PIPE, stderr=subprocess.DEVNULL, pass_fds=[into])
    os.close(into)
    written = child.stdout.read().decode(errors="replace")
    child.wait()
    with os.fdopen(out) as told:
        status, spent, memory = told.read().split()
    return Ended(int(status), written, float(spent), int(memory) / 1024)


def run(words, status, answer):
    """Processor seconds and peak MiB of one run with these words, which has to end with the status and an answer that holds the text."""
    one = ended(words)
    assert one.status == status and answer in one.written, (one.status, one.written[:200])
    return one.seconds, one.memory


def table(rows, words, status, sizes=tuple(2**power for power in range(16, 21)), before=("call",)):
    """A line for each row, which is a name, a text by its size, and what the answer holds; and for each size, 64 KiB to 1 MiB.
    The path of the text stands between the words before it and those after it."""
    print(f"{'text':9} {'bytes':>9} {'seconds':>9} {'MiB':>7} {'ns/byte':>8}")
    with tempfile.TemporaryDirectory() as folder:
        path = os.path.join(folder, "long.clar")
        for name, text, answer in rows:
            for wanted in sizes:
                with open(path, "w") as file:
                    size = file.write(text(wanted))
                runs = [run([*before, path, *words], status, answer) for _ in range(5)]
                seconds = min(one[0] for one in runs)
                memory = max(one[1] for one in runs)
                print(f"{name:9} {size:9} {seconds:9.4f} {memory:7.1f} {seconds / size * 1e9:8.0f}", flush=True)


def counted(words, status, answer):
    """Instructions of one run by callgrind, the same at every run (None where valgrind isn't there), and what it wrote."""
    if shutil.which("valgrind") is None:
        return None, ended(words).written
    child = subprocess.run(["valgrind", "--tool=callgrind", "--callgrind-out-file=/dev/null", PROGRAM, *words], capture_output=True, text=True)
    assert child.returncode == status and answer in child.stdout, (child.returncode, child.stdout[:200])
    return int(re.search(r"Collected : (\d+)", child.stderr).group(1)), child.stdout


def instructions(words, status, answer):
    """Instructions of one run by callgrind, the same at every run; None where valgrind isn't there."""
    return counted(words, status, answer)[0]
