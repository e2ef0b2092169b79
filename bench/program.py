"""The program of this repository, for the measurements and the comparisons."""
import os
import subprocess
import sys
import threading
import time
from dataclasses import dataclass, replace
from pathlib import Path

TOP = Path(__file__).resolve().parent.parent


def built():
    """The program, built where it isn't yet: a run of the script sees to that, whatever it runs."""
    words = [TOP / "maestro", "hash", "0.0.0.0:0", "0.0.0.0:0"]
    status = subprocess.run(words, stdin=subprocess.DEVNULL, stdout=subprocess.DEVNULL, check=False).returncode
    if status:
        sys.exit(f"{Path(sys.argv[0]).name}: {TOP / 'maestro'} ended with status {status}")
    return TOP / "crates" / "maestro" / "out" / "maestro"


def built_crate(name):
    """A program that only tries or measures a library, proved and built where it isn't yet."""
    crate = TOP / "crates" / name
    took = subprocess.run(["rt", "run"], cwd=crate, stdin=subprocess.DEVNULL, capture_output=True, check=False)
    if took.returncode:
        sys.exit(f"{Path(sys.argv[0]).name}: `rt run` in {crate} ended with {took.returncode}\n{took.stderr.decode()}")
    return crate / "out" / name


@dataclass
class Took:
    """What a process took, in seconds and KiB, and how it ended.

    The processor's seconds are those in the program and those in the system.
    """
    seconds: float
    user: float
    system: float
    memory: int
    status: int
    said: bytes

    @property
    def processor(self):
        return self.user + self.system

    @staticmethod
    def none():
        return Took(0, 0, 0, 0, 0, b"")

    def then(self, later):
        """What this and a later process took together."""
        return Took(
            self.seconds + later.seconds,
            self.user + later.user,
            self.system + later.system,
            max(self.memory, later.memory),
            later.status,
            later.said,
        )


def best(runs):
    """The least time of a few runs, that of the processor of one run, and the most memory."""
    least = min(runs, key=lambda took: took.processor)
    memory = max(took.memory for took in runs)
    return replace(least, seconds=min(took.seconds for took in runs), memory=memory)


class Tools:
    """Programs in C that are built into a folder: the firewall by hand, and one that tells what another took."""

    def __init__(self, folder):
        self.folder = folder
        self.floor = self.compiled("floor")
        self.launcher = self.compiled("took")

    def compiled(self, name):
        built_as = self.folder / name
        words = ["cc", "-O3", "-o", built_as, Path(__file__).resolve().parent / f"{name}.c"]
        if subprocess.run(words, check=False).returncode:
            sys.exit(f"{Path(sys.argv[0]).name}: {name}.c can't be compiled")
        return built_as

    def took(self, words, stdout=subprocess.PIPE, stderr=None):
        """Runs a program to its end. Its memory is its own, whatever this script holds."""
        told = self.folder / "took.txt"
        run = subprocess.run([self.launcher, told, *words], stdout=stdout, stderr=stderr, check=False)
        if run.returncode:
            sys.exit(f"{Path(sys.argv[0]).name}: {words[0]} can't be run")
        seconds, user, system, memory, status = told.read_text().split()
        return Took(float(seconds), float(user), float(system), int(memory), int(status), run.stdout or b"")


def timed(words, limit=None, **how):
    """Runs a program to its end, or for so many seconds."""
    start = time.monotonic()
    process = subprocess.Popen(words, **how)
    stop = threading.Timer(limit, process.kill) if limit else None
    try:
        if stop:
            stop.start()
        said = process.stdout.read() if process.stdout else b""
        _, status, used = os.wait4(process.pid, 0)
    except BaseException:
        process.kill()
        raise
    finally:
        if stop:
            stop.cancel()
    seconds = time.monotonic() - start
    process.returncode = os.waitstatus_to_exitcode(status)
    return Took(seconds, used.ru_utime, used.ru_stime, used.ru_maxrss, process.returncode, said)
