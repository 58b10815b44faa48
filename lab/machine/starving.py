"""The program with one of its allocations refused, by a library in C that stands before the C library's heap: it is built once, and told by the
environment which one."""

import contextlib
import os
import shutil
import subprocess
import tempfile


class Heap:
    """The heap of a run: `environment` refuses the allocation with a number, and `count` says how many there were."""

    def __init__(self, library, folder, name):
        self.library, self.path = library, os.path.join(folder, name)

    def environment(self, number):
        with open(self.path, "wb") as file:
            file.write(bytes(8))
        return {**os.environ, "LD_PRELOAD": self.library, "STARVE_AT": str(number), "STARVE_COUNT": self.path}

    def count(self):
        with open(self.path, "rb") as file:
            return int.from_bytes(file.read(), "little")


@contextlib.contextmanager
def heaps():
    """What makes heaps, each for one run at a time, as long as it is wanted."""
    compiler = shutil.which("cc") or shutil.which("gcc") or shutil.which("clang")
    if compiler is None:
        raise RuntimeError("what refuses memory is in C, and there is no C compiler here")
    with tempfile.TemporaryDirectory(prefix="bng-starve-") as folder:
        library = os.path.join(folder, "starve.so")
        source = os.path.join(os.path.dirname(os.path.abspath(__file__)), "starve.c")
        subprocess.run([compiler, "-O2", "-Wall", "-fPIC", "-shared", "-fno-builtin-malloc", "-o", library, source], check=True)
        yield lambda name: Heap(library, folder, name)


def ran(command, heap, number, patience=120):
    """Runs a program that ends by itself with this allocation refused: its status, standard output and standard error."""
    pipes = {"stdin": subprocess.DEVNULL, "stdout": subprocess.PIPE, "stderr": subprocess.PIPE}
    done = subprocess.run(command, timeout=patience, check=False, env=heap.environment(number), **pipes)
    return done.returncode, done.stdout.decode(), done.stderr.decode(errors="replace")
