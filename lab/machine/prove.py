"""Proves and builds the program, crates that do not wait for each other side by side.

`rt lib` holds the folder of its crate and those of all below it, so two that stand on one crate would wait for each
other. Therefore each runs in a tree of its own: the crate's files, with what is built of those below it linked in. Its
folder `out` is put back when it has ended, however that came about, so that the next run goes on from there."""

import contextlib
import fcntl
import os
import re
import shutil
import signal
import subprocess
import sys
import time

HOME = os.path.dirname(os.path.dirname(os.path.dirname(os.path.abspath(__file__))))
PROGRAM = "bng"
WORK = os.path.join(HOME, "crates", PROGRAM, "out", "prove")

# So much memory is to be there for each check, in octets: one of a big crate takes 3 GB.
MEMORY_OF_A_CHECK = 4_000_000_000

SHOWN_OF_A_LOG = 20


class Failed(Exception):
    """What went wrong, in words for the user."""


def listed():
    """The line of each crate in crates.txt."""
    with open(os.path.join(HOME, "crates.txt"), encoding="utf-8") as file:
        lines = [line.partition("#")[0].strip() for line in file]
    return {re.match(r"\w+", line)[0]: line for line in lines if line}


def crates():
    """Each crate of the repository and the ones of the repository that it names, by crates.txt."""
    lines = listed()
    return {name: [it for it in line.partition(":")[2].split() if it in lines] for name, line in lines.items()}


def all_below(named, name):
    """The crates below this one, nearer or farther."""
    found = set(named[name])
    for it in named[name]:
        found |= all_below(named, it)
    return found


def folder_of(name):
    return os.path.join(HOME, "crates", name)


def lines_of(name):
    """How many lines a crate's code, definitions and proofs have, which tells roughly how long it takes."""
    count = 0
    for part in ("src", "specs", "proofs"):
        for folder, _, files in os.walk(os.path.join(folder_of(name), part)):
            for file in files:
                with open(os.path.join(folder, file), "rb") as text:
                    count += text.read().count(b"\n")
    return count


def chains(below, lines):
    """For each crate the lines of the longest chain of crates that begins with it and goes up."""
    above = {name: [it for it in below if name in below[it]] for name in below}
    chain = {}
    for name in sorted(below, key=lambda it: -len(below[it])):
        chain[name] = lines[name] + max((chain[it] for it in above[name]), default=0)
    return chain


def lanes():
    """How many checks may run at once: those that RT_JOBS says, or one a processor, as far as there is memory."""
    if os.environ.get("RT_JOBS", "").isdigit():
        return max(1, int(os.environ["RT_JOBS"]))
    with open("/proc/meminfo", encoding="ascii") as file:
        room = int(re.search(r"MemAvailable:\s+(\d+)", file.read())[1]) * 1024
    return max(1, min(len(os.sched_getaffinity(0)), room // MEMORY_OF_A_CHECK))


def put_back(name):
    """Puts the folder `out` of a crate that was taken to a tree of its own back, and removes the tree."""
    tree = os.path.join(WORK, name)
    taken, place = os.path.join(tree, "crates", name, "out"), os.path.join(folder_of(name), "out")
    if os.path.isdir(taken) and not os.path.exists(place):
        os.rename(taken, place)
    shutil.rmtree(tree, ignore_errors=True)


def lay_out(name, below):
    """Makes the tree in which a crate is proved, and returns the crate's folder there."""
    tree = os.path.join(WORK, name)
    for it in (name, *below):
        place = os.path.join(tree, "crates", it)
        os.makedirs(place)
        for part in ("src", "specs", "proofs"):
            with contextlib.suppress(FileNotFoundError):
                shutil.copytree(os.path.join(folder_of(it), part), os.path.join(place, part), copy_function=os.link)
        built = os.path.join(folder_of(it), "out", "rlib")
        if it != name and os.path.isdir(built):
            shutil.copytree(built, os.path.join(place, "out", "rlib"), copy_function=os.link)
    lines = listed()
    with open(os.path.join(tree, "crates.txt"), "w", encoding="utf-8") as file:
        file.writelines(f"{lines[it]}\n" for it in (name, *below))
    place = os.path.join(tree, "crates", name)
    with contextlib.suppress(FileNotFoundError):
        os.rename(os.path.join(folder_of(name), "out"), os.path.join(place, "out"))
    return place


class Lane:
    """A crate that is being proved."""

    def __init__(self, name, below, jobs):
        self.name, self.log = name, os.path.join(WORK, f"{name}.log")
        place = lay_out(name, below)
        with open(self.log, "wb") as log:
            self.process = subprocess.Popen(
                ["rt", "lib", "--jobs", str(jobs)],
                cwd=place,
                stdin=subprocess.DEVNULL,
                stdout=log,
                stderr=subprocess.STDOUT,
                # An interrupt from the terminal is for us: we end it.
                start_new_session=True,
            )

    def end(self):
        """Ends what runs still, and puts back what it made so far."""
        for number, patience in ((signal.SIGTERM, 5), (signal.SIGKILL, None)):
            with contextlib.suppress(ProcessLookupError):
                os.killpg(self.process.pid, number)
            try:
                self.process.wait(patience)
                break
            except subprocess.TimeoutExpired:
                pass
        put_back(self.name)


def end_of(log):
    with open(log, encoding="utf-8", errors="replace") as file:
        return "".join(f"    {line.rstrip()[:200]}\n" for line in file.readlines()[-SHOWN_OF_A_LOG:])


class Progress:
    """Says how many crates are done and how long it has taken: on a terminal in one line that is written anew."""

    def __init__(self, count):
        self.count, self.done, self.began, self.said = count, 0, time.monotonic(), None
        self.is_line = sys.stderr.isatty()

    def minutes(self):
        return int(time.monotonic() - self.began) // 60

    def say(self, running):
        state = (self.done, self.minutes(), tuple(sorted(running)))
        if state == self.said or not self.is_line and self.said and state[0] == self.said[0]:
            return
        self.said = state
        line = f"bng: {self.done} of {self.count} crates, {self.minutes()} minutes so far: {', '.join(state[2])}"
        print(f"\r\033[K{line[:118]}" if self.is_line else line, end="" if self.is_line else "\n", file=sys.stderr, flush=True)

    def clear(self):
        if self.is_line:
            print("\r\033[K", end="", file=sys.stderr, flush=True)


def next_of(left, running, done, below, chain):
    """The crate to begin now: of those that wait for none the one with the longest chain above it."""
    ready = [it for it in left if it not in running and below[it] <= done]
    return max(ready, key=chain.get, default=None)


def prove_libraries(names, below, chain, most, progress):
    """Proves and builds libraries, those below first, so many at once at most."""
    left, done, running, alone = set(names), set(), {}, set()
    try:
        while left:
            name = next_of(left, running, done, below, chain)
            may_begin = len(running) < most and not alone & set(running) and (name not in alone or not running)
            if name and may_begin:
                ready = sum(below[it] <= done for it in left - set(running))
                jobs = max(1, most // min(most, len(running) + ready))
                if chain[name] == max(map(chain.get, left)):
                    # All wait for the longest chain in the end, so it goes first.
                    jobs = max(jobs, most - 1)
                running[name] = Lane(name, below[name], jobs)
                continue
            progress.say(running)
            time.sleep(0.1)
            for lane in [it for it in running.values() if it.process.poll() is not None]:
                del running[lane.name]
                lane.end()
                status = lane.process.returncode
                if status == 0:
                    left.remove(lane.name), done.add(lane.name)
                    progress.done += 1
                elif status in (-9, 128 + 9, 256 - 9) and lane.name not in alone:
                    # It was killed, most likely for memory.
                    alone.add(lane.name)
                else:
                    raise Failed(f"the crate {lane.name} is not proved (status {status}). Its log ends so:\n{end_of(lane.log)}"
                                 f"bng: {lane.log} has all of it; what was proved is kept")
    finally:
        progress.clear()
        for lane in running.values():
            lane.end()


def build_program(progress):
    """`rt run` proves the program, builds it, and then runs it without words, which only prints the usage line."""
    program, log = os.path.join(folder_of(PROGRAM), "out", PROGRAM), os.path.join(WORK, f"{PROGRAM}.log")
    with contextlib.suppress(FileNotFoundError):
        os.remove(program)
    with open(log, "wb") as file:
        pipes = {"stdin": subprocess.DEVNULL, "stdout": file, "stderr": subprocess.STDOUT}
        ran = subprocess.Popen(["rt", "run"], cwd=folder_of(PROGRAM), start_new_session=True, **pipes)
        try:
            while ran.poll() is None:
                progress.say([PROGRAM])
                time.sleep(0.1)
        finally:
            progress.clear()
            with contextlib.suppress(ProcessLookupError):
                os.killpg(ran.pid, signal.SIGTERM)
            ran.wait()
    if not os.access(program, os.X_OK):
        raise Failed(f"rt run ended with status {ran.returncode} and built no program. Its log ends so:\n{end_of(log)}bng: {log} has all of it")


def prove(names):
    named = crates()
    unknown = [it for it in names if it not in named or it == PROGRAM]
    if unknown:
        raise Failed(f"crates.txt has no library {unknown[0]}")
    wanted = set(names).union(*(all_below(named, it) for it in names or [PROGRAM]))
    below = {it: all_below(named, it) for it in wanted}
    lines = {it: lines_of(it) for it in wanted}
    progress, most = Progress(len(wanted) + (not names)), lanes()
    whole = "" if names else "; from nothing that takes half an hour on four processors"
    print(f"bng: proving {progress.count} crates, at most {most} at once{whole}", file=sys.stderr)
    prove_libraries(wanted, below, chains(below, lines), most, progress)
    if not names:
        build_program(progress)
    print(f"bng: proved in {progress.minutes()} minutes", file=sys.stderr)


def wait_for(lock):
    """Waits until no other run proves this checkout."""
    try:
        fcntl.flock(lock, fcntl.LOCK_EX | fcntl.LOCK_NB)
    except BlockingIOError:
        print("bng: another run proves this checkout already: waiting for it", file=sys.stderr)
        fcntl.flock(lock, fcntl.LOCK_EX)


def main(names):
    if {"-h", "--help"} & set(names):
        print(f"usage: lab/prove [NAME..]\n\n{__doc__}\n\nRT_JOBS says how many checks may run at once.")
        return 0

    def interrupted(*_):
        raise KeyboardInterrupt

    for number in (signal.SIGINT, signal.SIGTERM, signal.SIGHUP):
        signal.signal(number, interrupted)
    os.makedirs(WORK, exist_ok=True)
    with open(os.path.join(WORK, "lock"), "w", encoding="ascii") as lock:
        try:
            wait_for(lock)
            # What an earlier run that was killed has left.
            for name in crates():
                put_back(name)
            prove(names)
        except Failed as failure:
            print(f"bng: {failure}", file=sys.stderr)
            return 1
        except KeyboardInterrupt:
            print("bng: interrupted; what was proved is kept, and the next run goes on from there", file=sys.stderr)
            return 130
    return 0


if __name__ == "__main__":
    sys.exit(main(sys.argv[1:]))
