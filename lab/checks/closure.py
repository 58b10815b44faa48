"""Counts the definitions that one definition stands on: its own lines and, name by name, those of all that it names, down to the standard
library, without comments and imports. What a reader has to read, who wants to know what the one says.

MODULE.NAME is a definition of a crate's specs, bng_gate.Promise.Promise where nothing is said. With LIMIT the status is 1 where there are
more lines. Types that the code declares are counted by themselves."""

import glob
import os
import re
import sys

from checks import usage
from machine.gateway import HOME

PROMISE = "bng_gate.Promise.Promise"

# So many lines a stranger reads in an hour.
MOST = 900

WORD = re.compile(r"[^\W\d]\w*(?:[-'\u2081-\u2089]\w*)*")
BEGINS = re.compile(r"\s*(?:pub |abbrev |opaque )*(?:(?:record|data) (\w+)|(\w+)(?: :|$))")
USE = re.compile(r"use Rattle\.([\w.]+)\.\{(.*)\}$")


class Module:
    """A file of definitions: what each of its names stands on, and which names come from where."""

    def __init__(self, path):
        self.lines, self.origin = {}, {}
        with open(path, encoding="utf-8") as file:
            self.read(file.read().splitlines())

    def read(self, lines):
        name = None
        for line in lines:
            text = line.partition("--")[0].rstrip()
            if used := USE.match(text):
                for word in used[2].split(","):
                    of, _, here = word.strip().partition(" as ")
                    self.origin[here or of] = (used[1], of)
            elif text.lstrip().startswith("module "):
                name = None
            elif text:
                name = self.begun(text, name)
                if name:
                    self.lines[name].append(text)

    def begun(self, text, name):
        """The definition to which a line belongs: a new one, or the one before."""
        found = BEGINS.match(text)
        if not found or not (found[1] or " : " in text):
            return name
        new = found[1] or found[2]
        is_field = re.match(r"\s+(?:pub )?\w+ :", text) and name and self.is_record(name)
        if is_field or new in self.lines and new != name:
            return name
        self.lines.setdefault(new, [])
        return new

    def is_record(self, name):
        return re.match(r"\s*(?:pub )?(?:record|data) ", self.lines[name][0])

    def named(self, name):
        """The names in a definition, but its own."""
        return {word for line in self.lines[name] for word in WORD.findall(line)} - {name}


def modules():
    found = {}
    for path in glob.glob(os.path.join(HOME, "crates", "*", "specs", "**", "*.antt"), recursive=True):
        crate, _, rest = os.path.relpath(path, os.path.join(HOME, "crates")).partition("/specs/")
        found[f"{crate}.specs.{rest[:-len('.antt')].replace('/', '.')}"] = Module(path)
    return found


def closure(all_modules, module, name):
    """All definitions that one stands on, itself among them, and the declared types."""
    left, found, declared = [(module, name)], set(), set()
    while left:
        at = left.pop()
        if at in found:
            continue
        found.add(at)
        its = all_modules[at[0]]
        for word in its.named(at[1]):
            if word in its.lines:
                left.append((at[0], word))
            elif word in its.origin:
                of, its_name = its.origin[word]
                if ".specs.declared." in of:
                    declared.add(re.sub(r"\.TheVariants$", "", of))
                elif of in all_modules and its_name in all_modules[of].lines:
                    left.append((of, its_name))
    return found, declared


def lines_below(whole):
    """Of each file how many lines of how many definitions the one named stands on, and how many declared types."""
    crate, _, rest = whole.partition(".")
    module, _, name = rest.rpartition(".")
    all_modules, module = modules(), f"{crate}.specs.{module}"
    if module not in all_modules or name not in all_modules[module].lines:
        raise LookupError(whole)
    found, declared = closure(all_modules, module, name)
    by_file = {}
    for of, its_name in found:
        by_file.setdefault(of, []).append(len(all_modules[of].lines[its_name]))
    return by_file, len(declared)


def reads_the_promise(checks):
    by_file, _ = lines_below(PROMISE)
    checks.same(f"the promise stands on at most {MOST} lines", sum(map(sum, by_file.values())) <= MOST, True)


def main():
    words = usage.heed("closure", __doc__, "MODULE.NAME", "LIMIT")
    whole = words[0] if words else PROMISE
    try:
        by_file, types = lines_below(whole)
    except LookupError:
        sys.exit(f"closure: there is no definition {whole}")
    for of in sorted(by_file, key=lambda it: (-sum(by_file[it]), it)):
        print(f"{sum(by_file[of]):5}  {of.replace('.specs.', '.')}, of {len(by_file[of])} definitions")
    total = sum(map(sum, by_file.values()))
    print(f"{total:5}  lines in {len(by_file)} files, and {types} types that the code declares")
    if len(words) > 1 and total > int(words[1]):
        sys.exit(f"closure: {whole} stands on {total} lines, and {words[1]} are allowed")


if __name__ == "__main__":
    main()
