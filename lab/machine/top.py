"""Shows in a terminal what a gateway carries and drops a second, from two answers to the word `stats` a second apart."""

import argparse
import sys
import time

from machine import ends, sums

PAUSE = 1.0
CLEAR = "\x1b[H\x1b[2J"


def table(before, now, seconds):
    """The lines that show what was between two answers that are so many seconds apart: of each count what it grew by a second, and what
    it is now."""
    rows = [("octets", "in/s", "out/s", "in", "out")]
    for name, octets in now.octets.items():
        grown = [octets[way] - before.octets.get(name, {}).get(way, 0) for way in sums.DIRECTIONS]
        rows.append((name, *(f"{count / seconds:,.0f}" for count in grown), *(f"{octets[way]:,}" for way in sums.DIRECTIONS)))
    rows.append(("dropped", "packets/s", "", "packets", ""))
    for cause, count in now.drops.items():
        rows.append((cause, f"{(count - before.drops.get(cause, 0)) / seconds:,.0f}", "", f"{count:,}", ""))
    width = max(len(name) for name, *_ in rows)
    return "\n".join((f"{name:<{width}}" + "".join(f"{cell:>18}" for cell in cells)).rstrip() for name, *cells in rows)


def main():
    parser = argparse.ArgumentParser(prog="lab/top", description="What the gateway carries and drops a second; ends at an interrupt.")
    parser.add_argument("config")
    parser.add_argument("--once", action="store_true", help="show one second and end")
    asked = parser.parse_args()
    control = ends.control(ends.read(asked.config))
    try:
        return show(control, asked.once)
    except KeyboardInterrupt:
        return 0


def show(control, once):
    """Shows each second, or one; the status is 1 where the one has no answer."""
    before, asked_at = sums.ask(control), time.monotonic()
    while True:
        time.sleep(PAUSE)
        now, moment = sums.ask(control), time.monotonic()
        is_answered = before is not None and now is not None
        text = table(before, now, moment - asked_at) if is_answered else f"no gateway answers at {control[0]}:{control[1]}"
        if once:
            print(text if is_answered else f"top: {text}", file=sys.stdout if is_answered else sys.stderr)
            return 0 if is_answered else 1
        print(CLEAR + text, flush=True)
        before, asked_at = now, moment


if __name__ == "__main__":
    sys.exit(ends.run("top", main))
