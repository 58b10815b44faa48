"""A subscriber of the real program sends more than 2^32 octets over sockets of the loopback, as fast as they come back, and its Stop
says how many: the octets modulo 2^32, and how often they hold 2^32 (RFC 2869 section 5.1)."""

import subprocess
import sys

from checks import usage
from machine.gateway import Lab, serve
from machine.traffic import built_tool, logged_in, measure
from peers import radius_packets
from peers.radius_packets import value
from peers.radius_server import STOP

SIZE, SECONDS = 1400, 5
WANTED = 2**32 // SIZE + 1


def main():
    with built_tool() as tool, Lab("echo = 0\n") as lab:
        serve(lab)
        who, came, lost = logged_in(lab), 0, 0
        while came < WANTED:
            run = measure(tool, lab, who, "up", SIZE, SECONDS)
            came, lost = came + run.came, lost + run.lost
            print(f"{came:,} packets of {SIZE} octets came, {lost} did not", flush=True)
        lab.send(b"stop", lab.control, "control")
        status, out, _ = lab.end(60)
        stops = [record for record in lab.records if value(record, radius_packets.ACCT_STATUS_TYPE) == STOP]
        said = [(value(stop, radius_packets.ACCT_INPUT_GIGAWORDS) << 32) + value(stop, radius_packets.ACCT_INPUT_OCTETS) for stop in stops]
        print(f"status {status}; {out.splitlines()[0]}; the Stops say {sorted(said)}, so {max(said) // 2**32} times 2^32 and {max(said) % 2**32}")
        # What did not come was sent by the gateway and lost behind it, or lost before it.
        right = status == 0 and came * SIZE <= sum(said) <= (came + lost) * SIZE and out.startswith(f"stopped in={sum(said)} out=0\n")
        print("right" if right else "WRONG")
        return 0 if right else 1


if __name__ == "__main__":
    usage.heed("gigawords", __doc__)
    try:
        sys.exit(main())
    except (RuntimeError, OSError, subprocess.SubprocessError) as error:
        print(f"gigawords: {error}", file=sys.stderr)
        sys.exit(1)
