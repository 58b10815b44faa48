"""Shows one packet of one subscriber on its way through the real gateway, over sockets of the loopback, and then the gateway trying itself."""

import subprocess
import sys

from checks import usage
from machine.gateway import BNG, BUILDING, Lab
from peers.ipv4 import packet
from peers.pppoe import frame

# What each number of the line of `exercise` counts.
NUMBERS = {
    "subscribers": "scripted subscribers were served in memory, three over PPPoE and one over L2TP.",
    "terms": "terms began: each subscriber logged in and got an address.",
    "in_packets": "packets of the subscribers went to the core,",
    "in_octets": "octets long together.",
    "out_packets": "packets came back to the subscribers,",
    "out_octets": "octets long together.",
    "stops": "Stops were formed, one for each term, and the RADIUS server acknowledged each.",
    "dropped": "items were dropped.",
}


def words(octets):
    """Octets in hexadecimal, four in a group and five groups in a line."""
    groups = [octets[at:at + 4].hex() for at in range(0, len(octets), 4)]
    return [" ".join(groups[at:at + 5]) for at in range(0, len(groups), 5)]


def show(title, lines):
    print(f"\n{title}")
    for line in lines:
        print(f"    {line}", flush=True)


def show_header(octets):
    total, ttl, check = int.from_bytes(octets[2:4], "big"), octets[8], octets[10:12].hex()
    ends = " to ".join(".".join(map(str, octets[at:at + 4])) for at in (12, 16))
    return f"IPv4 of {total} octets, {ends}, TTL {ttl}, header checksum {check}"


def show_exercise():
    """Has the gateway serve four subscribers in memory, and says what each number of its line counts."""
    done = subprocess.run([BNG, "--unproved", "exercise", "4"], capture_output=True, text=True, check=False)
    line = done.stdout.rstrip("\n")
    counts = [pair.partition("=") for pair in line.split()[1:]]
    show("`bng exercise 4` prints:", [line, ""] + [f"{value:>6} {NUMBERS[name]}" for name, _, value in counts])
    return done.returncode


def main():
    with Lab() as lab:
        with open(lab.configuration, encoding="utf-8") as file:
            show("The configuration:", file.read().splitlines())
        # The proved program where it is there, else one that is built in a minute or two.
        lab.start([BNG, "--unproved", "serve", lab.configuration], patience=BUILDING, stderr=None)
        sent = frame(packet())
        show(
            f"A frame goes in at the access port {lab.ports['access']}, {len(sent)} octets:",
            [
                f"{sent[:6].hex()} {sent[6:12].hex()} {sent[12:14].hex()}    Ethernet: to, from, PPPoE session",
                f"{sent[14:16].hex()} {sent[16:18].hex()} {sent[18:20].hex()}    PPPoE: SESSION_ID 1025, LENGTH 86",
                f"{sent[20:22].hex()}    PPP: an IPv4 packet follows",
                *words(sent[22:]),
                show_header(sent[22:]),
            ],
        )
        lab.send(sent)
        got, port = lab.receive(lab.core)
        if got is None:
            print("\nNo packet came out within five seconds.", file=sys.stderr)
            return 1
        title = f"The packet comes out at the core, from port {port}, {len(got)} octets:"
        show(title, [*words(got), show_header(got)])
        answer = lab.stop()
        show("The word `stop` goes to the control port. Its answer:", [repr(answer.decode()) if answer else "none"])
        status, out, _ = lab.end()
        show(f"The report, and then status {status}:", out.splitlines())
        print("\nNow it serves four scripted subscribers in memory; unproved, that takes some 15 seconds.", flush=True)
        return status or show_exercise()


if __name__ == "__main__":
    usage.heed("first-packet", __doc__)
    try:
        sys.exit(main())
    except (RuntimeError, OSError) as error:
        print(f"first-packet: {error}", file=sys.stderr)
        sys.exit(1)
