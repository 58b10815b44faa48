"""What is known of a session by several parties (the emulated machine's console, the frames on the cable, the provider's
records, the gateway's report and the hosts behind the core), and whether they say the same."""

from machine.cable import COUNTED, FILE, PINGED, PPPD, TOTAL, found
from peers import pppoe


class Comparisons:
    """Results, each of them printed."""

    def __init__(self):
        self.results = []

    def same(self, what, said, wanted):
        is_right = said == wanted
        self.results.append(is_right)
        print(f"{'right' if is_right else 'WRONG'}: {what}: {said}" + ("" if is_right else f", and not {wanted}"), flush=True)

    def all_right(self):
        return all(self.results)

    def conclude(self):
        """Says how many there were. The status."""
        print(f"\n{self.results.count(True)} right, {self.results.count(False)} wrong")
        return 0 if self.all_right() else 1


def compare_session(checks, cable, start, stop, user, group):
    """Whose session it was, which address it had, and how long it went on."""
    address, = found(cable.console, r"local +IP address (\S+)") or ("none",)
    wanted = {"User-Name": user, "Framed-IP-Address": address, "Class": "0x" + group.hex()}
    for name, value in wanted.items():
        checks.same(f"{name} of the Start and of the Stop", (start.says(name), stop.says(name)), (value, value))
    checks.same("Acct-Session-Id of the Stop is that of the Start", stop.says("Acct-Session-Id"), start.says("Acct-Session-Id"))
    checks.same("Acct-Terminate-Cause of the Stop", stop.says("Acct-Terminate-Cause"), cable.cause)
    name, end = cable.end_of_time()
    ends = [(False, pppoe.CHAP, pppoe.SUCCESS), end]
    if all(end in cable.moments for end in ends):
        since, until = (cable.moments[end] for end in ends)
        said = stop.number("Acct-Session-Time")
        what = f"Acct-Session-Time {said} is within 1 s of the {until - since:.1f} s from the Success to the {name}"
        checks.same(what, said is not None and abs(said - (until - since)) <= 1, True)


def compare_traffic(checks, cable, stop, report):
    """What the machine's interface counted without IPCP and its like, what the Stop says, and what the gateway's report says."""
    counted = found(cable.console, COUNTED)
    if counted is None:
        checks.same("ppp0's counters are on the console", False, True)
        return
    counters = list(map(int, counted))
    for name, verb, is_up, (octets, packets) in (("Input", "sent", True, counters[:2]), ("Output", "took", False, counters[2:])):
        sums = cable.sums[is_up]
        other = f"less {sums.others} octets in {sums.other_packets} packets of IPCP and its like"
        print(f"       ppp0 {verb} {octets} octets in {packets} packets, {other}")
        checks.same(f"Acct-{name}-Octets, and ppp0", stop.number(f"Acct-{name}-Octets"), octets - sums.others)
        checks.same(f"Acct-{name}-Packets, and ppp0", stop.number(f"Acct-{name}-Packets"), packets - sums.other_packets)
        checks.same(f"Acct-{name}-Gigawords", stop.number(f"Acct-{name}-Gigawords"), 0)
        checks.same(f"octets of IPv4 that the machine {verb}, on the cable", sums.octets, octets - sums.others)
    said = (stop.number("Acct-Input-Octets"), stop.number("Acct-Output-Octets"))
    others = [("what pppd says that it sent and received", cable.console, PPPD), ("the total of the gateway's report", report.splitlines(), TOTAL)]
    for what, lines, pattern in others:
        told = found(lines, pattern)
        checks.same(what, told and tuple(map(int, told)), said)


def compare_uses(checks, cable, pings, md5, server):
    """What the machine had of its session."""
    checks.same("the server of names that pppd was told", found(cable.console, r"primary +DNS address (\S+)"), (server,))
    pinged = [found([line], PINGED) for line in cable.console]
    checks.same("pings that were sent and answered", [p for p in pinged if p], [(str(count), str(count)) for count in pings])
    checks.same("MD5 sum of the file that the machine got", found(cable.console, FILE), (md5,))
    checks.same("Echo Requests that came to the hosts behind the core", cable.hosts.echoes, sum(pings))
    checks.same("packets at the core that were none, or had a wrong sum", cable.hosts.faults, 0)
    checks.same("sources of the packets at the core", sorted(cable.hosts.sources), list(found(cable.console, r"local +IP address (\S+)") or ()))
