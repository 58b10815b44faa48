"""Runs the real program over real sockets of the loopback, with good and bad input, and compares what it says."""

import concurrent.futures
import os
import resource
import subprocess
import sys
import threading
import time

from checks import usage
from checks.changes import changes_sessions
from checks.closure import reads_the_promise
from checks.diagnosis import asks_the_doctor
from checks.example import reads_the_example
from checks.habits import keeps_an_operators_habits
from checks.hostile import play
from checks.installed import installs
from checks.leases import leases_addresses
from checks.logins import authenticates, gives_up_on_a_silent_server
from checks.metering import meters_profiles
from checks.records import records_a_circuit, tells_a_stop_that_nobody_acknowledges
from checks.sessions import serves_sessions
from checks.terms import counts_past_sixteen_bits, ends_a_thousand_terms, ends_by_timeouts, keeps_records_while_nobody_takes_them
from checks.terms import refuses_where_terms_are_used_up, reports_after_a_minute, shares_three_addresses_among_five
from checks.tunnels import keeps_a_silent_tunnel, serves_a_call, serves_tunnels
from checks.watching import watches
from machine.gateway import CRATE, PROGRAM, USAGE, Lab, is_built, is_of_try, report, run, stats, tried
from peers.ipv4 import packet
from peers.loopback import udp
from peers.pppoe import delivery, frame

# Each takes a minute of the clock.
MINUTES = (keeps_records_while_nobody_takes_them, reports_after_a_minute, keeps_a_silent_tunnel)

PACKET = packet()
LOWERED = bytes.fromhex("45000054 00010000 3f01afa5 0a000002 c0000201") + PACKET[20:]


class Checks:
    """Counts what is as it should be, and prints what is not."""

    passed = failed = 0

    def __init__(self):
        # Two may be compared at once.
        self.turn = threading.Lock()

    def same(self, what, got, want):
        with self.turn:
            if got == want:
                self.passed += 1
                print(f"ok     {what}")
            else:
                self.failed += 1
                print(f"FAILED {what}\n  got  {got!r}\n  want {want!r}")


def forwards_one_packet(checks, command, patience):
    with Lab() as lab:
        lab.start(command(lab.configuration), patience)
        lab.send(frame(PACKET))
        checks.same("the core gets the packet, TTL lowered", lab.receive(lab.core), (LOWERED, lab.ports["core"]))
        checks.same("stop is answered", lab.stop(), b"stopping\n")
        status, out, err = lab.end()
        checks.same("the report has its 84 octets", out, report(84))
        checks.same("the status is 0", status, 0)
        return err


def forwards_both_ways(checks, command, patience):
    up, down = packet(length=20, ttl=2, number=2), packet("192.0.2.1", "10.0.0.2", length=20, ttl=2, number=2)
    passed_up, passed_down = packet(length=20, ttl=1, number=2), packet("192.0.2.1", "10.0.0.2", length=20, ttl=1, number=2)
    with Lab() as lab:
        lab.start(command(lab.configuration), patience)
        lab.send(frame(up).ljust(60, b"\0"))
        checks.same("a padded frame's packet comes without padding", lab.receive(lab.core)[0], passed_up)
        lab.send(down, lab.core, "core")
        want = (delivery(passed_down), lab.ports["access"])
        checks.same("the subscriber gets the core's packet in a frame", lab.receive(lab.access), want)
        lab.send(packet("192.0.2.1", "10.0.0.9"), lab.core, "core")
        lab.send(down, lab.stranger, "core")
        lab.send(packet("192.0.2.1", "10.0.0.2", ttl=1), lab.core, "core")
        lab.send(down, lab.core, "core")
        checks.same("packets for nobody, of nobody and for no other hop go nowhere", lab.receive(lab.access), want)
        want = stats(20, 40, Malformed=1, NoSession=1, Expired=1).encode()
        checks.same("stats has the sums of both directions so far", (lab.say(b"stats"), lab.say(b"stats\n")), (want, want))
        checks.same("other words are unknown", lab.say(b"status"), b"unknown\n")
        checks.same("stop is answered after traffic both ways", lab.stop(), b"stopping\n")
        status, out, _ = lab.end()
        checks.same("both directions are counted", (status, out), (0, report(20, 40, Malformed=1, NoSession=1, Expired=1)))


def drops_and_counts_bad_input(checks, command, patience):
    bad_sum = bytearray(PACKET)
    bad_sum[11] ^= 1
    malformed = {
        "no octets": b"",
        "a frame cut short": frame(PACKET)[:16],
        "a wrong header sum": frame(bytes(bad_sum)),
        "a PPPoE length past the frame's end": frame(PACKET, length=1000),
        "a frame to another MAC": frame(PACKET, port="0200000000ff"),
        "a datagram of 5,000 octets": frame(packet(length=4978)),
    }
    with Lab() as lab:
        lab.start(command(lab.configuration), patience)
        for octets in malformed.values():
            lab.send(octets)
        lab.send(frame(PACKET), lab.stranger)
        lab.send(frame(packet("10.0.0.3")))
        lab.send(frame(PACKET))
        lab.send(frame(packet(length=1400, ttl=2, number=2)))
        checks.same("bad input goes nowhere", lab.receive(lab.core)[0], LOWERED)
        lowered = packet(length=1400, ttl=1, number=2)
        checks.same("1,400 octets are forwarded", lab.receive(lab.core)[0], lowered)
        checks.same("stop is answered again", lab.stop(), b"stopping\n")
        status, out, _ = lab.end()
        want = report(1484, Malformed=len(malformed) + 1, Spoofed=1)
        checks.same("each bad frame is counted under its cause", out, want)
        checks.same("bad input does not change the status", status, 0)


def forwards_bursts_in_order(checks, command, patience):
    numbers = range(1, 1001)
    burst = 125
    with Lab() as lab, udp("127.0.0.2") as operator:
        lab.start(command(lab.configuration), patience)
        came = []
        for first in range(0, len(numbers), burst):
            for number in numbers[first:first + burst]:
                lab.send(frame(packet(length=20, number=number)))
            came += lab.receive_all(lab.core, burst)
        want = [packet(length=20, ttl=63, number=number) for number in numbers]
        checks.same("1,000 packets in bursts come in order", came == want, True)
        lab.send(b"stop\n", operator, "control")
        answer = lab.receive(operator)
        checks.same("a line end and another loopback address will do", answer, (b"stopping\n", lab.ports["control"]))
        status, out, _ = lab.end()
        checks.same("each of the 1,000 is counted once", (status, out), (0, report(20 * len(numbers))))


def goes_on_after_memory_was_refused(checks):
    """With 64 shards a turn wants memory for its lists, and then for a round of all shards, each some hundred megabytes.
    The program is started with too little for the one or for the other, and gets more after a packet came."""
    first, second = packet(ttl=63), packet(ttl=63, number=2)
    whole, part = report(168), report(84, WantOfMemory=1)
    for what, megabytes, comes, wanted in (("lists", 256, [first, second], whole), ("its round", 352, [second], part)):
        with Lab(keys="shards = 64\n") as lab:
            limit = lambda: resource.setrlimit(resource.RLIMIT_AS, (megabytes << 20, resource.RLIM_INFINITY))
            lab.start([PROGRAM, "serve", lab.configuration], preexec_fn=limit)
            lab.send(frame(PACKET))
            time.sleep(1)
            resource.prlimit(lab.program.pid, resource.RLIMIT_AS, (resource.RLIM_INFINITY, resource.RLIM_INFINITY))
            lab.send(frame(packet(number=2)))
            came = lab.receive_all(lab.core, len(comes))
            checks.same(f"after turns without memory for {what} packets pass", came, comes)
            lab.stop()
            status, out, _ = lab.end()
            checks.same(f"what had no memory for {what} is counted", (status, out), (0, wanted))


def stands_a_storm(checks):
    """A small one, by a seed of its own; `lab/hostile` has large ones."""
    checks.same("honest subscribers notice nothing of hostile datagrams", play(2000, 7).faults, [])


def refuses_bad_configurations(checks):
    with Lab() as lab:
        with open(lab.configuration, encoding="utf-8") as file:
            good = file.read()
        local, peer = (f'"127.0.0.1:{port}"' for port in (lab.ports["core"], lab.access.getsockname()[1]))
        faults = {
            "C3 gateway.speed": ("[core]", "speed = 1\n[core]"),
            "C5 core.local": (local, "9000"),
            "C5 access.1.peer": (peer, '"127.0.0.1:0"'),
            "C5 access.1.mac": ("02:00:00:00:00:fe", "02:00:00:00:00:FE"),
            "C5 gateway.address": ('address = "10.0.0.1"', 'address = "10.0.0"'),
            "C11 pool.1.last": ("10.0.0.101", "10.0.0.1"),
            "C6 static.1.port": ("port = 1", "port = 2"),
            "C5 static.1.address": ('address = "10.0.0.2"', 'address = "10.0.0.256"'),
            "C5 gateway.nas_ip": ("192.168.1.16", "192.168.1"),
            "C10 radius.auth_local": (f":{lab.ports['auth']}\"", f":{lab.ports['core']}\""),
            "C10 radius.acct_local": (f":{lab.ports['acct']}\"", f":{lab.ports['auth']}\""),
            "C7 radius.secret": ('"xyzzy5461"', '""'),
            "C7 static.1.user": ('"fixed1"', '""'),
            "C14 static.1.profile": ('user = "fixed1"', 'user = "fixed1"\nprofile = "other"'),
        }
        for fault, (right, wrong) in faults.items():
            bad = lab.write("bad.toml", good.replace(right, wrong))
            checks.same(f"the fault {fault}", run([PROGRAM, "serve", bad]), (2, "", f"bng: config: {fault}\n"))


def says_which_end_is_taken(checks):
    with Lab(tunnels=True, changes=True) as lab:
        with open(lab.configuration, encoding="utf-8") as file:
            good = file.read()
        ours = lab.control.getsockname()[1]
        for role, port in lab.ports.items():
            taken = lab.write("taken.toml", good.replace(f":{port}\"", f":{ours}\""))
            said = f"bng: cannot open {'access 1' if role == 'access' else role}\n"
            checks.same(f"an end that is taken, for {role}", run([PROGRAM, "serve", taken]), (3, "", said))


def refuses_bad_beginnings(checks):
    with Lab() as lab:
        missing = os.path.join(lab.folder, "missing.toml")
        unopened = (3, "", "bng: cannot open configuration\n")
        checks.same("a missing configuration", run([PROGRAM, "serve", missing]), unopened)
        checks.same("a folder as configuration", run([PROGRAM, "serve", lab.folder]), unopened)
        long = lab.write("long.toml", "#" * 1_048_577)
        checks.same("more than 1 MiB", run([PROGRAM, "serve", long]), (2, "", "bng: config: C1 text\n"))
        checks.same("no end of text", run([PROGRAM, "serve", "/dev/zero"]), (2, "", "bng: config: C1 text\n"))
        broken = lab.write("broken.toml", "[core\n")
        binary = os.path.join(lab.folder, "binary.toml")
        with open(PROGRAM, "rb") as program, open(binary, "wb") as file:
            file.write(program.read(4096))
        for file in (broken, binary):
            checks.same("no TOML", run([PROGRAM, "serve", file]), (2, "", "bng: config: C2 text\n"))
        unheard_of = (1, "", USAGE + "\n")
        for words in ([], ["--help"], ["serve"], ["serve", "a", "b"], ["serve", b"\xff"]):
            checks.same(f"the words {words}", run([PROGRAM, *words]), unheard_of)


def says_when_nobody_takes_its_report(checks):
    with Lab() as lab, open("/dev/full", "wb") as full:
        lab.start([PROGRAM, "serve", lab.configuration], stdout=full)
        lab.stop()
        status, _, err = lab.end()
        checks.same("a report that cannot be written", (status, err), (5, "bng: output failed\n"))


def try_all(checks):
    reads_the_promise(checks)
    if is_built():
        print(f"smoke: runs {PROGRAM}")
        built = lambda configuration: [PROGRAM, "serve", configuration]
        err = forwards_one_packet(checks, built, 10)
        checks.same("nothing is said on standard error", err, "")
        forwards_both_ways(checks, built, 10)
        drops_and_counts_bad_input(checks, built, 10)
        forwards_bursts_in_order(checks, built, 10)
        serves_sessions(checks, built, 10)
        serves_tunnels(checks, built, 10)
        serves_a_call(checks, built, 10)
        authenticates(checks, built, 10)
        gives_up_on_a_silent_server(checks, built, 10)
        leases_addresses(checks, built, 10)
        meters_profiles(checks, built, 10)
        changes_sessions(checks, built, 10)
        ends_by_timeouts(checks, built, 10)
        shares_three_addresses_among_five(checks, built, 10)
        counts_past_sixteen_bits(checks, built, 10)
        refuses_where_terms_are_used_up(checks, built, 10)
        with concurrent.futures.ThreadPoolExecutor() as together:
            minutes = [together.submit(each, checks, built, 10) for each in MINUTES]
            minutes.append(together.submit(asks_the_doctor, checks))
            minutes.append(together.submit(stands_a_storm, checks))
        for minute in minutes:
            minute.result()
        ends_a_thousand_terms(checks, built, 10)
        records_a_circuit(checks, built, 10)
        tells_a_stop_that_nobody_acknowledges(checks, built, 10)
        if is_of_try():
            print("skipped the want of memory: a program of rt try takes its memory otherwise")
        else:
            goes_on_after_memory_was_refused(checks)
        refuses_bad_beginnings(checks)
        refuses_bad_configurations(checks)
        says_which_end_is_taken(checks)
        reads_the_example(checks)
        says_when_nobody_takes_its_report(checks)
        keeps_an_operators_habits(checks)
        watches(checks)
        installs(checks)
    else:
        print("smoke: the built program is missing or older than its sources: runs under rt try, and only three times")
        os.chdir(CRATE)
        forwards_one_packet(checks, tried, 300)
        drops_and_counts_bad_input(checks, tried, 300)
        serves_sessions(checks, tried, 300)


def main():
    checks = Checks()
    try:
        try_all(checks)
    except (RuntimeError, OSError, subprocess.TimeoutExpired) as error:
        checks.same("the run came to its end", str(error), "no error")
    print(f"{checks.passed} passed, {checks.failed} failed")
    return 1 if checks.failed else 0


if __name__ == "__main__":
    usage.heed("smoke", __doc__)
    sys.exit(main())
