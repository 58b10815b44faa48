"""Terms of scripted subscribers that end by themselves, that want more addresses than there are, that nobody takes the records of, that
are reported on, and that are a thousand at the stop; and sums past sixteen bits.

What is wanted is what RFC 2865, RFC 2866 and RFC 2869 ask, and what docs/ says where they leave a choice."""

import collections
import socket
import time

from checks.leases import refuses
from machine.gateway import Lab
from peers import pppoe, radius_packets
from peers.crowd import open_sessions
from peers.ipv4 import packet
from peers.login import log_in, open_ipcp, pap
from peers.pppoe import LCP, frame
from peers.radius_packets import number, value
from peers.radius_server import INTERIM, NAS_REQUEST, START, STOP, acknowledge, hear_record, next_record
from peers.subscriber import Line, padt

IDLE_TIMEOUT, SESSION_TIMEOUT = 4, 5


def address_in(record):
    return socket.inet_ntoa(dict(record.attributes)[radius_packets.FRAMED_IP_ADDRESS])


def says(record):
    """What a Stop says of how long its term was, and why it ended."""
    return value(record, radius_packets.ACCT_SESSION_TIME), value(record, radius_packets.ACCT_TERMINATE_CAUSE)


def is_told(checks, lab, host, what, seconds, cause):
    """The gateway ends the term: the host hears a Terminate-Request, and the server a Stop with this cause."""
    got = host.hear_packet()
    checks.same(f"{what}, a subscriber gets a Terminate-Request", (got.protocol, got.code), (LCP, pppoe.TERMINATE_REQUEST))
    checks.same(f"{what}, its Stop says so", says(next_record(lab)), (seconds, cause))
    host.say_lcp(pppoe.TERMINATE_ACK, got.identifier)
    checks.same(f"{what}, its session is over", host.hear(), padt(host))


def ends_by_timeouts(checks, command, patience):
    """A term ends after two seconds without a packet, and one after three seconds in which packets passed."""
    with Lab(acknowledges=False) as lab:
        lab.start(command(lab.configuration), patience)
        next_record(lab)
        line = Line(lab)
        limits = [(radius_packets.IDLE_TIMEOUT, number(2)), (radius_packets.SESSION_TIMEOUT, number(3))]
        host = log_in(lab, line, "020000000002", *limits)
        checks.same("an Accept with timeouts becomes an Ack", host.hear_packet(), pap(pppoe.AUTHENTICATE_ACK, 1))
        next_record(lab)
        open_ipcp(checks, host, "10.0.0.3")
        host.say_lcp(pppoe.ECHO_REQUEST, 7, bytes(4))
        checks.same("an echo is no packet", host.hear_packet().code, pppoe.ECHO_REPLY)
        is_told(checks, lab, host, "after two seconds without a packet", 2, IDLE_TIMEOUT)
        host = log_in(lab, line, "020000000003", *limits)
        host.hear_packet()
        next_record(lab)
        open_ipcp(checks, host, "10.0.0.3")
        for _ in range(5):
            lab.send(frame(packet("10.0.0.3"), subscriber=host.mac.hex(), session=host.session))
            lab.receive(lab.core)
            time.sleep(0.5)
        is_told(checks, lab, host, "after three seconds with packets", 3, SESSION_TIMEOUT)
        lab.stop()
        next_record(lab)
        checks.same("the status is 0 after timeouts", lab.end()[0], 0)


def shares_three_addresses_among_five(checks, command, patience):
    """Of five subscribers three get the addresses of the pool, and two a Nak; an address is leased again once its term has ended."""
    with Lab(acknowledges=False, last="10.0.0.5") as lab:
        lab.start(command(lab.configuration), patience)
        next_record(lab)
        line = Line(lab)
        hosts, starts, naks = [], [], 0
        for place in range(5):
            host = log_in(lab, line, f"0200000000{place + 2:02x}")
            if host.hear_packet() == pap(pppoe.AUTHENTICATE_ACK, 1):
                hosts.append(host)
                starts.append(next_record(lab))
            else:
                naks += 1
        wanted = ["10.0.0.3", "10.0.0.4", "10.0.0.5"]
        checks.same("three addresses go to three of five subscribers", ([address_in(start) for start in starts], naks), (wanted, 2))
        hosts[1].say_lcp(pppoe.TERMINATE_REQUEST, 9)
        stop = next_record(lab)
        log_in(lab, line, "020000000007").hear_packet()
        again = next_record(lab)
        got = [address_in(stop), address_in(again), value(stop, radius_packets.ACCT_STATUS_TYPE), value(again, radius_packets.ACCT_STATUS_TYPE)]
        checks.same("an address that came back is leased again", got, ["10.0.0.4", "10.0.0.4", STOP, START])
        lab.stop()
        stops = collections.Counter(address_in(next_record(lab)) for _ in range(4))
        checks.same("each address has its Stop at the stop", sorted(stops.items()), [(address, 1) for address in ["10.0.0.2", *wanted]])
        checks.same("the status is 0 after a full pool", lab.end()[0], 0)


def counts_past_sixteen_bits(checks, command, patience):
    """A subscriber sends and gets more than 65,536 octets, and its Stop says how many."""
    with Lab(acknowledges=False) as lab:
        lab.start(command(lab.configuration), patience)
        next_record(lab)
        host = log_in(lab, Line(lab), "020000000002")
        host.hear_packet()
        next_record(lab)
        open_ipcp(checks, host, "10.0.0.3")
        up, down = packet("10.0.0.3", length=1400), packet("192.0.2.1", "10.0.0.3", length=1400)
        for _ in range(50):
            lab.send(frame(up, subscriber=host.mac.hex(), session=host.session))
            lab.receive(lab.core)
        for _ in range(60):
            lab.send(down, lab.core, "core")
            host.hear()
        host.say_lcp(pppoe.TERMINATE_REQUEST, 9)
        stop = next_record(lab)
        said = [value(stop, kind) for kind in (radius_packets.ACCT_INPUT_OCTETS, radius_packets.ACCT_OUTPUT_OCTETS, radius_packets.ACCT_INPUT_PACKETS, radius_packets.ACCT_OUTPUT_PACKETS)]
        checks.same("a Stop says 70,000 octets in and 84,000 out", said, [70_000, 84_000, 50, 60])
        lab.stop()
        next_record(lab)
        status, out, _ = lab.end()
        checks.same("the report says so too", (status, out.splitlines()[0]), (0, "stopped in=70000 out=84000"))


def refuses_where_terms_are_used_up(checks, command, patience):
    """There may be 64 terms, the circuit's and those of 63 subscribers. The next one gets a Nak, until a term has ended and its Stop was
    acknowledged."""
    with Lab("shards = 1\nterms = 64\n", session=1) as lab:
        lab.start(command(lab.configuration), patience)
        crowd = open_sessions(lab, 63)
        line = Line(lab)
        refuses(checks, lab, line, "020000000002", b"no record")
        mac, session = next(iter(crowd.sessions.items()))
        crowd.say(mac, session, pppoe.Packet(LCP, pppoe.TERMINATE_REQUEST, 9, b""))
        time.sleep(0.3)
        host = log_in(lab, line, "020000000004")
        checks.same("once a Stop was acknowledged another subscriber is let in", host.hear_packet(), pap(pppoe.AUTHENTICATE_ACK, 1))
        lab.stop()
        checks.same("the status is 0 after terms were used up", lab.end()[0], 0)


def keeps_records_while_nobody_takes_them(checks, command, patience):
    """For a minute the server of accounting is down: a term begins and ends meanwhile. Then it is up again, and acknowledges each record
    once."""
    with Lab(acknowledges=False) as lab:
        lab.start(command(lab.configuration), patience)
        down = time.monotonic()
        line = Line(lab)
        host = log_in(lab, line, "020000000002")
        checks.same("a subscriber logs in while accounting is down", host.hear_packet(), pap(pppoe.AUTHENTICATE_ACK, 1))
        open_ipcp(checks, host, "10.0.0.3")
        host.say_lcp(pppoe.TERMINATE_REQUEST, 9)
        came = collections.Counter()
        while time.monotonic() < down + 60:
            octets = hear_record(lab)[1]
            came[octets] += octets is not None
        kinds = sorted(value(radius_packets.read(octets), radius_packets.ACCT_STATUS_TYPE) for octets in came if octets)
        checks.same("two Starts and a Stop come again and again, octet by octet the same", kinds, [START, START, STOP])
        checks.same("each some twenty times in a minute", [15 <= times <= 21 for octets, times in came.items() if octets], [True] * 3)
        taken = set()
        for octets in came:
            acknowledge(lab, radius_packets.read(octets))
            taken.add(octets)
        lab.accounting.settimeout(4)
        late = [octets for octets in (hear_record(lab)[1] for _ in range(3)) if octets is not None]
        checks.same("once the server is up none comes again", [octets for octets in late if octets not in taken], [])
        lab.accounting.settimeout(5)
        lab.stop()
        stop = next_record(lab)
        checks.same("the circuit's Stop is the last record", says(stop)[1], NAS_REQUEST)
        checks.same("the status is 0 once accounting is up", lab.end()[0], 0)


def carried(record):
    """What a record says of a term: for how many seconds, with how many octets and packets each way, and why it ended, if it did."""
    kinds = ("SESSION_TIME", "INPUT_OCTETS", "OUTPUT_OCTETS", "INPUT_PACKETS", "OUTPUT_PACKETS", "INPUT_GIGAWORDS", "OUTPUT_GIGAWORDS")
    return [value(record, getattr(radius_packets, f"ACCT_{kind}")) for kind in kinds], radius_packets.ACCT_TERMINATE_CAUSE in dict(record.attributes)


def reports_after_a_minute(checks, command, patience):
    """An Access-Accept asks for an Interim each 30 s, which counts as 60: one comes a minute after the lease, and says what was carried
    by then. Of the circuit none comes."""
    with Lab("echo = 0\n", acknowledges=False) as lab:
        lab.start(command(lab.configuration), patience)
        next_record(lab)
        host = log_in(lab, Line(lab), "020000000002", (radius_packets.ACCT_INTERIM_INTERVAL, number(30)))
        host.hear_packet()
        began = time.monotonic()
        identity = dict(next_record(lab).attributes)[radius_packets.ACCT_SESSION_ID]
        open_ipcp(checks, host, "10.0.0.3")
        send = lambda length: lab.send(frame(packet("10.0.0.3", length=length), subscriber=host.mac.hex(), session=host.session))
        send(100)
        send(200)
        lab.accounting.settimeout(70)
        interim = next_record(lab)
        checks.same("an Interim comes a minute after the lease", (value(interim, radius_packets.ACCT_STATUS_TYPE), round(time.monotonic() - began)), (INTERIM, 60))
        checks.same("it says what was carried so far", carried(interim), ([60, 300, 0, 2, 0, 0, 0], False))
        send(84)
        host.say_lcp(pppoe.TERMINATE_REQUEST, 9)
        stop = next_record(lab)
        checks.same("the Stop says what was carried in all", carried(stop), ([60, 384, 0, 3, 0, 0, 0], True))
        checks.same("all are records of one term", {dict(record.attributes)[radius_packets.ACCT_SESSION_ID] for record in (interim, stop)}, {identity})
        lab.stop()
        checks.same("of the circuit there is no Interim", says(next_record(lab))[1], NAS_REQUEST)
        checks.same("the status is 0 after an Interim", lab.end()[0], 0)


def ends_a_thousand_terms(checks, command, patience):
    """A thousand subscribers have terms at the stop: each has a Start and a Stop of its own, with its own address."""
    with Lab("shards = 16\nterms = 4096\n", session=1, last="10.0.255.254") as lab:
        lab.start(command(lab.configuration), patience)
        open_sessions(lab, 1000)
        lab.stop()
        status, _, _ = lab.end(60)
        starts, stops = ([r for r in lab.records if value(r, radius_packets.ACCT_STATUS_TYPE) == kind] for kind in (START, STOP))
        terms = lambda records: {dict(record.attributes)[radius_packets.ACCT_SESSION_ID]: address_in(record) for record in records}
        checks.same("a stop with a thousand terms ends with status 0", status, 0)
        checks.same("each of a thousand terms and the circuit has a Stop", len(terms(stops)), 1001)
        checks.same("no two have one address", len(set(terms(stops).values())), 1001)
        checks.same("each term that has a Start has its Stop with the same address", terms(starts).items() <= terms(stops).items(), True)
        checks.same("the gateway stopped them all", {value(record, radius_packets.ACCT_TERMINATE_CAUSE) for record in stops}, {NAS_REQUEST})
