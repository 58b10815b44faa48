"""Changes of sessions: a circuit that is moved to another profile, requests that are refused or passed over, and sessions that are
disconnected.

What is wanted is what RFC 5176 asks, and what docs/ says where it leaves a choice."""

import time

from checks.metering import sends
from checks.terms import SESSION_TIMEOUT, is_told
from machine.gateway import Lab, with_drops
from peers import pppoe, radius_packets
from peers.coa import SIGNED, Client, framed, identity
from peers.ipv4 import packet
from peers.login import USER, log_in, open_ipcp, pap
from peers.pppoe import LCP, frame
from peers.radius_packets import COA_ACK, COA_NAK, COA_REQUEST, DISCONNECT_ACK, DISCONNECT_NAK, DISCONNECT_REQUEST, FILTER_ID, number, value
from peers.radius_server import next_record
from peers.subscriber import Line, padt

ADMIN_RESET = 6

# Another address of the loopback, which may not ask.
STRANGER = "127.0.0.5"

# A full meter of the second lets two packets of 84 octets pass, and one more in four seconds.
PROFILES = """\
[[profile]]
name = "plain"
[[profile]]
name = "slow"
up_cir = 21
up_cbs = 84
up_ebs = 84
"""


def moves_a_circuit(checks, lab, client, circuit):
    """A circuit goes on under the profile that a CoA-Request names, with a full meter."""
    checks.same("a circuit that is not metered passes four packets", sends(lab, 4, "10.0.0.2"), 4)
    relay = (radius_packets.PROXY_STATE, b"relay")
    client.ask(COA_REQUEST, circuit, (FILTER_ID, b"slow"), relay, SIGNED)
    client.hears(checks, "a CoA-Request that names a profile is acknowledged", COA_ACK, relay, SIGNED)
    checks.same("of four packets its new meter lets two pass", sends(lab, 4, "10.0.0.2"), 2)
    client.repeat()
    client.hears(checks, "the same request gets the same reply", COA_ACK, relay, SIGNED)
    checks.same("and does not fill the meter", sends(lab, 1, "10.0.0.2"), 0)
    whole = "in=504 out=0"
    lines = ["stopped in=0 out=0", f"live {whole}", f"total {whole}", f"worker 0 {whole}"]
    lines += ["profile plain in=336 out=0", "profile slow in=168 out=0"]
    want = with_drops(lines, {"Exceeded": 3}).encode()
    checks.same("stats has the sums of both profiles", lab.say(b"stats\n"), want)


def refuses_what_it_cannot_do(checks, client, circuit):
    """Each Error-Cause of RFC 5176 section 3.5 that comes."""
    slow = (FILTER_ID, b"slow")
    causes = {
        401: (circuit, slow, (radius_packets.FRAMED_ROUTE, b"192.0.2.0/24")),
        402: (slow,),
        403: (circuit, slow, (radius_packets.NAS_IDENTIFIER, b"bng2")),
        404: (circuit, (radius_packets.SESSION_TIMEOUT, bytes(3))),
        407: (circuit, (FILTER_ID, b"fast")),
        503: ((radius_packets.ACCT_SESSION_ID, b"0" * 24), slow),
    }
    for cause, attributes in causes.items():
        client.ask(COA_REQUEST, *attributes)
        client.hears(checks, f"a CoA-Request is refused with Error-Cause {cause}", COA_NAK, (radius_packets.ERROR_CAUSE, number(cause)))


def passes_over_what_does_not_count(checks, lab, client, circuit):
    """Another secret, another address and a request of ten minutes ago get no reply: the next one is to the request behind them."""
    with Client(lab, STRANGER) as stranger:
        stranger.ask(DISCONNECT_REQUEST, circuit)
    client.ask(DISCONNECT_REQUEST, circuit, secret=b"another")
    client.ask(DISCONNECT_REQUEST, circuit, (radius_packets.EVENT_TIMESTAMP, number(int(time.time()) - 600)))
    client.ask(COA_REQUEST, circuit, (FILTER_ID, b"plain"), (radius_packets.EVENT_TIMESTAMP, number(int(time.time()))))
    client.hears(checks, "requests that do not count get no reply", COA_ACK)
    checks.same("and the circuit goes on, without a meter again", sends(lab, 4, "10.0.0.2"), 4)


def is_online(checks, lab, line, mac, address):
    """A subscriber that logged in and has this address, and its Start."""
    host = log_in(lab, line, mac)
    checks.same(f"the subscriber at {address} is let in", host.hear_packet(), pap(pppoe.AUTHENTICATE_ACK, 1))
    start = next_record(lab)
    open_ipcp(checks, host, address)
    return host, start


def limits_a_subscriber(checks, lab, line, client):
    """A Session-Timeout that comes later counts from the login too."""
    host, start = is_online(checks, lab, line, "020000000002", "10.0.0.3")
    client.ask(COA_REQUEST, identity(start), (radius_packets.SESSION_TIMEOUT, number(3)))
    client.hears(checks, "a CoA-Request that sets a Session-Timeout is acknowledged", COA_ACK)
    is_told(checks, lab, host, "three seconds after its login", 3, SESSION_TIMEOUT)


def disconnects_a_subscriber(checks, lab, line, client):
    """It hears a Terminate-Request at once, and its Stop says why."""
    host, start = is_online(checks, lab, line, "020000000003", "10.0.0.3")
    client.ask(DISCONNECT_REQUEST, (radius_packets.USER_NAME, USER), identity(start))
    client.hears(checks, "a Disconnect-Request is acknowledged", DISCONNECT_ACK)
    got = host.hear_packet()
    checks.same("the subscriber gets a Terminate-Request", (got.protocol, got.code), (LCP, pppoe.TERMINATE_REQUEST))
    stop = next_record(lab)
    checks.same("its Stop has the cause Admin Reset", (identity(stop), value(stop, radius_packets.ACCT_TERMINATE_CAUSE)), (identity(start), ADMIN_RESET))
    host.say_lcp(pppoe.TERMINATE_ACK, got.identifier)
    checks.same("its session is over", host.hear(), padt(host))
    client.ask(DISCONNECT_REQUEST, identity(start))
    client.hears(checks, "and is not found again", DISCONNECT_NAK, (radius_packets.ERROR_CAUSE, number(503)))


def disconnects_the_circuit(checks, lab, client, circuit):
    """Its term ends, and what it sends goes nowhere."""
    client.ask(DISCONNECT_REQUEST, framed("10.0.0.2"))
    client.hears(checks, "a Disconnect-Request that names an address is acknowledged", DISCONNECT_ACK)
    stop = next_record(lab)
    said = identity(stop), value(stop, radius_packets.ACCT_INPUT_OCTETS), value(stop, radius_packets.ACCT_TERMINATE_CAUSE)
    checks.same("the circuit's Stop has all that it sent under both profiles", said, (circuit, 840, ADMIN_RESET))
    lab.send(frame(packet()))


def changes_sessions(checks, command, patience):
    with Lab(acknowledges=False, tables=PROFILES, changes=True) as lab, Client(lab) as client:
        lab.start(command(lab.configuration), patience)
        circuit = identity(next_record(lab))
        moves_a_circuit(checks, lab, client, circuit)
        refuses_what_it_cannot_do(checks, client, circuit)
        passes_over_what_does_not_count(checks, lab, client, circuit)
        line = Line(lab)
        limits_a_subscriber(checks, lab, line, client)
        disconnects_a_subscriber(checks, lab, line, client)
        disconnects_the_circuit(checks, lab, client, circuit)
        checks.same("stop is answered after changes", lab.stop(), b"stopping\n")
        status, out, _ = lab.end()
        whole = "in=840 out=0"
        lines = [f"stopped {whole}", "live in=0 out=0", f"total {whole}", f"worker 0 {whole}"]
        lines += ["profile plain in=672 out=0", "profile slow in=168 out=0", f"static 10.0.0.2 {whole}"]
        checks.same("each profile has what passed under it", (status, out), (0, with_drops(lines, {"Exceeded": 3, "NotOpen": 1})))
