"""Scripted PPPoE subscribers that come, open their links and go, and what the gateway should answer them.

What is wanted is what RFC 2516 (PPPoE) and RFC 1661 (PPP and LCP) ask, and what docs/ says where they leave a choice."""

from machine.gateway import Lab, report
from peers import pppoe
from peers.ipv4 import packet
from peers.pppoe import LCP, Frame, Packet, options_octets, packet_octets, read_options, read_tags
from peers.subscriber import ANY_SERVICE, HOST_UNIQ, MAGIC, PORT, Line, Subscriber, begin, cookie_of, padt

# The largest MRU over PPPoE (RFC 2516 section 7).
LIMIT = (pppoe.MRU, pppoe.two(1492))
CHAP_MD5 = (pppoe.AUTHENTICATION, bytes.fromhex("c22305"))
COMPRESSIONS = [(pppoe.PROTOCOL_COMPRESSION, b""), (pppoe.ADDRESS_COMPRESSION, b"")]


def is_session(number):
    """Whether a session may have this SESSION_ID (RFC 2516 sections 4 and 5.4)."""
    return 0 < number < 0xFFFF


def offer(checks, host):
    """Asks who is there, and gives the AC-Cookie of the one PADO (RFC 2516 sections 5.1 and 5.2)."""
    host.discover(pppoe.PADI, (pppoe.SERVICE_NAME, b"unheard-of"), HOST_UNIQ, to=pppoe.BROADCAST)
    host.discover(pppoe.PADI, ANY_SERVICE, HOST_UNIQ, to=pppoe.BROADCAST)
    pado = host.hear()
    ends = (pado.destination, pado.source, pado.ethertype, pado.code, pado.session)
    checks.same("a PADI gets a PADO from the port's MAC", ends, (host.mac, PORT, pppoe.DISCOVERY, pppoe.PADO, 0))
    cookie = cookie_of(pado)
    want = sorted([(pppoe.AC_NAME, b"bng1"), ANY_SERVICE, (pppoe.SERVICE_NAME, b"inet"), HOST_UNIQ, cookie])
    checks.same("the PADO has the AC-Name, both Service-Names, the Host-Uniq and a cookie", sorted(read_tags(pado.payload)), want)
    checks.same("the AC-Cookie has 16 octets", len(cookie[1]), 16)
    return cookie


def refuse(checks, host, cookie):
    """Asks for a session with a wrong cookie, and then for a service that nobody offers (RFC 2516 sections 5.4 and 9)."""
    wrong = (cookie[0], bytes([cookie[1][0] ^ 1]) + cookie[1][1:])
    unheard_of = (pppoe.SERVICE_NAME, b"unheard-of")
    host.discover(pppoe.PADR, ANY_SERVICE, HOST_UNIQ, wrong)
    host.discover(pppoe.PADR, unheard_of, HOST_UNIQ, cookie)
    pads = host.hear()
    got = (pads.code, pads.session, sorted(read_tags(pads.payload)))
    want = (pppoe.PADS, 0, sorted([unheard_of, (pppoe.SERVICE_NAME_ERROR, b""), HOST_UNIQ]))
    checks.same("a PADR with a wrong cookie gets nothing, one for an unheard-of service a Service-Name-Error", got, want)


def confirm(checks, host, cookie):
    """Gets a session once for a PADR that comes twice, and gives the gateway's Configure-Request."""
    pads, asked = begin(host, cookie)
    want = Frame(host.mac, PORT, pppoe.DISCOVERY, pppoe.PADS, pads.session, pads.payload)
    checks.same("a PADR gets a PADS from the port's MAC", pads, want)
    checks.same("the PADS has a SESSION_ID that a session may have", is_session(pads.session), True)
    checks.same("the PADS has the Service-Name and the Host-Uniq", sorted(read_tags(pads.payload)), [ANY_SERVICE, HOST_UNIQ])
    host.discover(pppoe.PADR, ANY_SERVICE, HOST_UNIQ, cookie)
    checks.same("the same PADR gets the same PADS again", host.hear(), pads)
    return asked


def gateway_magic(checks, asked):
    """The Magic-Number of the gateway's Configure-Request (RFC 1661 sections 5.1 and 6)."""
    options = read_options(asked.data)
    magic = dict(options).get(pppoe.MAGIC, b"")
    want = (pppoe.CONFIGURE_REQUEST, sorted([LIMIT, CHAP_MD5, (pppoe.MAGIC, magic)]))
    what = "the gateway's Configure-Request has MRU 1492, CHAP with MD5 and a Magic-Number"
    checks.same(what, (asked.code, sorted(options)), want)
    checks.same("the gateway's Magic-Number has four octets that are not all 0", len(magic) == 4 and any(magic), True)
    return magic


def negotiate(checks, host):
    """Hears what the gateway refuses, suggests and takes of a host's options (RFC 1661 sections 5.2 to 5.4)."""
    answers = [
        ("compressions get a Configure-Reject", [LIMIT, MAGIC, *COMPRESSIONS], pppoe.CONFIGURE_REJECT, COMPRESSIONS),
        ("an MRU above 1492 gets a Configure-Nak", [(pppoe.MRU, pppoe.two(1500)), MAGIC], pppoe.CONFIGURE_NAK, [LIMIT]),
        ("an MRU of 1492 and a Magic-Number get a Configure-Ack", [LIMIT, MAGIC], pppoe.CONFIGURE_ACK, [LIMIT, MAGIC]),
    ]
    for identifier, (what, options, code, want) in enumerate(answers, 1):
        host.say_lcp(pppoe.CONFIGURE_REQUEST, identifier, options_octets(options))
        checks.same(what, host.hear_lcp(), Packet(LCP, code, identifier, options_octets(want)))


def use(checks, host, magic):
    """Tries an Opened link: an echo, what is not known, and data before there is an address (RFC 1661 sections 5.6 to 5.8)."""
    host.say_lcp(pppoe.ECHO_REQUEST, 7, MAGIC[1] + b"still there?")
    want = Packet(LCP, pppoe.ECHO_REPLY, 7, magic + b"still there?")
    checks.same("an Echo-Request gets an Echo-Reply with the gateway's Magic-Number", host.hear_lcp(), want)
    ipv6cp = packet_octets(Packet(pppoe.IPV6CP, pppoe.CONFIGURE_REQUEST, 1, bytes.fromhex("010a0000000000000001")))
    host.say(ipv6cp)
    got = host.hear_lcp()
    checks.same("IPV6CP gets a Protocol-Reject", got, Packet(LCP, pppoe.PROTOCOL_REJECT, got.identifier, ipv6cp))
    unknown = packet_octets(Packet(LCP, 77, 9, b"?"))
    host.say(unknown)
    got = host.hear_lcp()
    checks.same("an unknown code gets a Code-Reject", got, Packet(LCP, pppoe.CODE_REJECT, got.identifier, unknown[2:]))
    host.say(pppoe.two(pppoe.IPV4) + packet())


def terminate(checks, host):
    host.say_lcp(pppoe.TERMINATE_REQUEST, 8, b"bye")
    checks.same("a Terminate-Request gets a Terminate-Ack", host.hear_lcp(), Packet(LCP, pppoe.TERMINATE_ACK, 8, b""))


def leave(checks, host, cookie):
    """Begins a session and ends it with a PADT (RFC 2516 section 5.5). The PADO says that the PADT was handled."""
    begin(host, cookie)
    host.discover(pppoe.PADT, session=host.session)
    host.discover(pppoe.PADI, ANY_SERVICE, to=pppoe.BROADCAST)
    checks.same("a host's PADT gets no answer, its next PADI a PADO", host.hear().code, pppoe.PADO)
    host.say_lcp(pppoe.ECHO_REQUEST, 1, MAGIC[1])


def is_three_seconds(since, until):
    """Whether about 3 s passed, on a machine that may be busy."""
    return 2.5 < until - since < 5


def keep_waiting(checks, host, other_cookie):
    """Begins a session with a cookie of its own, and gives the gateway's Configure-Request, which it leaves unanswered."""
    host.discover(pppoe.PADI, ANY_SERVICE, to=pppoe.BROADCAST)
    cookie = cookie_of(host.hear())
    checks.same("another host gets another cookie", cookie != other_cookie, True)
    return begin(host, cookie)[1]


def answer_late(checks, host, asked, asked_at):
    """Takes the Configure-Request when it comes again (RFC 1661 section 4.6), and opens the link."""
    again = host.hear_lcp()
    checks.same("an unanswered Configure-Request comes again", again, asked)
    checks.same("it comes again after 3 s", is_three_seconds(asked_at, host.heard_at), True)
    host.say_lcp(pppoe.CONFIGURE_ACK, again.identifier, again.data)
    host.say_lcp(pppoe.CONFIGURE_REQUEST, 1, options_octets([MAGIC]))
    want = Packet(LCP, pppoe.CONFIGURE_ACK, 1, options_octets([MAGIC]))
    checks.same("a host that answers late gets its Configure-Ack", host.hear_lcp(), want)


def lose(checks, host, terminated_at):
    """Hears that the session is over once the restart timer has run (RFC 1661 section 4.4), and has none any more."""
    checks.same("the session that its host terminated gets a PADT", host.hear(), padt(host))
    checks.same("the PADT comes 3 s after the Terminate-Ack", is_three_seconds(terminated_at, host.heard_at), True)
    host.say_lcp(pppoe.ECHO_REQUEST, 9, MAGIC[1])


def serves_sessions(checks, command, patience):
    """Two hosts at once: one uses its link and ends it, one is silent for a while and has its link until the stop."""
    with Lab() as lab:
        lab.start(command(lab.configuration), patience)
        line = Line(lab)
        host, silent = Subscriber(line, "020000000002"), Subscriber(line, "020000000003")
        cookie = offer(checks, host)
        refuse(checks, host, cookie)
        asked = confirm(checks, host, cookie)
        unanswered = keep_waiting(checks, silent, cookie)
        unanswered_at = silent.heard_at
        checks.same("another host gets another session", is_session(silent.session) and silent.session != host.session, True)
        magic = gateway_magic(checks, asked)
        negotiate(checks, host)
        host.say_lcp(pppoe.CONFIGURE_ACK, asked.identifier, asked.data)
        use(checks, host, magic)
        terminate(checks, host)
        terminated_at = host.heard_at
        answer_late(checks, silent, unanswered, unanswered_at)
        lose(checks, host, terminated_at)
        leave(checks, host, cookie)
        checks.same("stop is answered with a session open", lab.stop(), b"stopping\n")
        checks.same("the session that is left gets a PADT at the stop", silent.hear(), padt(silent))
        status, out, _ = lab.end()
        want = (0, report(NoSession=2, NotOpen=1))
        checks.same("frames of ended sessions and data before an address are counted", (status, out), want)
        checks.same("nothing more was sent to any host", line.is_quiet(), True)
