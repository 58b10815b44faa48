"""Says of a configuration what an operator asks first, a line for each: `ok`, `wrong`, or `-` where it cannot be told."""

import argparse
import contextlib
import ctypes
import errno
import hashlib
import os
import re
import select
import shutil
import socket
import subprocess
import sys
import time

from machine.gateway import PROGRAM
from peers import radius_packets
from peers.ipv4 import ICMP, Ipv4, checksum, spell

UNPROVED = PROGRAM + "-unproved"
TRIES, PATIENCE = 2, 2.0

# The name that the server sees in the question.
USER = b"doctor"

# RFC 5997 section 4.
STATUS_SERVER = 12

ETHERTYPES = {b"\x88\x63": "PPPoE discovery", b"\x88\x64": "PPPoE session"}


class Findings:
    """Prints what is found, and keeps whether something is wrong."""

    wrong = 0

    def say(self, mark, what, words):
        self.wrong += mark == "wrong"
        print(f"{mark:<6} {what}: {words}", flush=True)

    def ok(self, what, words):
        self.say("ok", what, words)

    def fault(self, what, words):
        self.say("wrong", what, words)

    def untold(self, what, words):
        self.say("-", what, words)


def end_of(text):
    """The address and the port of an end."""
    address, _, port = text.rpartition(":")
    return address, int(port)


def text_of(end):
    return f"{end[0]}:{end[1]}"


def read(path):
    """The configuration as a dictionary."""
    try:
        import tomllib
    except ImportError as error:
        raise SystemExit("doctor: it takes Python 3.11 or later, which reads TOML") from error
    try:
        with open(path, "rb") as file:
            return tomllib.loads(file.read().decode())
    except OSError as error:
        raise SystemExit(f"doctor: cannot read {path}: {error.strerror}") from error
    except (tomllib.TOMLDecodeError, UnicodeDecodeError) as error:
        raise SystemExit(f"doctor: {path} is not TOML in UTF-8: {error}") from error


def examine_the_text(findings, path):
    """What the program itself says of the configuration, where it is built."""
    program = next((it for it in (PROGRAM, UNPROVED) if os.access(it, os.X_OK)), None)
    if program is None:
        findings.untold("the configuration", "the program is not built yet; ./bng --unproved check CONFIG builds it and says")
        return
    done = subprocess.run([program, "check", path], capture_output=True, text=True, check=False, timeout=60)
    if done.returncode:
        findings.fault("the configuration", f"{done.stderr.strip()} (docs/OPERATING.md has the rules)")
    else:
        findings.ok("the configuration", "it breaks no rule")


def ends(config):
    """Each end of the gateway, by what it is for."""
    found = {"core": config["core"]["local"], "control": config["control"]["local"]}
    found |= {f"access port {at}": it["local"] for at, it in enumerate(config["access"], 1)}
    found |= {"RADIUS authentication": config["radius"]["auth_local"], "RADIUS accounting": config["radius"]["acct_local"]}
    found |= {name: config[table]["local"] for name, table in (("L2TP", "tunnel"), ("changes", "coa")) if table in config}
    return {name: end_of(text) for name, text in found.items()}


def ask_control(end):
    """The sums of a gateway that serves already, or None."""
    with socket.socket(socket.AF_INET, socket.SOCK_DGRAM) as asker:
        asker.settimeout(1)
        with contextlib.suppress(OSError):
            asker.bind(("127.0.0.1", 0))
            asker.sendto(b"stats", ("127.0.0.1" if end[0] == "0.0.0.0" else end[0], end[1]))
            answer = asker.recv(65536)
            if answer.startswith(b"stopped in="):
                return answer.decode()
    return None


def holder(port):
    """Which process holds a UDP port, where that may be seen."""
    inodes = set()
    with open("/proc/net/udp", encoding="ascii") as table:
        for line in table.readlines()[1:]:
            words = line.split()
            if int(words[1].split(":")[1], 16) == port:
                inodes.add(f"socket:[{words[9]}]")
    for process in filter(str.isdigit, os.listdir("/proc")):
        with contextlib.suppress(OSError):
            for descriptor in os.listdir(f"/proc/{process}/fd"):
                if os.readlink(f"/proc/{process}/fd/{descriptor}") in inodes:
                    with open(f"/proc/{process}/comm", encoding="utf-8") as name:
                        return f"process {process} ({name.read().strip()})"
    return "another process"


def open_ends(findings, config, is_serving):
    """A socket for each end that is free, by its name."""
    opened = {}
    for name, end in ends(config).items():
        what, open_end = f"the end {text_of(end)} for {name}", socket.socket(socket.AF_INET, socket.SOCK_DGRAM)
        try:
            open_end.bind(end)
        except OSError as error:
            open_end.close()
            if error.errno == errno.EADDRINUSE and is_serving:
                findings.ok(what, "the gateway that serves has it")
            elif error.errno == errno.EADDRINUSE:
                findings.fault(what, f"{holder(end[1])} has it already")
            elif error.errno == errno.EADDRNOTAVAIL:
                findings.fault(what, "no interface of this machine has the address")
            elif error.errno == errno.EACCES:
                findings.fault(what, "a port below 1024 takes a privilege (CAP_NET_BIND_SERVICE)")
            else:
                findings.fault(what, error.strerror)
            continue
        opened[name] = open_end
        findings.ok(what, "free")
    return opened


def tell_control(findings, end):
    if not re.match(r"127\.|0\.0\.0\.0$", end[0]):
        findings.ok("Control", f"it listens at {text_of(end)} and heeds 127.0.0.0/8 alone; ./bng stop sends from there")


def hidden(password, secret, authenticator):
    """A User-Password of at most 16 octets (RFC 2865 section 5.2)."""
    mask = hashlib.md5(secret + authenticator).digest()
    return bytes(a ^ b for a, b in zip(password.ljust(16, b"\0"), mask))


def access_request(config, identifier, is_signed):
    """The octets of an Access-Request like the gateway's, for a subscriber that there should not be."""
    gateway, secret, authenticator = config["gateway"], config["radius"]["secret"].encode(), os.urandom(16)
    attributes = [
        (radius_packets.USER_NAME, USER),
        (radius_packets.USER_PASSWORD, hidden(USER, secret, authenticator)),
        (radius_packets.NAS_IP_ADDRESS, socket.inet_aton(gateway["nas_ip"])),
        radius_packets.FRAMED,
        (radius_packets.NAS_IDENTIFIER, gateway["name"].encode()),
        (radius_packets.NAS_PORT_TYPE, radius_packets.number(5)),
    ]
    asked = radius_packets.Radius(radius_packets.ACCESS_REQUEST, identifier, authenticator, attributes)
    if is_signed:
        asked = asked._replace(attributes=[*attributes, (radius_packets.MESSAGE_AUTHENTICATOR, bytes(16))])
        signature = radius_packets.message_authenticator(asked, secret)
        asked = radius_packets.with_value(asked, radius_packets.MESSAGE_AUTHENTICATOR, signature)
    return radius_packets.spell(asked)


def status_server(config, identifier):
    """The octets of a question that books nothing and that a server of accounting answers too (RFC 5997)."""
    gateway, secret = config["gateway"], config["radius"]["secret"].encode()
    attributes = [
        (radius_packets.NAS_IP_ADDRESS, socket.inet_aton(gateway["nas_ip"])),
        (radius_packets.NAS_IDENTIFIER, gateway["name"].encode()),
        (radius_packets.MESSAGE_AUTHENTICATOR, bytes(16)),
    ]
    asked = radius_packets.Radius(STATUS_SERVER, identifier, os.urandom(16), attributes)
    signature = radius_packets.message_authenticator(asked, secret)
    return radius_packets.spell(radius_packets.with_value(asked, radius_packets.MESSAGE_AUTHENTICATOR, signature))


def is_signed_for(reply, request, secret):
    """Whether the Response Authenticator of a reply is right (RFC 2865 section 3)."""
    length = int.from_bytes(reply[2:4], "big")
    made = hashlib.md5(reply[:4] + request[4:20] + reply[20:length] + secret).digest()
    return length <= len(reply) and reply[4:20] == made


def send_and_hear(end, octets, server):
    """What came of sending this: a reply and its sender, `refused` where the machine there said that nobody listens, or None."""
    try:
        for _ in range(TRIES):
            end.sendto(octets, server)
            until = time.monotonic() + PATIENCE
            while (left := until - time.monotonic()) > 0:
                if not select.select([end], [], [], left)[0]:
                    break
                reply, sender = end.recvfrom(4096)
                if len(reply) >= 20 and reply[1] == octets[1]:
                    return reply, sender
    except ConnectionRefusedError:
        return "refused", None
    except OSError as error:
        return error.strerror, None
    return None, None


def asking_end(opened, name, end):
    """The gateway's own end, or where that is taken another port of its address; it hears that a port is refused."""
    asker = opened.get(name)
    if asker is None:
        asker = socket.socket(socket.AF_INET, socket.SOCK_DGRAM)
        with contextlib.suppress(OSError):
            asker.bind((end[0], 0))
    # IP_RECVERR of Linux: what a machine refuses is told at the next call.
    asker.setsockopt(socket.SOL_IP, 11, 1)
    return asker


def judge(findings, what, server, octets, reply, sender, secret):
    """Says what a reply shows. Whether there is no more to ask."""
    if reply is None:
        return False
    if reply == "refused":
        findings.fault(what, "the machine is there, and nobody listens at that port")
    elif isinstance(reply, str):
        findings.fault(what, f"nothing can be sent there: {reply}")
    elif sender != server:
        findings.fault(what, f"the reply comes from {text_of(sender)}: the gateway passes it over, and a subscriber hears `timeout`")
    elif not is_signed_for(reply, octets, secret):
        findings.fault(what, "it answers, signed with another secret: the gateway passes that over, and a subscriber hears `timeout`")
    else:
        names = {2: "an Access-Accept", 3: "an Access-Reject, as it should", 5: "an Accounting-Response", 11: "an Access-Challenge"}
        findings.ok(what, f"it answers with the right secret: {names.get(reply[0], f'code {reply[0]}')}")
    return True


def examine_authentication(findings, config, opened):
    """Whether the server answers with the secret of the configuration."""
    radius, server = config["radius"], end_of(config["radius"]["auth_server"])
    secret, asker = radius["secret"].encode(), asking_end(opened, "RADIUS authentication", end_of(radius["auth_local"]))
    what = f"the RADIUS server {text_of(server)} for authentication, asked for the user `{USER.decode()}`"
    # The gateway signs its questions, and a server passes over one that is signed with another secret. One without a
    # signature may be answered all the same, and the answer shows the secret.
    for identifier, is_signed in ((1, True), (2, False)):
        octets = access_request(config, identifier, is_signed)
        reply, sender = send_and_hear(asker, octets, server)
        if judge(findings, what, server, octets, reply, sender, secret):
            if not is_signed and isinstance(reply, bytes) and sender == server and is_signed_for(reply, octets, secret):
                findings.fault(what, "but it passes over a question with a Message-Authenticator, as the gateway's have")
            return isinstance(reply, bytes) and is_signed_for(reply, octets, secret)
    findings.fault(what, "silence: it does not run, does not know this address as a client, has another secret, or a filter is in the way")
    examine_by_radclient(findings, radius, server)
    return False


def examine_by_radclient(findings, radius, server):
    """What FreeRADIUS' own client finds, as a second opinion."""
    if not shutil.which("radclient"):
        return
    words = ["radclient", "-r", "1", "-t", "2", text_of(server), "auth", radius["secret"]]
    question = f'User-Name = "{USER.decode()}", User-Password = "{USER.decode()}", Message-Authenticator = 0x00'
    done = subprocess.run(words, input=question, capture_output=True, text=True, check=False, timeout=20)
    heard = [line.strip() for line in done.stdout.splitlines() if "Received" in line]
    findings.untold("radclient", f"asked the same, it hears {heard[-1]}" if heard else "asked the same, it hears nothing either")


def examine_accounting(findings, config, opened, is_known):
    """`is_known` says that the server for authentication answers."""
    radius, server = config["radius"], end_of(config["radius"]["acct_server"])
    asker = asking_end(opened, "RADIUS accounting", end_of(radius["acct_local"]))
    what = f"the RADIUS server {text_of(server)} for accounting"
    octets = status_server(config, 3)
    reply, sender = send_and_hear(asker, octets, server)
    if judge(findings, what, server, octets, reply, sender, radius["secret"].encode()):
        return
    silence = "silence to a Status-Server (RFC 5997): "
    if is_known and server[0] == end_of(radius["auth_server"])[0]:
        findings.untold(what, silence + "not every server knows that question, and nothing else can be asked that books nothing")
    else:
        findings.fault(what, silence + "it does not run, does not know this address, has another secret, or does not know that question")


def examine_the_clock(findings, config):
    """Whether the system keeps its clock in step. A CoA-Request may be 300 seconds off, and records have the time of day."""
    state = ctypes.create_string_buffer(512)
    answer = ctypes.CDLL(None, use_errno=True).adjtimex(state)
    now = time.strftime("%Y-%m-%d %H:%M:%S UTC", time.gmtime())
    servers = {end_of(config["radius"][name])[0] for name in ("auth_server", "acct_server")}
    if all(it.startswith("127.") for it in servers):
        findings.ok("the clock", f"the RADIUS server is on this machine; it is {now}")
    elif answer == 5:
        findings.fault("the clock", f"nothing keeps it in step (adjtimex says unsynchronised); it is {now}: compare the server's")
    elif answer < 0:
        findings.untold("the clock", f"the system does not say whether it is kept in step; it is {now}: compare the server's")
    else:
        findings.ok("the clock", f"it is kept in step with a time server; it is {now}")


def describe(frame):
    kind = ETHERTYPES.get(frame[12:14], f"EtherType {frame[12:14].hex()}, which is no PPPoE")
    return f"{len(frame)} octets from {frame[6:12].hex(':')}, {kind}"


def examine_the_ports(findings, config, opened, seconds, is_serving):
    """Waits for a frame on each port."""
    if is_serving:
        findings.untold("the access ports", "the gateway that serves has them: ./bng stats tells what it took and dropped")
        return
    waiting = {opened[f"access port {at}"]: (at, end_of(it["peer"])) for at, it in enumerate(config["access"], 1) if f"access port {at}" in opened}
    until = time.monotonic() + seconds
    while waiting and (left := until - time.monotonic()) > 0:
        for end in select.select(list(waiting), [], [], left)[0]:
            at, peer = waiting[end]
            frame, sender = end.recvfrom(65536)
            if sender != peer:
                findings.fault(f"access port {at}", f"a datagram comes from {text_of(sender)}, and its peer is {text_of(peer)}: it would be Malformed")
            elif len(frame) < 14:
                findings.fault(f"access port {at}", f"a datagram of {len(frame)} octets comes, which is no Ethernet frame")
            else:
                findings.ok(f"access port {at}", f"a frame comes: {describe(frame)}")
            del waiting[end]
    for at, peer in waiting.values():
        findings.fault(f"access port {at}", f"no frame came from {text_of(peer)} in {seconds} s; let a host dial, and wait longer with --seconds N")


def examine_the_core(findings, config, opened):
    """Sends a ping to the core's own address from the gateway's. Only a refusal tells for certain."""
    peer, source = end_of(config["core"]["peer"]), config["gateway"]["address"]
    what, asker = f"the core {text_of(peer)}", asking_end(opened, "core", end_of(config["core"]["local"]))
    echo = bytearray(b"\x08\x00\x00\x00\x00\x01\x00\x01doctor")
    echo[2:4] = checksum(bytes(echo)).to_bytes(2, "big")
    ping = spell(Ipv4(socket.inet_aton(source), socket.inet_aton(peer[0]), ICMP, bytes(echo)), 1)
    try:
        asker.sendto(ping, peer)
        if select.select([asker], [], [], PATIENCE)[0]:
            octets, sender = asker.recvfrom(65536)
            from_there = sender == peer
            if from_there:
                findings.ok(what, f"a packet of {len(octets)} octets comes back")
            else:
                findings.fault(what, f"a packet comes from {text_of(sender)}: it would be Malformed")
        else:
            findings.ok(what, "it takes a packet and does not refuse it; nothing came back, so ask its own counters for more")
    except ConnectionRefusedError:
        findings.fault(what, "the machine is there, and nobody listens at that port")
    except OSError as error:
        findings.fault(what, f"nothing can be sent there: {error.strerror}")


def main():
    parser = argparse.ArgumentParser(prog="lab/doctor", description=__doc__)
    parser.add_argument("config", metavar="CONFIG")
    parser.add_argument("--seconds", type=int, default=5, help="how long to wait for a frame on each access port; default 5")
    words = parser.parse_args()
    config, findings = read(words.config), Findings()
    examine_the_text(findings, words.config)
    try:
        control = ends(config)["control"]
        serving = ask_control(control)
        if serving:
            findings.ok("the gateway", "it serves, and answers `stats`")
        opened = open_ends(findings, config, bool(serving))
        tell_control(findings, control)
        is_known = examine_authentication(findings, config, opened)
        examine_accounting(findings, config, opened, is_known)
        examine_the_clock(findings, config)
        examine_the_ports(findings, config, opened, words.seconds, bool(serving))
        examine_the_core(findings, config, opened)
    except (KeyError, ValueError, TypeError) as error:
        findings.fault("the configuration", f"a table, a key or an end is missing or is none: {error}")
    print(f"doctor: {findings.wrong} wrong" if findings.wrong else "doctor: nothing is wrong")
    return 1 if findings.wrong else 0


if __name__ == "__main__":
    try:
        sys.exit(main())
    except KeyboardInterrupt:
        sys.exit(130)
