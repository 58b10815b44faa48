"""Lets scripted subscribers log in at the real program, which asks a real FreeRADIUS on the loopback."""

import os
import shutil
import signal
import sys
from typing import NamedTuple

from checks import usage
from machine.freeradius import Server, server_program
from machine.gateway import CRATE, PROGRAM, Lab, is_built, tried
from peers import pppoe
from peers.login import open_link, say_password, say_response
from peers.pppoe import CHAP, PAP
from peers.subscriber import Line

STARTING = 300


class Login(NamedTuple):
    """A subscriber that logs in, and whether it is to be let in, with the text of the server."""

    what: str
    by_pap: bool
    user: bytes
    shared: bytes
    is_let_in: bool
    text: bytes


LOGINS = [
    Login("nemo with the right password", True, b"nemo", b"arctangent", True, b"welcome"),
    Login("nemo with the right password", False, b"nemo", b"arctangent", True, b"welcome"),
    Login("nemo with a wrong password", True, b"nemo", b"another", False, b"go away"),
    Login("nemo with a wrong password", False, b"nemo", b"another", False, b"go away"),
    Login("flopsy, whom the server rejects", True, b"flopsy", b"arctangent", False, b"go away"),
    Login("an unknown user", False, b"nobody", b"arctangent", False, b"go away"),
    Login("bunny, whom the server accepts for a Login", True, b"bunny", b"arctangent", False, b"welcome"),
]

SILENT = Login("nemo, while the server is silent", True, b"nemo", b"arctangent", False, b"timeout")


def reply_to(line, mac, login):
    """The subscriber, and what it hears after its password or its Response: whether it is let in, and the text."""
    host = open_link(line, mac, by_pap=login.by_pap)
    if login.by_pap:
        say_password(host, 1, login.user, login.shared)
    else:
        say_response(host, host.hear_challenge(), login.user, login.shared)
    packet = host.hear_packet()
    if packet.protocol == PAP:
        return host, packet.code == pppoe.AUTHENTICATE_ACK, packet.data[1:]
    if packet.protocol == CHAP:
        return host, packet.code == pppoe.SUCCESS, packet.data
    raise RuntimeError(f"{login.what} heard no reply, but protocol {packet.protocol:04x}")


def try_login(line, number, login):
    """Whether a login came out as it is to, with what the subscriber heard in one line."""
    host, is_let_in, text = reply_to(line, f"0200000000{number:02x}", login)
    ends = not is_let_in and host.hear_lcp().code == pppoe.TERMINATE_REQUEST
    way = "PAP" if login.by_pap else "CHAP"
    outcome = "is let in" if is_let_in else "is refused" + (", and its link is closed" if ends else "")
    right = (is_let_in, text) == (login.is_let_in, login.text) and ends != is_let_in
    print(f"{'right' if right else 'WRONG'}: {login.what}, by {way}, {outcome}: {text.decode(errors='replace')!r}", flush=True)
    return right


def attempt(command):
    """Whether each login at the gateway that this starts comes out as it is to."""
    with Lab() as files, Server(files.folder) as server:
        print(f"FreeRADIUS listens on port {server.port} of the loopback", flush=True)
        with Lab(server=server.port, radius_keys="tries = 1\n") as lab:
            print("Starts the gateway:", *command(lab.configuration), flush=True)
            lab.start(command(lab.configuration), STARTING)
            line = Line(lab)
            results = [try_login(line, number, login) for number, login in enumerate(LOGINS, 2)]
            with server.silent():
                results.append(try_login(line, len(LOGINS) + 2, SILENT))
            lab.stop()
            status, out, _ = lab.end()
        print(f"\nThe gateway's report, and then status {status}:\n{out}")
    server.show()
    print(f"\n{results.count(True)} right, {results.count(False)} wrong")
    return all(results) and status == 0


def main():
    if server_program() is None:
        print("radius: skipped, since there is no freeradius")
        print("To install: apt-get install --no-install-recommends freeradius")
        return 0
    if is_built():
        return 0 if attempt(lambda configuration: [PROGRAM, "serve", configuration]) else 1
    if shutil.which("rt") is None:
        print("radius: skipped, since the program is not built and there is no rt")
        return 0
    print("radius: the built program is missing or older than its sources: runs under rt try")
    os.chdir(CRATE)
    return 0 if attempt(lambda configuration: tried(configuration, STARTING)) else 1


if __name__ == "__main__":
    usage.heed("radius", __doc__)
    signal.signal(signal.SIGTERM, lambda *_: sys.exit(143))
    try:
        sys.exit(main())
    except (RuntimeError, OSError) as error:
        print(f"radius: {error}", file=sys.stderr)
        sys.exit(1)
