"""Lets a real xl2tpd, as an access concentrator, bring a tunnel and a call up at the real program, once without a secret and once with
one, and hang up. Where there is a pppd that may open /dev/ppp, it logs in over the call, and packets go both ways. Then the same
in an emulated machine, where a pppd has whole sessions."""

import os
import shutil
import signal
import socket
import subprocess
import sys
import time

from checks import qemu_subscriber, usage
from checks.evidence import Comparisons
from machine import emulated, l2tp_cable
from machine.gateway import CRATE, PROGRAM, Lab, is_built, tried
from machine.l2tp_cable import CallCable, SecretCallCable
from machine.xl2tpd import PATIENCE, Xl2tpd, may_open_ppp
from peers import radius_packets
from peers.lac import SHARING
from peers.login import USER
from peers.loopback import LOOPBACK
from peers.radius_packets import ACCESS_ACCEPT, FRAMED
from peers.radius_server import hear_request, send_reply

STARTING = 300
ADDRESS, FAR = "10.0.0.50", "192.0.2.1"


def exchanges(checks, lab, what):
    """The pppd logs in, and a datagram goes each way by its interface."""
    request, _ = hear_request(lab)
    checks.same(f"the pppd of {what} is asked about", request is not None and dict(request.attributes).get(radius_packets.USER_NAME), USER)
    if request is None:
        return
    send_reply(lab, radius_packets.answer(request, ACCESS_ACCEPT, FRAMED, (radius_packets.FRAMED_IP_ADDRESS, socket.inet_aton(ADDRESS))))
    end = time.monotonic() + PATIENCE
    with socket.socket(socket.AF_INET, socket.SOCK_DGRAM) as host:
        while time.monotonic() < end:
            try:
                host.bind((ADDRESS, 4000))
                break
            except OSError:
                time.sleep(0.2)
        # By the interface that has the address, whatever the routes are: pppd names it ppp and a number.
        names = [name for name in os.listdir("/sys/class/net") if name.startswith("ppp")]
        checks.same(f"the pppd of {what} has an interface", len(names) > 0, True)
        if not names:
            return
        host.setsockopt(socket.SOL_SOCKET, socket.SO_BINDTODEVICE, names[-1].encode())
        host.sendto(b"hello", (FAR, 4001))
        came = lab.receive(lab.core)[0] or b""
        checks.same(f"a packet of {what} comes to the core", (came[12:16], came[-5:]), (socket.inet_aton(ADDRESS), b"hello"))


def brings_up(checks, command, address, challenge, what):
    """This xl2tpd comes to a tunnel and a call, and hangs up. What the gateway said on standard error."""
    with Lab(tunnels=True) as lab:
        lab.start(command(lab.configuration), STARTING)
        with Xl2tpd(lab, address, challenge) as concentrator:
            checks.same(f"{what} sets a tunnel up", concentrator.says(b"Connection established to"), True)
            checks.same(f"{what} has a call", concentrator.says(b"Call established with"), True)
            if may_open_ppp():
                exchanges(checks, lab, what)
            concentrator.hang_up()
            time.sleep(1)
        checks.same(f"stop is answered after {what}", lab.stop(), b"stopping\n")
        status, out, err = lab.end()
        checks.same(f"the run of {what} ends well", status, 0)
        print(out)
        print(concentrator.said.decode(errors="replace"))
    return err


def attempt_emulated(command, checks):
    """Both of them, one after the other."""
    for kind in (CallCable, SecretCallCable):
        print(f"\nA session over L2TP in an emulated machine, {kind.place}")
        qemu_subscriber.attempt(command, checks, kind)


def attempt(checks, command):
    """Both of them, here and in the machine. What the gateway said on standard error here."""
    said = brings_up(checks, command, LOOPBACK, "no", "an xl2tpd without a secret")
    said += brings_up(checks, command, SHARING, "yes", "an xl2tpd with a secret")
    if not (lacking := emulated.lacking(l2tp_cable.CallCable.dialer)):
        attempt_emulated(command, checks)
    else:
        print(f"xl2tpd: no session in an emulated machine, since there is no {', no '.join(lacking)}")
        print(f"To install: apt-get install --no-install-recommends {' '.join(lacking)}")
    return said


def main():
    if shutil.which("xl2tpd") is None:
        print("xl2tpd: skipped, since there is no xl2tpd")
        print("To install: apt-get install --no-install-recommends xl2tpd ppp")
        return 0
    if not may_open_ppp():
        print("xl2tpd: no pppd may open /dev/ppp here, so tunnels and calls are tried alone on this machine")
    checks = Comparisons()
    if is_built():
        said = attempt(checks, lambda configuration: [PROGRAM, "serve", configuration])
        checks.same("nothing is said on standard error", said, "")
        return checks.conclude()
    if shutil.which("rt") is None:
        print("xl2tpd: skipped, since the program is not built and there is no rt")
        return 0
    print("xl2tpd: the built program is missing or older than its sources: runs under rt try")
    os.chdir(CRATE)
    attempt(checks, lambda configuration: tried(configuration, STARTING))
    return checks.conclude()


if __name__ == "__main__":
    usage.heed("xl2tpd", __doc__)
    signal.signal(signal.SIGTERM, lambda *_: sys.exit(143))
    try:
        sys.exit(main())
    except (RuntimeError, OSError, subprocess.SubprocessError) as error:
        print(f"xl2tpd: {error}", file=sys.stderr)
        sys.exit(1)
