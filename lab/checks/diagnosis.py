"""What `lab/doctor` finds of a configuration, and what lab/smoke asks of that."""

import concurrent.futures
import os
import subprocess
import threading

from machine.gateway import BNG, HOME, PROGRAM, Lab
from peers import radius_packets
from peers.ipv4 import packet
from peers.loopback import udp
from peers.pppoe import frame

STATUS_SERVER, ACCESS_ACCEPT, ACCOUNTING_RESPONSE = 12, 2, 5


class Surroundings:
    """A RADIUS server that refuses every user and answers by this secret, from its own socket or from another one, and a
    subscriber who sends a frame every tenth of a second."""

    def __init__(self, lab, secret=radius_packets.SECRET, answers_from=None):
        self.lab, self.secret, self.answers_from = lab, secret, answers_from
        self.is_over = threading.Event()
        self.threads = [threading.Thread(target=self.answer, args=(end, code)) for end, code in self.servers()]
        self.threads.append(threading.Thread(target=self.dial))

    def servers(self):
        return (self.lab.radius, ACCESS_ACCEPT), (self.lab.accounting, ACCOUNTING_RESPONSE)

    def __enter__(self):
        for thread in self.threads:
            thread.start()

    def __exit__(self, *_):
        self.is_over.set()
        for thread in self.threads:
            thread.join()

    def answer(self, end, status):
        """What RFC 2865, RFC 2869 and RFC 5997 ask: a question with a wrong Message-Authenticator gets no reply."""
        end.settimeout(0.1)
        while not self.is_over.is_set():
            octets, sender = self.lab.receive(end)
            if octets is None:
                continue
            asked = radius_packets.read(octets)
            is_bare = all(kind != radius_packets.MESSAGE_AUTHENTICATOR for kind, _ in asked.attributes)
            if radius_packets.is_signed(asked, self.secret) or is_bare and asked.code != STATUS_SERVER:
                code = status if asked.code == STATUS_SERVER else radius_packets.ACCESS_REJECT
                reply = radius_packets.answer(asked, code, secret=self.secret)
                (self.answers_from or end).sendto(reply, ("127.0.0.1", sender))

    def dial(self):
        while not self.is_over.wait(0.1):
            self.lab.send(frame(packet()))


def diagnosed(lab):
    """What the doctor says of the lab's configuration, a line each, and its status."""
    done = subprocess.run(
        [os.path.join(HOME, "lab", "doctor"), "--seconds", "2", lab.configuration], capture_output=True, text=True, timeout=60, check=False
    )
    return done.stdout.splitlines(), done.returncode


def has(lines, mark, *words):
    """Whether there is a line with this mark and these words."""
    return any(line.startswith(mark) and all(word in line for word in words) for line in lines)


def finds_nothing_wrong(checks):
    with Lab(acknowledges=False) as lab, Surroundings(lab):
        lines, status = diagnosed(lab)
        found = [
            has(lines, "ok", "the configuration"),
            sum("free" in line for line in lines),
            has(lines, "ok", "authentication", "right secret: an Access-Reject"),
            has(lines, "ok", "accounting", "right secret: an Accounting-Response"),
            has(lines, "ok", "access port 1", "a frame comes", "from 02:00:00:00:00:01, PPPoE session"),
            has(lines, "ok", "the core"),
            status,
        ]
        checks.same("the doctor finds nothing wrong where all is there", (found, has(lines, "wrong")), ([True, 5, True, True, True, True, 0], False))


def finds_another_secret(checks):
    with Lab(acknowledges=False) as lab, Surroundings(lab, secret=b"another"):
        lines, status = diagnosed(lab)
        found = has(lines, "wrong", "authentication", "signed with another secret"), has(lines, "wrong", "accounting", "silence"), status
        checks.same("the doctor tells another secret from silence", found, (True, True, 1))


def finds_a_reply_from_elsewhere(checks):
    with Lab(acknowledges=False) as lab, Surroundings(lab, answers_from=lab.stranger):
        lines, status = diagnosed(lab)
        port = lab.stranger.getsockname()[1]
        found = has(lines, "wrong", "authentication", f"the reply comes from 127.0.0.1:{port}"), status
        checks.same("the doctor says that a reply comes from elsewhere", found, (True, 1))


def finds_nobody_there(checks):
    with Lab(acknowledges=False) as lab, udp(port=lab.ports["auth"]):
        for end in (lab.radius, lab.accounting, lab.core):
            end.close()
        lines, status = diagnosed(lab)
        found = [
            has(lines, "wrong", f"127.0.0.1:{lab.ports['auth']} for RADIUS", f"process {os.getpid()}", "has it already"),
            sum("nobody listens" in line for line in lines),
            has(lines, "wrong", "access port 1", "no frame came"),
            status,
        ]
        checks.same("the doctor says that an end is taken, and that nobody is there", found, [True, 3, True, 1])


def sees_one_that_serves(checks):
    with Lab() as lab:
        lab.start([PROGRAM, "serve", lab.configuration])
        lines, _ = diagnosed(lab)
        held = sum("the gateway that serves has it" in line for line in lines)
        checks.same("the doctor sees that a gateway serves and has the ends", (has(lines, "ok", "the gateway", "it serves"), held), (True, 5))
        subprocess.run([BNG, "stop", lab.configuration], capture_output=True, timeout=20, check=True)


def asks_the_doctor(checks):
    cases = finds_nothing_wrong, finds_another_secret, finds_a_reply_from_elsewhere, finds_nobody_there, sees_one_that_serves
    with concurrent.futures.ThreadPoolExecutor() as together:
        for case in [together.submit(each, checks) for each in cases]:
            case.result()
