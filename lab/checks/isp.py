"""A small provider with one subscriber: the gateway, a FreeRADIUS, the hosts behind the core, and a real pppd in an emulated machine.
Shows the session as the provider sees it, by the records of its server of accounting alone, each time that there are more. In
the middle of its traffic radclient moves it to another profile, and in the end disconnects it (RFC 5176)."""

import re
import shutil
import subprocess
import threading

from checks import qemu_subscriber, usage
from machine import cable, emulated
from peers import provider
from peers.loopback import LOOPBACK

RADCLIENT = shutil.which("radclient")
SECRET = "change-secret"

# The first is that of the login, whose Access-Accept names none.
PROFILES = """\
[[profile]]
name = "basic"
up_cir = 12500000
up_cbs = 1250000
up_ebs = 0
down_cir = 12500000
down_cbs = 1250000
down_ebs = 0
[[profile]]
name = "gold"
"""

# After so many packets of the subscriber it is moved.
MIDDLE = 100


class Office(cable.Cable):
    """Carries the frames unseen, and shows what the server of accounting has."""

    seen = None

    def show(self, who, text):
        if who in ("lab", "server", "provider"):
            super().show(who, text)

    def keep(self, frame, is_up):
        super().keep(frame, is_up)
        self.look()
        return False

    def look(self):
        """Shows the sessions, where there are more records than there were."""
        records = self.read()
        if len(records) != self.seen:
            self.seen = len(records)
            self.show("provider", f"{self.seen} records of accounting")
            for line in provider.sessions(records):
                print(" " * 20, line, flush=True)


class Desk(Office):
    """Changes the session by radclient too: it is moved in the middle, and disconnected once the machine has said what it counted."""

    options = {"tables": PROFILES, "changes": True}
    hangs_up, cause = False, "Admin-Reset"

    def __init__(self, *parties):
        super().__init__(*parties)
        self.asked, self.answers, self.clients = [], [], []

    def start(self):
        """The record of the machine's Start, or None."""
        return next(iter(self.records(self.read(), "Start")), None)

    def ask(self, kind, request):
        """Has radclient ask for a change, while frames are carried on, and shows what it says."""
        self.asked.append(kind)
        end = f"{LOOPBACK}:{self.lab.ports['coa']}"
        self.show("provider", f"echo '{request}' | radclient {end} {kind} {SECRET}")
        self.clients.append(threading.Thread(target=self.hear, args=([RADCLIENT, end, kind, SECRET], request), daemon=True))
        self.clients[-1].start()

    def hear(self, command, request):
        """Runs radclient, and keeps the reply that it tells."""
        said = subprocess.run(command, input=request, capture_output=True, text=True, timeout=60, check=False)
        for line in (said.stdout + said.stderr).splitlines():
            print(" " * 20, line, flush=True)
        self.answers += re.findall(r"^Received (\S+) Id", said.stdout, re.MULTILINE)

    def keep(self, frame, is_up):
        super().keep(frame, is_up)
        if not self.asked and self.sums[True].packets >= MIDDLE and (start := self.start()):
            self.ask("coa", f'Acct-Session-Id = "{start.says("Acct-Session-Id")}", Filter-Id = "gold"')
        return False

    def finish(self, computer):
        self.show("lab", "the machine has its file and an echo was answered: it is asked what it counted")
        cable.tell(computer, emulated.WAIT)

    def print_console(self, lines):
        super().print_console(lines)
        if "disconnect" not in self.asked and cable.found(self.console, cable.COUNTED):
            self.ask("disconnect", f"Framed-IP-Address = {self.start().says('Framed-IP-Address')}")

    def compare(self, checks, report, records):
        for client in self.clients:
            client.join()
        checks.same("answers to radclient", self.answers, ["CoA-ACK", "Disconnect-ACK"])
        booked = [cable.found(report.splitlines(), rf"^profile {name} in=(\d+) out=(\d+)") for name in ("basic", "gold")]
        sums = [list(map(int, octets or (0, 0))) for octets in booked]
        print(f"       under basic {sums[0]}, under gold {sums[1]} octets in and out")
        checks.same("octets passed under each of both profiles, to the core and from it", all(sum(pair) > 0 for pair in sums), True)
        total = tuple(map(str, map(sum, zip(*sums))))
        checks.same("the octets of both profiles, and the report's total", total, cable.found(report.splitlines(), cable.TOTAL))


if __name__ == "__main__":
    usage.heed("isp", __doc__)
    if RADCLIENT is None:
        print("isp: there is no radclient: the session is neither moved nor disconnected")
        print("To install: apt-get install --no-install-recommends freeradius-utils")
    qemu_subscriber.main("isp", Desk if RADCLIENT else Office)
