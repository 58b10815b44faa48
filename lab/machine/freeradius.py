"""A real FreeRADIUS on two ports of the loopback, with a few users."""

import contextlib
import os
import shutil
import signal
import subprocess
import time

from peers.loopback import bound_ports, udp

SERVER = """\
name = radiusd
prefix = /usr
localstatedir = {folder}
logdir = {folder}
run_dir = {folder}
libdir = /usr/lib/freeradius
log {{
	destination = stdout
	auth = yes
}}
thread pool {{
	start_servers = 1
	max_servers = 1
}}
modules {{
	pap {{
	}}
	chap {{
	}}
	files {{
		filename = {folder}/users
	}}
	detail {{
		filename = {folder}/detail
		header = "%t"
		permissions = 0600
	}}
}}
client gateway {{
	ipaddr = 127.0.0.1
	secret = xyzzy5461
	require_message_authenticator = yes
}}
server default {{
	listen {{
		type = auth
		ipaddr = 127.0.0.1
		port = {port}
	}}
	listen {{
		type = acct
		ipaddr = 127.0.0.1
		port = {keeper}
	}}
	authorize {{
		chap
		files
		pap
	}}
	authenticate {{
		Auth-Type PAP {{
			pap
		}}
		Auth-Type CHAP {{
			chap
		}}
	}}
	post-auth {{
		update reply {{
			Reply-Message := "welcome"
		}}
		Post-Auth-Type REJECT {{
			update reply {{
				Reply-Message := "go away"
			}}
		}}
	}}
	accounting {{
		detail
	}}
}}
"""

USERS = """\
nemo Cleartext-Password := "arctangent"
	Service-Type = Framed-User,
	Framed-Protocol = PPP

flopsy Auth-Type := Reject

bunny Cleartext-Password := "arctangent"
	Service-Type = Login-User

subscriber Cleartext-Password := "secret"
	Service-Type = Framed-User,
	Framed-Protocol = PPP,
	Class = 0x676f6c64
"""


def server_program():
    """Where FreeRADIUS is, or None."""
    names = ("freeradius", "radiusd", "/usr/sbin/freeradius", "/usr/sbin/radiusd")
    return next((path for path in map(shutil.which, names) if path), None)


class Server:
    """FreeRADIUS on two ports of the loopback, `port` and for accounting `keeper`, with a few users. Leaving it ends it, and
    `said` has its log."""

    def __init__(self, folder):
        self.folder, self.said = folder, []

    def __enter__(self):
        with udp() as end, udp() as other:
            self.port, self.keeper = end.getsockname()[1], other.getsockname()[1]
        configuration = SERVER.format(folder=self.folder, port=self.port, keeper=self.keeper)
        for name, text in (("radiusd.conf", configuration), ("users", USERS)):
            with open(os.path.join(self.folder, name), "w", encoding="utf-8") as file:
                file.write(text)
        self.log = os.path.join(self.folder, "log")
        with open(self.log, "wb") as log:
            command = [server_program(), "-f", "-d", self.folder]
            self.program = subprocess.Popen(command, stdin=subprocess.DEVNULL, stdout=log, stderr=log)
        self.wait_until_it_listens()
        return self

    def wait_until_it_listens(self):
        end = time.monotonic() + 60
        while not bound_ports().issuperset({self.port, self.keeper}):
            if self.program.poll() is not None or time.monotonic() > end:
                self.program.kill()
                raise RuntimeError("FreeRADIUS did not start:\n" + "\n".join(self.lines()))
            time.sleep(0.05)

    @contextlib.contextmanager
    def silent(self):
        """It answers nothing meanwhile."""
        self.program.send_signal(signal.SIGSTOP)
        try:
            yield
        finally:
            self.program.send_signal(signal.SIGCONT)

    def lines(self):
        with open(self.log, encoding="utf-8", errors="replace") as log:
            return log.read().splitlines()

    def records(self):
        """The text of its file of records of accounting, one after the other with an empty line after each."""
        with open(os.path.join(self.folder, "detail"), encoding="utf-8", errors="replace") as detail:
            return detail.read()

    def __exit__(self, *_):
        self.program.terminate()
        try:
            self.program.wait(10)
        except subprocess.TimeoutExpired:
            self.program.kill()
            self.program.wait()
        self.said = self.lines()

    def show(self):
        """Prints what it said of the logins, once it was left."""
        print("What FreeRADIUS said of them:")
        for said in self.said:
            if "Login" in said or "Invalid" in said:
                print("   ", said)
