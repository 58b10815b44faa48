"""A FreeRADIUS over a PostgreSQL: who may log in, whose address it is, and the records. It uses the tables and queries of Debian's package
as they stand, but that two logins at once never wait for one row of the pool (SKIP LOCKED)."""

import os
import subprocess
import time

from machine.freeradius import server_program
from peers.loopback import LOOPBACK, bound_ports, udp

PACKAGED = "/etc/freeradius/3.0/mods-config/sql"
POLICY = "/etc/freeradius/3.0/policy.d/accounting"
TABLES = [f"{PACKAGED}/main/postgresql/schema.sql", f"{PACKAGED}/ippool/postgresql/schema.sql"]
MODULE = "/usr/lib/freeradius/rlm_sql_postgresql.so"

# An address is leased for six intervals of the records, each of which leases it anew.
INTERIM, LEASE = 60, 360

# What radclient shares with it, from 127.0.0.1.
SCRIPT_SECRET = "script-secret"

SERVER = """\
name = radiusd
prefix = /usr
localstatedir = {folder}
logdir = {folder}
run_dir = {folder}
libdir = /usr/lib/freeradius
max_requests = 16384
log {{
	destination = stdout
}}
security {{
	reject_delay = 0
}}
thread pool {{
	start_servers = 4
	max_servers = 8
	min_spare_servers = 2
	max_spare_servers = 8
}}
modules {{
	expr {{
	}}
	pap {{
	}}
	chap {{
	}}
	sql {{
		driver = "rlm_sql_postgresql"
		dialect = "postgresql"
		server = "{loopback}"
		port = {database}
		login = "radius"
		password = "{password}"
		radius_db = "radius"
		acct_table1 = "radacct"
		acct_table2 = "radacct"
		postauth_table = "radpostauth"
		authcheck_table = "radcheck"
		groupcheck_table = "radgroupcheck"
		authreply_table = "radreply"
		groupreply_table = "radgroupreply"
		usergroup_table = "radusergroup"
		client_table = "nas"
		group_attribute = "SQL-Group"
		read_groups = no
		pool {{
			start = 4
			min = 4
			max = 8
			spare = 4
			uses = 0
			retry_delay = 1
			lifetime = 0
			idle_timeout = 60
		}}
		$INCLUDE {packaged}/main/postgresql/queries.conf
	}}
	sqlippool {{
		sql_module_instance = "sql"
		dialect = "postgresql"
		pool_name = "Pool-Name"
		ippool_table = "radippool"
		lease_duration = {lease}
		attribute_name = Framed-IP-Address
		req_attribute_name = Framed-IP-Address
		pool_key = "%{{User-Name}}"
		$INCLUDE {folder}/pool.conf
	}}
}}
instantiate {{
	expr
}}
policy {{
	$INCLUDE {policy}
}}
{clients}
server default {{
	listen {{
		type = auth
		ipaddr = {loopback}
		port = {auth}
	}}
	listen {{
		type = acct
		ipaddr = {loopback}
		port = {acct}
	}}
	authorize {{
		chap
		sql
		pap
	}}
	authenticate {{
		Auth-Type PAP {{
			pap
		}}
		Auth-Type CHAP {{
			chap
		}}
	}}
	post-auth {{
		update reply {{
			&Service-Type := Framed-User
			&Framed-Protocol := PPP
			&Acct-Interim-Interval := {interim}
		}}
{lending}
	}}
	preacct {{
		acct_unique
	}}
	accounting {{
		sql
{keeping}
	}}
}}
"""

CLIENT = """\
client {name} {{
	ipaddr = {address}
	secret = "{secret}"
	require_message_authenticator = {signs}
}}
"""

# With no address from the pool the login is refused: the gateway would else take one of its own.
LENDING = """\
		update control {
			&Pool-Name := "all"
		}
		sqlippool {
			notfound = reject
			fail = reject
		}"""


class SqlServer:
    """FreeRADIUS on two ports of the loopback, `auth` and `acct`, over this database, for these boxes. With `lends` it gives each subscriber
    an address of one pool for all boxes; else each box gives them of its own. Leaving it ends it."""

    def __init__(self, folder, database, boxes, lends):
        self.folder, self.database, self.boxes, self.lends = os.path.join(folder, "freeradius"), database, boxes, lends

    def __enter__(self):
        os.mkdir(self.folder, 0o700)
        with udp() as end, udp() as other:
            self.auth, self.acct = end.getsockname()[1], other.getsockname()[1]
        with open(f"{PACKAGED}/ippool/postgresql/queries.conf", encoding="utf-8") as file:
            self.write("pool.conf", file.read().replace('skip_locked = ""', 'skip_locked = "SKIP LOCKED"'))
        clients = [CLIENT.format(name=box.name, address=box.address, secret=box.secret, signs="yes") for box in self.boxes]
        clients.append(CLIENT.format(name="script", address=LOOPBACK, secret=SCRIPT_SECRET, signs="no"))
        text = SERVER.format(
            folder=self.folder,
            loopback=LOOPBACK,
            database=self.database.port,
            password=self.database.password,
            packaged=PACKAGED,
            policy=POLICY,
            lease=LEASE,
            interim=INTERIM,
            clients="".join(clients),
            auth=self.auth,
            acct=self.acct,
            lending=LENDING if self.lends else "",
            keeping="\t\tsqlippool" if self.lends else "",
        )
        self.write("radiusd.conf", text)
        self.write("dictionary", "$INCLUDE /usr/share/freeradius/dictionary\n")
        with open(os.path.join(self.folder, "log"), "wb") as log:
            self.program = subprocess.Popen([server_program(), "-f", "-d", self.folder], stdin=subprocess.DEVNULL, stdout=log, stderr=log)
        self.wait_until_it_listens()
        return self

    def write(self, name, text):
        with open(os.path.join(self.folder, name), "w", encoding="utf-8") as file:
            file.write(text)

    def wait_until_it_listens(self):
        end = time.monotonic() + 60
        while not bound_ports().issuperset({self.auth, self.acct}):
            if self.program.poll() is not None or time.monotonic() > end:
                self.program.kill()
                self.program.wait()
                raise RuntimeError("FreeRADIUS did not start:\n" + self.said())
            time.sleep(0.05)

    def said(self):
        """What it said so far."""
        with open(os.path.join(self.folder, "log"), encoding="utf-8", errors="replace") as log:
            return log.read()

    def __exit__(self, *_):
        self.program.terminate()
        try:
            self.program.wait(20)
        except subprocess.TimeoutExpired:
            self.program.kill()
            self.program.wait()
