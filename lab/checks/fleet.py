"""Several gateways side by side: three of them share an Ethernet segment, the callers of access concentrators, and a FreeRADIUS over a PostgreSQL.

Three hundred scripted subscribers log in and send packets. The sums of the records in SQL are compared with the reports of the gateways, and
with what the script saw. Then one gateway is killed in the midst of its traffic."""

import os
import selectors
import shutil
import signal
import subprocess
import sys
import tempfile
import threading
import time

from checks import usage
from checks.smoke import Checks
from machine import freeradius_sql
from machine.box import Box
from machine.freeradius import server_program as radius_program
from machine.gateway import HOME, is_built
from machine.postgresql import Database, server_program
from peers.concentrators import Caller, Concentrator
from peers.dialler import ECHO_TIME
from peers.loopback import LOOPBACK
from peers.segment import Host, Segment

BOXES, HOSTS, CALLERS = 3, 240, 60

# So many subscribers ask at once, when all come at the start.
AT_ONCE = 32

# So many do what is due before what came is read: what they send fits the sockets' buffers.
TOGETHER = 20

# Seconds at most for all subscribers to come up, and for a redial after a loss.
COMING, REDIAL = 150, 60

# Seconds at most until the last records are in SQL: those of a lost datagram come again after 3 s.
SETTLING = 15

# Seconds of packets before the first stop, and after one gateway was killed.
POURING = 15

ADDRESSES = ["127.0.0.21", "127.0.0.22", "127.0.0.23"]

FILL = """\
INSERT INTO radcheck (username, attribute, op, value)
    SELECT 'subscriber' || to_char(n, 'FM000'), 'Cleartext-Password', ':=', 'password' || to_char(n, 'FM000')
    FROM generate_series(0, :count - 1) AS n;
INSERT INTO radippool (pool_name, framedipaddress) SELECT 'all', '10.64.0.2'::inet + n FROM generate_series(0, 999) AS n;
"""

CLOSE = os.path.join(HOME, "lab", "close-records.sql")
TWICE = "SELECT framedipaddress FROM radacct WHERE acctstoptime IS NULL GROUP BY 1 HAVING count(*) > 1"
OPEN = "SELECT count(*) FROM radacct WHERE acctstoptime IS NULL"
SUMS = "SELECT nasipaddress, count(*), sum(acctinputoctets), sum(acctoutputoctets) FROM radacct WHERE radacctid > :last GROUP BY 1"


class Fleet:
    """All parties, and the loop that carries what they say. With `lends` SQL has one pool for all gateways, else each has one of its own."""

    def __init__(self, checks, folder, lends):
        self.checks, self.folder, self.lends = checks, folder, lends
        one = ("all", "10.64.0.2", "10.64.3.233")
        pools = [one if lends else (f"box{n + 1}", f"10.64.{n}.2", f"10.64.{n}.254") for n in range(BOXES)]
        self.boxes = [Box(folder, number, pool) for number, pool in enumerate(pools)]
        self.segment = Segment()
        self.segment.boxes = {box.mac: box for box in self.boxes}
        self.concentrators = [Concentrator(address, self.boxes) for address in ADDRESSES]
        hosts = [Host(number, self.segment) for number in range(HOSTS)]
        callers = [Caller(number, self.concentrators[number % len(ADDRESSES)]) for number in range(HOSTS, HOSTS + CALLERS)]
        self.subscribers = hosts + callers
        self.active, self.place = [], 0
        self.selector = selectors.DefaultSelector()
        for end, hear in self.ends():
            self.selector.register(end, selectors.EVENT_READ, hear)

    def ends(self):
        yield self.segment.end, self.segment.hear
        for concentrator in self.concentrators:
            yield concentrator.end, concentrator.hear
        for box in self.boxes:
            yield box.core, lambda _, box=box: box.hear_core()

    def start(self, boxes):
        for box in boxes:
            box.start(self.radius, self.segment, self.concentrators)

    def close(self):
        for box in self.boxes:
            box.close()
        self.selector.close()

    def run(self, seconds, until=lambda: False):
        """Carries what comes for so many seconds at most, until something holds, and says whether it does."""
        end = time.monotonic() + seconds
        while not until():
            now = time.monotonic()
            if now > end:
                return False
            for key, _ in self.selector.select(0.02):
                key.data(time.monotonic())
            self.tick(time.monotonic())
        return True

    def tick(self, now):
        """Does what is due, each subscriber in its turn."""
        for concentrator in self.concentrators:
            concentrator.tick(now)
        acted = 0
        for _ in self.active:
            self.place = (self.place + 1) % len(self.active)
            acted += self.active[self.place].tick(now)
            if acted == TOGETHER:
                time.sleep(0.002)
                return

    def asking(self):
        return [subscriber for subscriber in self.active if subscriber.address is None]

    def let_in(self):
        """Whether all are up. Has further ones begin, as far as few are asking."""
        for subscriber in self.subscribers[len(self.active):len(self.active) + AT_ONCE - len(self.asking())]:
            self.active.append(subscriber)
            subscriber.want(time.monotonic())
        return len(self.active) == len(self.subscribers) and not self.asking()

    def all_come(self):
        """Has all come up, and gives the seconds that it took."""
        begun = time.monotonic()
        came = self.run(COMING, self.let_in)
        count = len(self.subscribers)
        self.checks.same(f"{count} subscribers are up", (came, len([one for one in self.subscribers if one.address])), (True, count))
        return time.monotonic() - begun

    def waits_for(self, query, number, seconds):
        """Goes on until SQL gives this number, for so many seconds at most, and says whether it did."""
        with Look(self.database, query) as look:
            return self.run(seconds, lambda: look.last == [[str(number)]])

    def pour(self, pours):
        for subscriber in self.subscribers:
            subscriber.pours = pours

    def rests(self):
        """Lets what is on its way arrive, until nothing more comes."""
        self.pour(False)
        seen = None
        for _ in range(10):
            self.run(2)
            if seen == (seen := [(box.up, box.down) for box in self.boxes]):
                return

    def of(self, box):
        """The subscribers that a gateway serves."""
        return [subscriber for subscriber in self.subscribers if subscriber.box is box and subscriber.address]

    def last_record(self):
        return self.database.number("SELECT coalesce(max(radacctid), 0) FROM radacct")

    def compares_the_sessions(self, what):
        """The open records are the sessions of the subscribers, each with its gateway and its address, once the Stops are there."""
        self.waits_for(OPEN, len(self.subscribers), SETTLING)
        rows = self.database.run("SELECT username, nasipaddress, framedipaddress FROM radacct WHERE acctstoptime IS NULL")
        want = [[one.name, one.box and one.box.address, one.address] for one in self.subscribers]
        self.same_rows(f"the {len(rows)} open records are the sessions {what}", rows, want)
        if self.lends:
            leased = self.database.run("SELECT username, nasipaddress, framedipaddress FROM radippool WHERE expiry_time > 'now'::timestamp(0)")
            self.same_rows(f"the {len(leased)} addresses leased in SQL are theirs {what}", leased, want)

    def same_rows(self, what, got, want):
        """Compares rows in any order, and shows of both those alone that the other has not."""
        self.checks.same(what, [row for row in got if row not in want] + [len(got)], [row for row in want if row not in got] + [len(want)])

    def stops(self, what, since):
        """Has gateways stop, and compares their reports with the records since one for each, and with what the script saw."""
        for box in since:
            box.say_stop()
        self.active = []
        total, kept = [0, 0], [0, 0]
        for box, last in since.items():
            status, report, err = box.end(60)
            self.checks.same(f"{box.name} stops {what} with all Stops acknowledged", (status, err), (0, ""))
            self.checks.same(f"{box.name} reports what the script saw {what}", report, (box.up, box.down))
            rows = {row[0]: row[1:] for row in self.database.run(SUMS, last=last)}
            count, *sums = map(int, rows.get(box.address, (0, 0, 0)))
            self.checks.same(f"the sums of its {count} records are those of its report", tuple(sums), report)
            total, kept = [[a + b for a, b in zip(old, new)] for old, new in ((total, report or (0, 0)), (kept, sums))]
        print(f"       reports {what}: in={total[0]} out={total[1]}; radacct: in={kept[0]} out={kept[1]}")
        self.checks.same(f"the sums of radacct are the sums of the {len(since)} reports {what}", kept, total)


class Look(threading.Thread):
    """Asks SQL a question each second: `last` is the last answer, and `seen` has the rows of all `count` answers."""

    def __init__(self, database, query):
        super().__init__(daemon=True)
        self.database, self.query, self.is_over = database, query, threading.Event()
        self.last, self.seen, self.count = None, [], 0

    def run(self):
        while not self.is_over.wait(1):
            self.last = self.database.run(self.query)
            self.seen += self.last
            self.count += 1

    def __enter__(self):
        self.start()
        return self

    def __exit__(self, *_):
        self.is_over.set()
        self.join()


class Work:
    """What the SQL server and FreeRADIUS have done so far."""

    def __init__(self, fleet):
        fleet.run(1.2)  # PostgreSQL tells its counters once a second
        counters = "SELECT xact_commit, pg_current_wal_lsn() - '0/0' FROM pg_stat_database WHERE datname = 'radius'"
        self.commits, self.log = (int(float(value)) for value in fleet.database.run(counters)[0])
        parties = {"PostgreSQL": fleet.database.program.pid, "FreeRADIUS": fleet.radius.program.pid}
        self.seconds = {name: spent(pid) for name, pid in parties.items()}

    def shows(self, before, what, count):
        seconds = ", ".join(f"{(self.seconds[name] - before.seconds[name]) / count * 1000:.2f} ms of {name}" for name in self.seconds)
        commits, log = (self.commits - before.commits) / count, (self.log - before.log) / count
        print(f"       {what}: {commits:.1f} transactions and {log:,.0f} octets of write-ahead log, processor time {seconds}")


def spent(pid):
    """The processor seconds of a process and of its children, also of those that ended; 0 where it has just ended."""
    try:
        with open(f"/proc/{pid}/stat", encoding="ascii") as file:
            times = file.read().rpartition(")")[2].split()[11:15]
        with open(f"/proc/{pid}/task/{pid}/children", encoding="ascii") as file:
            children = file.read().split()
    except OSError:
        return 0.0
    return sum(map(int, times)) / os.sysconf("SC_CLK_TCK") + sum(map(spent, children))


def serves_all(fleet):
    """All log in, send packets, and the gateways stop."""
    checks, before = fleet.checks, Work(fleet)
    took = fleet.all_come()
    Work(fleet).shows(before, "a login and its Start", len(fleet.subscribers))
    print(f"       {len(fleet.subscribers) / took:.0f} logins a second; " + ", ".join(f"{box.name} has {len(fleet.of(box))}" for box in fleet.boxes))
    checks.same("each gateway serves some", all(fleet.of(box) for box in fleet.boxes), True)
    checks.same("no two have one address", len({subscriber.address for subscriber in fleet.subscribers}), len(fleet.subscribers))
    fleet.compares_the_sessions("once all are up")
    fleet.pour(True)
    fleet.run(POURING)
    fleet.rests()
    fleet.stops("at the first stop", {box: 0 for box in fleet.boxes})
    checks.same("no record is open", fleet.database.number(OPEN), 0)
    if fleet.lends:
        leased = fleet.database.number("SELECT count(*) FROM radippool WHERE expiry_time > 'now'::timestamp(0)")
        checks.same("no address is leased", leased, 0)


def waits_for_interims(fleet):
    """Goes on until each session has had an Interim, and shows what those cost."""
    query = "SELECT count(*) FROM radacct WHERE acctstoptime IS NULL AND acctinterval IS NOT NULL"
    before = Work(fleet)
    has = fleet.waits_for(query, len(fleet.subscribers), freeradius_sql.INTERIM + 15)
    fleet.checks.same("each session has had an Interim", has, True)
    Work(fleet).shows(before, "an Interim", len(fleet.subscribers))


def loses_one(fleet, victim):
    """Kills a gateway in the midst of its traffic: its subscribers come back at the others."""
    checks = fleet.checks
    theirs, others = fleet.of(victim), [one for box in fleet.boxes if box is not victim for one in fleet.of(box)]
    for subscriber in fleet.subscribers:
        subscriber.losses.clear()
    with Look(fleet.database, TWICE) as look:
        victim.kill()
        killed = time.monotonic()
        print(f"       {victim.name} is killed, with {len(theirs)} subscribers of {len(fleet.subscribers)}")
        back = fleet.run(ECHO_TIME + REDIAL, lambda: all(one.box not in (None, victim) and one.address for one in theirs))
        checks.same("all of its subscribers are back at the others", (back, len(theirs) > 0), (True, True))
        tells_the_times(checks, theirs, killed)
        fleet.run(POURING)
    checks.same("no subscriber of the others lost its session", [one.name for one in others if one.losses], [])
    print(f"       SQL was looked at {look.count} times meanwhile")
    checks.same("no address was held twice in SQL", (look.seen, look.count > 5), ([], True))
    fleet.rests()


def tells_the_times(checks, theirs, killed):
    """How long the subscribers of a killed gateway took to find out, and to come back."""
    noticed = [one.losses[0] - killed for one in theirs if one.losses]
    checks.same("each found out by its own echoes", len(noticed), len(theirs))
    checks.same(f"within their echo time, {ECHO_TIME:.0f} s", max(noticed) <= ECHO_TIME + 0.5, True)
    redials = [one.up_at - one.wanted_at for one in theirs]
    print(f"       they found out after {min(noticed):.1f} to {max(noticed):.1f} s, and then logged in within {max(redials):.1f} s")
    print(f"       all were back {max(one.up_at for one in theirs) - killed:.1f} s after the kill")


def closes_its_records(fleet, victim, last):
    """The records that the killed gateway left open are closed by the documented command."""
    checks, database = fleet.checks, fleet.database
    mine = "SELECT count(*) FROM radacct WHERE acctstoptime IS NULL AND nasipaddress = :'box'"
    left = database.number(mine, box=victim.address)
    checks.same("it left open records", left > 0, True)
    with open(CLOSE, encoding="utf-8") as file:
        database.run(file.read(), box=victim.address)
    checks.same(f"its {left} open records are closed by the command", database.number(mine, box=victim.address), 0)
    rows = {row[0]: list(map(int, row[1:])) for row in database.run(SUMS, last=last)}
    _, up, down = rows[victim.address]
    print(f"       {victim.name} passed in={victim.up} out={victim.down}; its records say in={up} out={down}: what came after the Interims is lost")
    checks.same("they say something, and not more than what was passed", (0 < up <= victim.up, 0 < down <= victim.down), (True, True))
    fleet.compares_the_sessions("once they are closed")


def takes_it_back(fleet, victim):
    """The gateway is started anew, and serves some again."""
    last = fleet.last_record()
    fleet.start([victim])
    fleet.run(30, lambda: all(concentrator.tunnels[victim.number + 1].is_open for concentrator in fleet.concentrators))
    # Hosts and callers, few at once, so that the new gateway's PADO is there among the first.
    moving = [one for one in fleet.subscribers if one.number % BOXES == victim.number]
    moving = [one for pair in zip(moving, reversed(moving)) for one in pair][:AT_ONCE]
    back = []
    for first in range(0, AT_ONCE, 8):
        for one in moving[first:first + 8]:
            one.leave(time.monotonic())
        back.append(fleet.run(REDIAL, lambda: not fleet.asking()))
    fleet.checks.same("those who redial are up again", back, [True] * len(back))
    fleet.checks.same(f"{victim.name} serves again", len(fleet.of(victim)) > 0, True)
    print("       " + ", ".join(f"{box.name} has {len(fleet.of(box))}" for box in fleet.boxes))
    fleet.pour(True)
    fleet.run(3)
    fleet.rests()
    fleet.compares_the_sessions("with all gateways")
    return last


def asks_at_once(fleet, what, end, kind, requests):
    """Has radclient ask all of these, 32 at a time, and shows how many a second were answered."""
    path = os.path.join(fleet.folder, "requests")
    with open(path, "w", encoding="ascii") as file:
        file.write("\n\n".join(requests) + "\n")
    command = ["radclient", "-p", "32", "-s", "-q", "-f", path, f"{LOOPBACK}:{end}", kind, freeradius_sql.SCRIPT_SECRET]
    begun = time.monotonic()
    done = subprocess.run(command, capture_output=True, text=True, timeout=60, check=False)
    took = time.monotonic() - begun
    fleet.checks.same(f"radclient is answered {what}", done.returncode, 0)
    print(f"       without the gateways {len(requests) / took:,.0f} {what} a second were answered, with 32 out at once")


def measures(fleet):
    """How many logins and records FreeRADIUS and PostgreSQL take in a second by themselves."""
    if shutil.which("radclient") is None:
        print("       there is no radclient: FreeRADIUS and PostgreSQL are not measured by themselves")
        return
    nas = "NAS-IP-Address = 192.0.2.99"
    users = [(one.name, one.password.decode(), turn) for turn in range(5) for one in fleet.subscribers]
    logins = [f'User-Name = "{name}", User-Password = "{password}", {nas}' for name, password, _ in users]
    asks_at_once(fleet, "logins", fleet.radius.auth, "auth", logins)
    told = [f'User-Name = "{name}", Acct-Session-Id = "{name}-{turn}", {nas}, Acct-Status-Type = ' for name, _, turn in users]
    octets = ", Acct-Session-Time = 60, Acct-Input-Octets = 1000, Acct-Output-Octets = 1000"
    asks_at_once(fleet, "Starts", fleet.radius.acct, "acct", [one + "Start" for one in told])
    asks_at_once(fleet, "Interims", fleet.radius.acct, "acct", [one + "Interim-Update" + octets for one in told])


def tries_all(checks, lends):
    folder = tempfile.mkdtemp(prefix="bng-fleet-")
    os.chmod(folder, 0o711)
    fleet = Fleet(checks, folder, lends)
    try:
        with Database(folder) as fleet.database:
            for path in freeradius_sql.TABLES:
                fleet.database.run_file(path)
            fleet.database.run(FILL, count=len(fleet.subscribers))
            with freeradius_sql.SqlServer(folder, fleet.database, fleet.boxes, lends) as fleet.radius:
                try:
                    fleet.start(fleet.boxes)
                    serves_all(fleet)
                    last = fleet.last_record()
                    fleet.start(fleet.boxes)
                    fleet.all_come()
                    fleet.pour(True)
                    waits_for_interims(fleet)
                    victim = fleet.boxes[-1]
                    loses_one(fleet, victim)
                    closes_its_records(fleet, victim, last)
                    again = takes_it_back(fleet, victim)
                    fleet.stops("at the last stop", {**{box: last for box in fleet.boxes}, victim: again})
                    checks.same("no record is open at the end", fleet.database.number(OPEN), 0)
                    rows = "SELECT count(*), pg_total_relation_size('radacct') / count(*) FROM radacct"
                    print("       radacct has %s rows, of %s octets each with their indexes" % tuple(fleet.database.run(rows)[0]))
                    measures(fleet)
                finally:
                    fleet.close()
    finally:
        shutil.rmtree(folder, ignore_errors=True)


def missing():
    """What is not there of what this takes, or None."""
    if server_program() is None or shutil.which("psql") is None:
        return "no PostgreSQL"
    if radius_program() is None or not os.path.exists(freeradius_sql.MODULE):
        return "no freeradius with its module for PostgreSQL"
    if not os.access(freeradius_sql.TABLES[0], os.R_OK):
        return f"{freeradius_sql.TABLES[0]} is not to be read by this user"
    return None


def main(lends):
    lacking = missing()
    if lacking:
        print(f"fleet: skipped, since there is {lacking}")
        print("To install: apt-get install --no-install-recommends postgresql freeradius freeradius-postgresql")
        return 0
    if not is_built():
        print("fleet: skipped, since there is no built program: ./bng builds it")
        return 0
    checks = Checks()
    sys.stdout.reconfigure(line_buffering=True)
    print("fleet: " + ("one pool in SQL for all gateways" if lends else "a pool for each gateway"))
    try:
        tries_all(checks, lends)
    except (RuntimeError, OSError, subprocess.SubprocessError) as error:
        checks.same("the run came to its end", str(error), "no error")
    print(f"{checks.passed} passed, {checks.failed} failed")
    return 1 if checks.failed else 0


if __name__ == "__main__":
    came = usage.heed("fleet", __doc__, "--pool-a-box")
    if came not in ([], ["--pool-a-box"]):
        sys.exit("usage: lab/fleet [--pool-a-box]")
    signal.signal(signal.SIGTERM, lambda *_: sys.exit(143))
    sys.exit(main(lends=not came))
