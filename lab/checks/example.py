"""The configuration that a provider copies, as lab/smoke asks: that it is the one which the tests read, and is served as it stands."""

import os

from machine.gateway import HOME, PROGRAM, Lab, totals, with_drops
from peers.loopback import bound_ports, udp
from peers.radius_server import acknowledge, hear_record

EXAMPLE = os.path.join(HOME, "lab", "example.toml")
TESTED = os.path.join(HOME, "crates", "bng_config_tests", "src", "config", "example.rt")

PORTS = {"core": 9000, "control": 9002, "auth": 9003, "acct": 9004, "access": 9010, "second": 9020, "tunnel": 1701, "coa": 3799}
SERVER = 1813


def is_tested(checks):
    with open(EXAMPLE, encoding="utf-8") as file:
        ours = file.read()
    with open(TESTED, encoding="utf-8") as file:
        tested = file.read().split('r#"', 1)[1].split('"#;', 1)[0]
    checks.same("the tests read the example", tested, ours)


def is_served(checks):
    """With a server of accounting where the example says, which acknowledges the records of both circuits."""
    if bound_ports() & {SERVER, *PORTS.values()}:
        print("skipped the serving of the example: a port of it is taken")
        return
    with Lab(acknowledges=False) as lab:
        lab.accounting.close()
        lab.ports, lab.accounting = PORTS, udp(port=SERVER)
        lab.start([PROGRAM, "serve", EXAMPLE])
        for _ in range(2):
            acknowledge(lab, hear_record(lab)[0])
        checks.same("the example's gateway hears the word stop", lab.stop(), b"stopping\n")
        for _ in range(2):
            acknowledge(lab, hear_record(lab)[0])
        *sums, _ = totals()
        profiles = [f"profile {name} in=0 out=0" for name in ("basic", "unmetered")]
        circuits = [f"static 10.0.8.{number} in=0 out=0" for number in (1, 2)]
        checks.same("the example is served", lab.end(), (0, with_drops([*sums, *profiles, *circuits], {}), ""))


def reads_the_example(checks):
    is_tested(checks)
    is_served(checks)
