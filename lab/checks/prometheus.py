"""Starts a real Prometheus on the loopback that reads lab/exporter and lab/alerts.yml, and compares what it has with what the gateway
says, up to the alert for a Stop that nobody acknowledged. It takes about 40 seconds, of which the gateway waits 30 for that Stop."""

import contextlib
import json
import os
import shutil
import socket
import subprocess
import sys
import time
import urllib.parse
import urllib.request

from checks import usage
from checks.smoke import Checks
from checks.watching import Exporter
from machine.gateway import BNG, BUILDING, HOME, Lab, is_built
from peers.ipv4 import packet
from peers.loopback import LOOPBACK
from peers.pppoe import frame

ALERTS = os.path.join(HOME, "lab", "alerts.yml")
TESTS = os.path.join(HOME, "lab", "checks", "alerts_test.yml")
NAMES = ["BngDropsRising", "BngNoAnswer", "BngStopsUnacknowledged"]

CONFIGURATION = """\
global:
  scrape_interval: 1s
  evaluation_interval: 1s
rule_files: ["{alerts}"]
scrape_configs:
  - job_name: bng
    static_configs:
      - targets: ["{target}"]
"""


def free_port():
    with socket.socket() as end:
        end.bind((LOOPBACK, 0))
        return end.getsockname()[1]


class Prometheus:
    """A running Prometheus that reads the exporter at this address, with its data in a folder."""

    def __init__(self, folder, target):
        self.place = f"{LOOPBACK}:{free_port()}"
        configuration = os.path.join(folder, "prometheus.yml")
        with open(configuration, "w", encoding="ascii") as file:
            file.write(CONFIGURATION.format(alerts=ALERTS, target=target))
        options = {"config.file": configuration, "storage.tsdb.path": os.path.join(folder, "data"), "web.listen-address": self.place}
        command = ["prometheus", *(f"--{name}={value}" for name, value in options.items())]
        self.process = subprocess.Popen(command, stdout=subprocess.DEVNULL, stderr=subprocess.DEVNULL)

    def __enter__(self):
        return self

    def __exit__(self, *_):
        self.process.terminate()
        self.process.wait()

    def ask(self, path, **words):
        """The data that its API answers, or None where it does not answer yet."""
        address = f"http://{self.place}/api/v1/{path}?{urllib.parse.urlencode(words)}"
        with contextlib.suppress(OSError), urllib.request.urlopen(address, timeout=5) as answer:
            return json.load(answer)["data"]
        return None

    def value(self, query):
        """The one value that a query gives, as a text, or None."""
        data = self.ask("query", query=query)
        return data["result"][0]["value"][1] if data and data["result"] else None

    def alerts(self):
        """The state of each alert that is told, by its name."""
        data = self.ask("alerts") or {"alerts": []}
        return {alert["labels"]["alertname"]: alert["state"] for alert in data["alerts"]}


def until(look, wanted, patience=20):
    """What a look sees, once that is what is wanted, or at the end of so many seconds."""
    end = time.monotonic() + patience
    while (seen := look()) != wanted and time.monotonic() < end:
        time.sleep(0.25)
    return seen


def are_good_rules(checks):
    for what, words in (("rules", ("check", "rules", ALERTS)), ("tests of the rules", ("test", "rules", TESTS))):
        done = subprocess.run(["promtool", *words], capture_output=True, text=True, check=False)
        checks.same(f"promtool finds the {what} good", (done.returncode, "SUCCESS" in done.stdout), (0, True))


def is_good_text(checks, exporter):
    done = subprocess.run(["promtool", "check", "metrics"], input=exporter.read(), capture_output=True, text=True, check=False)
    checks.same("promtool check metrics has no complaint", (done.returncode, done.stdout + done.stderr), (0, ""))


def has_the_sums(checks, lab, server):
    for number in range(10):
        lab.send(frame(packet(number=number)))
        lab.receive(lab.core)
    lab.send(b"no frame")
    seen = until(lambda: server.value('bng_octets_total{job="bng",direction="in"}'), "840")
    checks.same("Prometheus has the octets of ten packets", seen, "840")
    seen = until(lambda: server.value('bng_dropped_packets_total{cause="Malformed"}'), "1")
    checks.same("and the datagram that was dropped", seen, "1")
    checks.same("and the answers themselves are as stats is", lab.say(b"stats").decode().splitlines()[2], "total in=840 out=0")
    checks.same("and the profile's octets", server.value('bng_profile_octets_total{profile="default",direction="in"}'), "840")
    groups = server.ask("rules")["groups"]
    seen = sorted((rule["name"], rule["health"]) for group in groups for rule in group["rules"])
    checks.same("its three rules are in use", seen, [(name, "ok") for name in NAMES])
    checks.same("and none has anything to tell", server.alerts(), {})


def tells_of_the_stop(checks, lab, server):
    checks.same("stop is answered", lab.stop(), b"stopping\n")
    seen = until(lambda: server.alerts().get("BngNoAnswer"), "pending")
    checks.same("a gateway that ends its sessions gives no answer, and its alert waits for a minute", seen, "pending")
    status, _, _ = lab.end(90)
    checks.same("nobody acknowledges its Stop: status 6", status, 6)
    seen = until(lambda: server.alerts().get("BngStopsUnacknowledged"), "firing")
    checks.same("the alert of Stops that nobody acknowledged tells of it", seen, "firing")
    checks.same("with its octets", server.value('bng_unacknowledged_octets{direction="in"}'), "840")


def try_all(checks):
    are_good_rules(checks)
    with Lab(acknowledges=False) as lab:
        left = os.path.join(lab.folder, "stops")
        with open(left, "wb") as file, Exporter(lab.configuration, "--stops", left) as exporter:
            lab.start([BNG, "serve", lab.configuration], patience=60 if is_built() else BUILDING, stderr=file)
            is_good_text(checks, exporter)
            with Prometheus(lab.folder, urllib.parse.urlsplit(exporter.address).netloc) as server:
                has_the_sums(checks, lab, server)
                tells_of_the_stop(checks, lab, server)


def main():
    if shutil.which("prometheus") is None or shutil.which("promtool") is None:
        print("prometheus: skipped, since it wants Debian's prometheus")
        return 0
    checks = Checks()
    try:
        try_all(checks)
    except (RuntimeError, OSError, subprocess.TimeoutExpired) as error:
        checks.same("the run came to its end", str(error), "no error")
    print(f"{checks.passed} passed, {checks.failed} failed")
    return 1 if checks.failed else 0


if __name__ == "__main__":
    usage.heed("prometheus", __doc__)
    sys.exit(main())
