"""Gives a gateway's sums to Prometheus, as text at http://127.0.0.1:9469/metrics. Each reading asks the gateway once.

Of what was forwarded the gateway's answer has octets, and of what was dropped the datagrams. Its count of Stops that nobody
acknowledged comes at its end alone, on standard error: where that is kept in a file, the exporter counts them there."""

import argparse
import functools
import http.server
import re
import sys

from machine import ends, sums

ADDRESS, PORT = "127.0.0.1", 9469

# A line for a Stop that was not acknowledged, as a run with status 6 writes it.
STOP = re.compile(r"^stop \S+ \S+ [0-9.]+ in=([0-9]+) out=([0-9]+)$", re.MULTILINE)

# What each metric counts, and its kind; by its name.
METRICS = {
    "bng_up": ("gauge", "Whether the gateway answered the word stats."),
    "bng_octets_total": ("counter", "IPv4 octets of all packets that were sent, in from subscribers and out towards them."),
    "bng_stopped_octets_total": ("counter", "IPv4 octets that the Stops say that were formed so far."),
    "bng_live_octets": ("gauge", "IPv4 octets of the terms that have no Stop yet."),
    "bng_worker_octets_total": ("counter", "IPv4 octets of the packets that a worker sent."),
    "bng_profile_octets_total": ("counter", "IPv4 octets of the packets that were sent under a profile."),
    "bng_dropped_packets_total": ("counter", "Datagrams that were dropped, by cause."),
    "bng_unacknowledged_stops": ("gauge", "Stops of ended runs that the server of accounting did not acknowledge."),
    "bng_unacknowledged_octets": ("gauge", "IPv4 octets in the Stops that were not acknowledged."),
}

# The metric of each kind of line, and the label that the second word of the line is the value of.
LINES = {
    "total": ("bng_octets_total", None),
    "stopped": ("bng_stopped_octets_total", None),
    "live": ("bng_live_octets", None),
    "worker": ("bng_worker_octets_total", "worker"),
    "profile": ("bng_profile_octets_total", "profile"),
}


def sums_samples(found):
    """The samples of a gateway's sums: the metric, its labels and its value."""
    for name, octets in found.octets.items():
        kind, _, value = name.partition(" ")
        if kind in LINES:
            metric, label = LINES[kind]
            for direction, count in octets.items():
                yield metric, {**({label: value} if label else {}), "direction": direction}, count
    for cause, count in found.drops.items():
        yield "bng_dropped_packets_total", {"cause": cause}, count


def stop_samples(path):
    """The samples of the Stops in the file with what ended runs wrote on standard error. A file that is not there has none."""
    try:
        with open(path, encoding="ascii", errors="replace") as file:
            found = STOP.findall(file.read())
    except FileNotFoundError:
        found = []
    yield "bng_unacknowledged_stops", {}, len(found)
    for at, direction in enumerate(sums.DIRECTIONS):
        yield "bng_unacknowledged_octets", {"direction": direction}, sum(int(stop[at]) for stop in found)


def spell(samples):
    """Samples in Prometheus' text format, each metric's together, with its help and its kind before them."""
    lines = {name: [] for name in METRICS}
    for name, labels, value in samples:
        shown = ",".join(f'{label}="{text}"' for label, text in labels.items())
        lines[name].append(f"{name}{{{shown}}} {value}" if shown else f"{name} {value}")
    text = ""
    for name, (kind, words) in METRICS.items():
        if lines[name]:
            text += f"# HELP {name} {words}\n# TYPE {name} {kind}\n" + "".join(line + "\n" for line in lines[name])
    return text


def metrics(control, stops):
    """The text for one reading."""
    found = sums.ask(control)
    samples = [("bng_up", {}, 0 if found is None else 1)]
    samples += [] if found is None else sums_samples(found)
    samples += [] if stops is None else stop_samples(stops)
    return spell(samples)


class Handler(http.server.BaseHTTPRequestHandler):
    """Answers GET /metrics."""

    def __init__(self, text, *arguments):
        self.text = text
        super().__init__(*arguments)

    def do_GET(self):
        """The name is that of http.server."""
        if self.path != "/metrics":
            self.send_error(404, "the sums are at /metrics")
            return
        octets = self.text().encode()
        self.send_response(200)
        self.send_header("Content-Type", "text/plain; version=0.0.4; charset=utf-8")
        self.send_header("Content-Length", str(len(octets)))
        self.end_headers()
        self.wfile.write(octets)

    def log_message(self, *_):
        """Says nothing of each reading."""


def main():
    parser = argparse.ArgumentParser(prog="lab/exporter", description="The gateway's sums, for Prometheus.")
    parser.add_argument("config")
    parser.add_argument("--port", type=int, default=PORT, help=f"the port of {ADDRESS} to answer at (default {PORT})")
    parser.add_argument("--stops", metavar="FILE", help="the file that the gateway's standard error is kept in")
    asked = parser.parse_args()
    text = functools.partial(metrics, ends.control(ends.read(asked.config)), asked.stops)
    try:
        server = http.server.ThreadingHTTPServer((ADDRESS, asked.port), functools.partial(Handler, text))
    except OSError as error:
        raise ends.Unusable(f"cannot answer at {ADDRESS}:{asked.port}: {error.strerror}") from None
    print(f"exporter: http://{ADDRESS}:{server.server_port}/metrics", file=sys.stderr, flush=True)
    try:
        server.serve_forever()
    except KeyboardInterrupt:
        return 0


if __name__ == "__main__":
    sys.exit(ends.run("exporter", main))
