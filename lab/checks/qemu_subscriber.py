"""Lets a real pppd, in an emulated machine on the access port, use the real program as a subscriber does, and compares what
the machine counted with what the provider's server of accounting was told."""

import contextlib
import hashlib
import os
import shutil
import signal
import sys

from checks import evidence, usage
from machine import emulated
from machine.cable import GOODS, GROUP, MAC, NAMES, PATIENCE, USER, Cable, converse, serve_radius
from machine.gateway import CRATE, PROGRAM, Lab, is_built, tried
from peers import pppoe, provider
from peers.loopback import udp

STARTING = 900


def conclude(cable, records, report, checks):
    """Says how far it came, and compares what is known of the session."""
    steps = cable.steps()
    for name, step in steps.items():
        print(f"{name + ' of the gateway:':38}{'came' if cable.came(False, *step) else 'did not come'}")
    for name, protocol in (("LCP", pppoe.LCP), ("IPCP", pppoe.IPCP)):
        print(f"{name + ':':38}{'Opened on both sides' if cable.is_opened(protocol) else 'not Opened'}")
    came = all(cable.came(False, *step) for step in steps.values()) and cable.is_opened(pppoe.LCP) and cable.is_opened(pppoe.IPCP)
    print("\nThe session, as the provider's server of accounting has it:")
    starts, stops = (cable.records(records, status) for status in ("Start", "Stop"))
    for record in starts + stops:
        provider.show(record)
    print("\nWhat was compared:")
    checks.same("what had to come came", came, True)
    checks.same("Starts and Stops of the machine", (len(starts), len(stops)), (1, 1))
    if (len(starts), len(stops)) != (1, 1):
        return
    evidence.compare_session(checks, cable, starts[0], stops[0], USER.decode(), GROUP)
    evidence.compare_traffic(checks, cable, stops[0], report)
    evidence.compare_uses(checks, cable, emulated.PINGS, hashlib.md5(GOODS).hexdigest(), NAMES)
    cable.compare(checks, report, (starts[0], stops[0]))


def attempt(command, checks, kind=Cable):
    """Compares whether a subscriber at the gateway that this starts has all that it is to have, and all is counted right, over a
    cable of this kind."""
    with contextlib.ExitStack() as parties:
        server = serve_radius(parties)
        ours = Lab(keys=f'dns = ["{NAMES}"]\n', server=server and server.port, keeper=server and server.keeper, **kind.options)
        lab = parties.enter_context(ours)
        far = parties.enter_context(udp())
        print(f"The RADIUS server is {'a FreeRADIUS' if server else 'this script'}, for accounting too")
        print("Starts the gateway:", *command(lab.configuration), flush=True)
        lab.start(command(lab.configuration), STARTING)
        read = lambda: provider.read_file(server.records()) if server else [provider.write_record(one) for one in lab.records]
        cable = kind(lab, far, read)
        parties.callback(cable.close)
        print(f"Boots a Linux with pppd {cable.place}, for {PATIENCE} seconds at most", flush=True)
        computer = emulated.boot(lab.folder, cable.dialer, MAC, cable.near, far.getsockname()[1])
        try:
            converse(cable, computer)
        finally:
            computer.kill()
            computer.wait()
        lab.stop()
        status, out, err = lab.end(patience=40)
        print(f"\nThe gateway's report, and then status {status}:\n{out}{err if status else ''}")
        records = read()
    if server:
        server.show()
    conclude(cable, records, out, checks)
    checks.same("status of the gateway", status, 0)


def judge(command, kind):
    """The status of one attempt, with what was compared in numbers."""
    checks = evidence.Comparisons()
    attempt(command, checks, kind)
    return checks.conclude()


def run(name, kind=Cable):
    """Tries it under this name, where there is all that it needs. The status."""
    lacking = emulated.lacking(kind.dialer)
    if lacking:
        print(f"{name}: skipped, since there is no {', no '.join(lacking)}")
        print(f"To install: apt-get install --no-install-recommends {' '.join(lacking)}")
        return 0
    if is_built():
        return judge(lambda configuration: [PROGRAM, "serve", configuration], kind)
    if shutil.which("rt") is None:
        print(f"{name}: skipped, since the program is not built and there is no rt")
        return 0
    print(f"{name}: the built program is missing or older than its sources: runs under rt try")
    os.chdir(CRATE)
    return judge(lambda configuration: tried(configuration, STARTING), kind)


def main(name, *kind):
    """Runs it, and ends with its status."""
    signal.signal(signal.SIGTERM, lambda *_: sys.exit(143))
    try:
        sys.exit(run(name, *kind))
    except (RuntimeError, OSError) as error:
        print(f"{name}: {error}", file=sys.stderr)
        sys.exit(1)


if __name__ == "__main__":
    usage.heed("qemu-subscriber", __doc__)
    main("qemu-subscriber")
