"""How an operator looks at the program and stops it by its script, and what lab/smoke asks of that."""

import os
import re
import signal
import socket
import subprocess
import time

from machine.gateway import BNG, PROGRAM, Lab, report, stats
from peers.ipv4 import packet
from peers.loopback import udp
from peers.pppoe import frame


# What the script says of a gateway that was told to stop, and what it adds where it serves.
WAITS = r"bng: it ends all sessions, and waits until \d\d:\d\d:\d\d at most for the RADIUS server to acknowledge their Stops"
AND_KILLS = "; one more signal kills it, without its records"


def told(*words):
    """What the script answers to these words: its status, standard output and standard error."""
    done = subprocess.run([BNG, *words], stdin=subprocess.DEVNULL, capture_output=True, timeout=20, text=True)
    return done.returncode, done.stdout, done.stderr


def is_said(text, lines):
    """Whether a text is these lines, each a pattern."""
    return re.fullmatch("".join(line + "\n" for line in lines), text) is not None


def ends_with_its_report(checks, what, act, words=("serve",), lines=(WAITS + AND_KILLS,), keys=None):
    """A gateway that serves by the script with these words and its configuration, took a packet and is then stopped in this
    way, while standard error gets these lines: what the way gave. `keys` changes the text of the configuration."""
    with Lab() as lab:
        if keys:
            with open(lab.configuration, encoding="utf-8") as file:
                text = file.read()
            lab.write("lab.toml", keys(text))
        lab.start([BNG, *words, lab.configuration])
        lab.send(frame(packet()))
        checks.same(f"a packet comes to the core before {what}", lab.receive(lab.core)[0], packet(ttl=63))
        given = act(lab)
        status, out, err = lab.end()
        checks.same(f"after {what} there is the report and status 0", (status, out, is_said(err, lines) or err), (0, report(84), True))
        return given


def interrupt(lab):
    """What a terminal does: it sends the signal to all of the processes that it started."""
    os.killpg(lab.program.pid, signal.SIGINT)


def terminate(lab):
    os.kill(lab.program.pid, signal.SIGTERM)


def stops_as_it_is_told(checks):
    ends_with_its_report(checks, "SIGTERM to the script alone", terminate)
    ends_with_its_report(checks, "SIGTERM to all", lambda lab: os.killpg(lab.program.pid, signal.SIGTERM))
    ends_with_its_report(checks, "an interrupt", interrupt)
    ends_with_its_report(checks, "a hangup", lambda lab: os.killpg(lab.program.pid, signal.SIGHUP))
    status, out, err = ends_with_its_report(checks, "bng stop", lambda lab: told("stop", lab.configuration), lines=())
    checks.same("bng stop prints the gateway's answer", (status, out), (0, "stopping\n"))
    checks.same("and says what the gateway waits for, and until when", is_said(err, [WAITS]) or err, True)


def takes_options_anywhere(checks):
    """A gateway with a number of rounds stops as one without, wherever the option stands."""
    rounds = ("--rounds", str(1 << 40))
    ends_with_its_report(checks, "SIGTERM with --rounds behind the word", terminate, words=("serve", *rounds))
    ends_with_its_report(checks, "an interrupt with --rounds before the word", interrupt, words=(*rounds, "serve"))


def reads_what_can_be_read_once(checks):
    """A configuration that comes through a pipe, as Bash's <(..)."""
    with Lab() as lab:
        with open(lab.configuration, "rb") as file:
            text = file.read()
        front, back = os.pipe()
        os.write(back, text)
        os.close(back)
        lab.start([BNG, "serve", f"/dev/fd/{front}"], pass_fds=(front,))
        os.close(front)
        lab.send(frame(packet()))
        checks.same("with a configuration from a pipe a packet passes", lab.receive(lab.core)[0], packet(ttl=63))
        terminate(lab)
        checks.same("and a SIGTERM stops it", lab.end()[:2], (0, report(84)))


def own_address():
    """An address of this machine that is not of 127.0.0.0/8, or None. No packet is sent."""
    with socket.socket(socket.AF_INET, socket.SOCK_DGRAM) as end:
        try:
            end.connect(("192.0.2.1", 9))
        except OSError:
            return None
        address = end.getsockname()[0]
        return None if address.startswith("127.") else address


def stops_on_another_address(checks):
    address = own_address()
    if address is None:
        print("skipped, since this machine has no other address: a Control on one")
        return
    elsewhere = lambda text: re.sub(r'(\[control\]\nlocal = ")127\.0\.0\.1', rf"\g<1>{address}", text)
    where = rf"bng: Control listens at {re.escape(address)}:\d+, and heeds only what comes from 127\.0\.0\.0/8: .*"
    ends_with_its_report(checks, "SIGTERM, with Control on another address", terminate, lines=(where, WAITS + AND_KILLS), keys=elsewhere)
    stop = lambda lab: told("stop", lab.configuration)
    status, out, _ = ends_with_its_report(checks, "bng stop, with Control on another address", stop, lines=(where,), keys=elsewhere)
    checks.same("bng stop is heeded there", (status, out), (0, "stopping\n"))


def names_its_words(checks):
    status, out, err = told("help")
    checks.same("bng help names stop and stats", (status, "bng stop CONFIG" in out, "bng stats CONFIG" in out, err), (0, True, True, ""))
    status, out, err = told("halt")
    checks.same("and so does a word that is none, with status 1", (status, out, "bng stop CONFIG" in err), (1, "", True))


def shows_its_sums(checks):
    with Lab() as lab:
        lab.start([PROGRAM, "serve", lab.configuration])
        checks.same("bng stats prints the sums", told("stats", lab.configuration), (0, stats(), ""))
        lab.send(frame(packet()))
        lab.receive(lab.core)
        checks.same("and has a packet in them that was sent since", told("stats", lab.configuration), (0, stats(84), ""))
        lab.stop()
        checks.same("a gateway that was looked at has its report", lab.end(), (0, report(84), ""))


def catches(pid, number):
    """Whether a process has a trap for a signal."""
    with open(f"/proc/{pid}/status") as status:
        caught = next(line.split()[1] for line in status if line.startswith("SigCgt:"))
    return int(caught, 16) >> (number - 1) & 1 == 1


def stops_before_it_listens(checks):
    with Lab() as lab:
        pipes = {"stdin": subprocess.DEVNULL, "stdout": subprocess.PIPE, "stderr": subprocess.PIPE}
        lab.program = subprocess.Popen([BNG, "serve", lab.configuration], start_new_session=True, **pipes)
        # Until the script has set its traps, it ends by the signal itself.
        ends = time.time() + 30
        while not catches(lab.program.pid, signal.SIGTERM) and time.time() < ends:
            time.sleep(0.01)
        os.kill(lab.program.pid, signal.SIGTERM)
        checks.same("a SIGTERM soon after the start ends it", lab.end()[:2], (0, report()))


def ends_at_a_second_signal(checks):
    with Lab(acknowledges=False) as lab:
        lab.start([BNG, "serve", lab.configuration])
        os.kill(lab.program.pid, signal.SIGTERM)
        time.sleep(0.5)
        checks.same("while nobody acknowledges its Stop it waits", lab.program.poll(), None)
        os.kill(lab.program.pid, signal.SIGTERM)
        checks.same("a second SIGTERM kills it, without a report", lab.end(5)[:2], (128 + signal.SIGKILL, ""))


def says_where_nobody_listens(checks):
    with Lab() as lab:
        end = f"127.0.0.1:{lab.ports['control']}"
        said = f"bng: no gateway answers at {end}\n"
        for word in ("stop", "stats"):
            checks.same(f"bng {word} says that no gateway answers", told(word, lab.configuration), (1, "", said))
        with open(lab.configuration, encoding="utf-8") as file:
            text = file.read().replace(f'[control]\nlocal = "{end}"\n', "")
        for line in (f'control.local = "{end}"\r', f"control = {{ local = '{end}' }} # the word stop"):
            path = lab.write("other.toml", f"{line}\n{text}")
            checks.same(f"it reads the key {line.split(' =')[0]}", told("stop", path), (1, "", said))
        path = lab.write("other.toml", text)
        says = "bng: the configuration does not say where Control listens: it has no control.local\n"
        checks.same("a configuration without control.local stops nothing", told("stop", path), (1, "", says))
        for path in (os.path.join(lab.folder, "missing.toml"), lab.folder):
            checks.same("bng stats wants a file", told("stats", path), (1, "", "bng: cannot open configuration\n"))
    for word in ("stop", "stats"):
        checks.same(f"bng {word} wants a configuration", told(word), (1, "", f"usage: bng {word} CONFIG\n"))


def says_what_another_answers(checks):
    """Where another program has Control's end, which answers anything else."""
    with Lab() as lab, udp(port=lab.ports["control"]) as other:
        child = subprocess.Popen([BNG, "stats", lab.configuration], stdin=subprocess.DEVNULL, stderr=subprocess.PIPE, text=True)
        word, sender = other.recvfrom(512)
        other.sendto(b"unknown\n", sender)
        said = f"bng: the gateway at 127.0.0.1:{lab.ports['control']} answers unknown\n"
        checks.same("an answer that is no sums is told", (word, child.communicate(timeout=20)[1], child.returncode), (b"stats", said, 1))


def keeps_an_operators_habits(checks):
    shows_its_sums(checks)
    stops_as_it_is_told(checks)
    takes_options_anywhere(checks)
    reads_what_can_be_read_once(checks)
    stops_on_another_address(checks)
    names_its_words(checks)
    stops_before_it_listens(checks)
    ends_at_a_second_signal(checks)
    says_where_nobody_listens(checks)
    says_what_another_answers(checks)
