"""Networks of their own on this machine, each with its interfaces, as Linux' network namespaces are. They have no names: the files
and the processes of the one that made them hold them, and with these they are gone, with all that is in them."""

import contextlib
import ctypes
import os
import subprocess

NEW_NETWORK = 0x40000000
OWN = "/proc/self/ns/net"

LIBC = ctypes.CDLL(None, use_errno=True)


def call(name, *numbers):
    if getattr(LIBC, name)(*numbers) != 0:
        raise OSError(ctypes.get_errno(), f"{name}: {os.strerror(ctypes.get_errno())}")


def leave():
    """Takes this process, which has one thread, to a new network whose only interface is its loopback."""
    call("unshare", NEW_NETWORK)
    run("ip", "link", "set", "lo", "up")


def run(*words, **options):
    """Runs a program to its end in the network of this thread, and gives what it printed."""
    done = subprocess.run(words, capture_output=True, text=True, check=False, **options)
    if done.returncode != 0:
        raise RuntimeError(f"{' '.join(words)}: {done.stderr.strip() or done.stdout.strip()}")
    return done.stdout


class Network:
    """A network beside that of this process."""

    def __init__(self):
        home = os.open(OWN, os.O_RDONLY)
        try:
            call("unshare", NEW_NETWORK)
            self.file = os.open(OWN, os.O_RDONLY)
            run("ip", "link", "set", "lo", "up")
        finally:
            call("setns", home, NEW_NETWORK)
            os.close(home)

    def enter(self):
        call("setns", self.file, NEW_NETWORK)

    @contextlib.contextmanager
    def entered(self):
        """Has this thread in the network: the sockets that it opens meanwhile stay there."""
        home = os.open(OWN, os.O_RDONLY)
        self.enter()
        try:
            yield
        finally:
            call("setns", home, NEW_NETWORK)
            os.close(home)

    def run(self, *words, **options):
        return run(*words, preexec_fn=self.enter, **options)

    def start(self, *words, **options):
        """Starts a program in the network."""
        return subprocess.Popen(words, preexec_fn=self.enter, **options)


def cable(near, far, network):
    """A pair of Ethernet interfaces that are joined: `near` here, and `far` in that network. Both are up."""
    run("ip", "link", "add", near, "type", "veth", "peer", "name", far)
    run("ip", "link", "set", far, "netns", f"/proc/{os.getpid()}/fd/{network.file}")
    run("ip", "link", "set", near, "up")
    network.run("ip", "link", "set", far, "up")
