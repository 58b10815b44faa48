"""A PostgreSQL in a folder of its own on a port of the loopback, as a script starts and ends it."""

import glob
import os
import secrets
import shutil
import socket
import subprocess
import time

from peers.loopback import LOOPBACK

# Root may not run PostgreSQL: then this user does, whom Debian's package makes.
USER = "postgres"


def server_program():
    """Where the program `postgres` is, the newest of several, or None."""
    found = sorted(glob.glob("/usr/lib/postgresql/*/bin/postgres"), key=lambda path: float(path.split("/")[4]))
    return found[-1] if found else shutil.which("postgres")


def free_port():
    """A TCP port of the loopback that is free now."""
    with socket.socket() as end:
        end.bind((LOOPBACK, 0))
        return end.getsockname()[1]


class Database:
    """The server, with one database `radius` and one user `radius`. Leaving it ends it and removes its folder."""

    def __init__(self, folder):
        self.folder = os.path.join(folder, "postgresql")
        self.port, self.password = free_port(), secrets.token_hex(16)
        self.programs = os.path.dirname(server_program())
        self.owner = {"user": USER, "group": USER, "extra_groups": []} if os.geteuid() == 0 else {}

    def __enter__(self):
        os.mkdir(self.folder)
        if self.owner:
            shutil.chown(self.folder, USER, USER)
        given = os.path.join(self.folder, "password")
        with open(os.open(given, os.O_WRONLY | os.O_CREAT, 0o600), "w", encoding="ascii") as file:
            file.write(self.password)
        if self.owner:
            shutil.chown(given, USER, USER)
        data = os.path.join(self.folder, "data")
        made = [os.path.join(self.programs, "initdb"), "-D", data, "-U", "radius", "-A", "scram-sha-256", f"--pwfile={given}", "-E", "UTF8"]
        subprocess.run(made, check=True, capture_output=True, timeout=120, cwd=self.folder, **self.owner)
        settings = {"listen_addresses": LOOPBACK, "port": self.port, "unix_socket_directories": self.folder}
        command = [os.path.join(self.programs, "postgres"), "-D", data]
        for name, value in settings.items():
            command += ["-c", f"{name}={value}"]
        with open(os.path.join(self.folder, "log"), "wb") as log:
            self.program = subprocess.Popen(command, stdin=subprocess.DEVNULL, stdout=log, stderr=log, cwd=self.folder, **self.owner)
        self.wait_until_it_answers()
        self.run("CREATE DATABASE radius", database="postgres")
        return self

    def wait_until_it_answers(self):
        end = time.monotonic() + 60
        while True:
            try:
                self.run("SELECT 1", database="postgres")
                return
            except RuntimeError:
                if self.program.poll() is not None or time.monotonic() > end:
                    self.end()
                    with open(os.path.join(self.folder, "log"), encoding="utf-8", errors="replace") as log:
                        raise RuntimeError("PostgreSQL did not start:\n" + log.read()) from None
                time.sleep(0.1)

    def run(self, text, database="radius", **variables):
        """Runs SQL by psql, with these variables, and gives the rows, each a list of texts."""
        words = [f"--set={name}={value}" for name, value in {"ON_ERROR_STOP": 1, **variables}.items()]
        command = ["psql", "-X", "-q", "-A", "-t", "-h", LOOPBACK, "-p", str(self.port), "-U", "radius", "-d", database, *words]
        surroundings = {**os.environ, "PGPASSWORD": self.password}
        done = subprocess.run(command, input=text, capture_output=True, text=True, timeout=60, env=surroundings, check=False)
        if done.returncode:
            raise RuntimeError(f"psql: {done.stderr.strip()}")
        return [line.split("|") for line in done.stdout.splitlines() if line]

    def run_file(self, path):
        """Runs a file of SQL."""
        with open(path, encoding="utf-8") as file:
            return self.run(file.read())

    def number(self, text, **variables):
        """The one number that a query gives."""
        return int(self.run(text, **variables)[0][0])

    def end(self):
        """Ends it: by a fast shutdown, which waits for nobody, or else by a kill."""
        self.program.send_signal(2)
        try:
            self.program.wait(20)
        except subprocess.TimeoutExpired:
            self.program.kill()
            self.program.wait()

    def __exit__(self, *_):
        self.end()
        shutil.rmtree(self.folder, ignore_errors=True)
