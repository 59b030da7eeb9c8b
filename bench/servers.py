"""The servers that are measured: each starts in a folder of its own, and ends with its `with` block."""

import contextlib
import glob
import os
import pwd
import shutil
import signal
import socket
import subprocess
import sys
import tempfile
import time
import urllib.request

HERE = os.path.dirname(os.path.abspath(__file__))
sys.path.append(os.path.join(HERE, "..", "harness"))    # for ssikvd_harness, which each script here imports after this module

from ssikvd_harness.server import address_of, first_line, free_port, memory_of, processor_seconds_of    # noqa: E402

PROGRAMS = os.path.join(HERE, "out")


class Failure(Exception):
    """What keeps a measurement from being made."""


def run(words, **more):
    """Runs a program to its end, and gives its output."""
    try:
        done = subprocess.run(words, capture_output=True, text=True, timeout=300, stdin=subprocess.DEVNULL, **more)
    except subprocess.TimeoutExpired:
        raise Failure(f"{' '.join(words)} did not end") from None
    if done.returncode != 0:
        raise Failure(f"{' '.join(words)} ended with {done.returncode}: {(done.stderr or done.stdout).strip()[:400]}")
    return done.stdout


def connect(address, seconds=10):
    """A connection, which waits for so long."""
    host, port = address.rsplit(":", 1)
    return socket.create_connection((host, int(port)), seconds)


class Process:
    """A process that this one started. It is ended by its own handle."""

    def __init__(self, words, stop_signal=signal.SIGTERM, **more):
        self.stop_signal = stop_signal
        self.process = subprocess.Popen(words, stdin=subprocess.DEVNULL, **more)

    def __enter__(self):
        return self

    def __exit__(self, *_):
        self.stop()

    def stop(self):
        if self.process.poll() is None:
            self.process.send_signal(self.stop_signal)
        try:
            self.process.wait(30)
        except subprocess.TimeoutExpired:
            self.process.kill()
            self.process.wait()

    def is_running(self):
        return self.process.poll() is None

    def processor_seconds(self):
        """The CPU time of the process, without that of its children."""
        return processor_seconds_of(self.process.pid)

    def resident_bytes(self):
        """The memory that the process holds."""
        return memory_of(self.process.pid, "VmRSS")


class Listening(Process):
    """A server that prints `listening ADDRESS` once it can be reached."""

    def __init__(self, words, **more):
        super().__init__(words, stdout=subprocess.PIPE, **more)
        self.address = address_of(first_line(self.process.stdout, [], 120))
        if not self.address:
            self.stop()
            raise Failure(f"{' '.join(words)} did not say where it listens")


class Echo(Listening):
    """The echo server."""

    name = "echo"

    def __init__(self):
        super().__init__([os.path.join(PROGRAMS, "echo")])


class StandIn(Listening):
    """A server in C with the same commands and none of the promises. It keeps nothing on disk, or makes the writes and syncs of commits."""

    name = "resp"

    def __init__(self, log=None, **more):
        super().__init__([os.path.join(PROGRAMS, "stand_in")] + [log] * bool(log), **more)


class Ssikvd(Listening):
    """The server, over a data file of its own."""

    name = "resp"

    def __init__(self, program, folder, sectors, **more):
        self.program = program
        # How many commits with writes were acknowledged.
        self.committed = 0
        self.folder = tempfile.mkdtemp(prefix="ssikvd-bench-", dir=folder)
        self.data = os.path.join(self.folder, "data")
        try:
            run([program, "create", "--data", self.data, "--sectors", str(sectors)])
            super().__init__([program, "serve", "--data", self.data, "--listen", "127.0.0.1:0"], **more)
        except BaseException:
            shutil.rmtree(self.folder)
            raise

    def __exit__(self, *_):
        self.stop()
        shutil.rmtree(self.folder)

    def records(self):
        """How many commits stand in the data file. The server must have ended."""
        return count_records(self.program, self.data)


class Redis(Process):
    """A Redis that keeps nothing on disk, or syncs all that it writes into a folder. It speaks the same frames, and answers PING alike."""

    name = "redis"

    def __init__(self, program, log_folder=None, **more):
        self.address = f"127.0.0.1:{free_port()}"
        words = [program, "--port", self.address.rsplit(":", 1)[1], "--bind", "127.0.0.1", "--save", "", "--dir", log_folder or tempfile.gettempdir()]
        words += ["--appendonly", "yes", "--appendfsync", "always", "--auto-aof-rewrite-percentage", "0"] if log_folder else ["--appendonly", "no"]
        super().__init__(words, stdout=subprocess.DEVNULL, **more)
        for _ in range(100):
            with contextlib.suppress(OSError), connect(self.address, 1):
                return
            time.sleep(0.1)
        raise Failure("Redis did not come up")


class Etcd(Process):
    """An etcd of one member, over a folder. Each transaction is one request to its HTTP/JSON gateway."""

    name = "etcd"

    def __init__(self, program, folder, **more):
        client, peer = (f"http://127.0.0.1:{free_port()}" for _ in range(2))
        self.address = client.removeprefix("http://")
        words = [program, "--data-dir", os.path.join(folder, "etcd"), "--listen-client-urls", client, "--advertise-client-urls", client]
        words += ["--listen-peer-urls", peer, "--initial-advertise-peer-urls", peer, "--initial-cluster", f"default={peer}"]
        super().__init__([*words, "--logger", "zap", "--log-outputs", os.devnull], stdout=subprocess.DEVNULL, stderr=subprocess.DEVNULL, **more)
        for _ in range(100):
            with contextlib.suppress(OSError), urllib.request.urlopen(f"{client}/health", timeout=1) as reply:
                if b"true" in reply.read():
                    return
            time.sleep(0.1)
        self.stop()
        raise Failure("etcd did not come up")


def count_records(program, data):
    words = run([program, "check", "--data", data]).split()
    if words[0:1] != ["records"]:
        raise Failure(f"check printed {words}")
    return int(words[1])


def find_postgres(wanted):
    """The folder of PostgreSQL's programs: the one that is wanted, else that of the path, else the newest. None where there is none."""
    newest_first = sorted(glob.glob("/usr/lib/postgresql/*/bin"), key=lambda path: float(path.split("/")[-2]), reverse=True)
    on_path = shutil.which("postgres")
    folders = [wanted] if wanted else [os.path.dirname(os.path.realpath(on_path))] * bool(on_path) + newest_first
    needed = ("postgres", "initdb", "psql")
    return next((it for it in folders if all(os.access(os.path.join(it, name), os.X_OK) for name in needed)), None)


POSTGRES_SETTINGS = {
    "fsync": "on",
    "synchronous_commit": "on",
    "full_page_writes": "on",
    "shared_buffers": "512MB",
    "max_wal_size": "4GB",
    "checkpoint_timeout": "30min",
    "max_connections": "200",
    "max_pred_locks_per_transaction": "1024",
}

FILL_POSTGRES = """
CREATE TABLE kv (k bytea PRIMARY KEY, v bytea NOT NULL) WITH (fillfactor = 70);
INSERT INTO kv SELECT convert_to(t, 'UTF8'), convert_to(rpad(t, {value_bytes}, 'x'), 'UTF8')
    FROM (SELECT 'k' || lpad(i::text, 8, '0') AS t FROM generate_series(0, {keys} - 1) AS i) AS texts;
VACUUM ANALYZE kv;
CHECKPOINT;
"""


def postgres_user():
    try:
        return pwd.getpwnam("postgres")
    except KeyError:
        raise Failure("PostgreSQL does not run as root, and there is no user postgres") from None


class Postgres(Process):
    """A PostgreSQL over a cluster of its own, filled with the keys. It runs as the user `postgres` where this process is root."""

    name = "postgres"

    def __init__(self, programs, folder, keys, value_bytes, environment=None):
        self.programs = programs
        self.environment = environment
        self.folder = tempfile.mkdtemp(prefix="ssikvd-bench-pg-", dir=folder)
        self.as_user = {"cwd": self.folder}
        try:
            if os.geteuid() == 0:
                user = postgres_user()
                os.chown(self.folder, user.pw_uid, user.pw_gid)
                self.as_user |= {"user": user.pw_uid, "group": user.pw_gid, "extra_groups": []}
            self.start()
            statements = FILL_POSTGRES.format(keys=keys, value_bytes=value_bytes)
            for statement in statements.strip().split(";\n"):
                self.psql(statement)
        except BaseException:
            if hasattr(self, "process"):
                self.stop()
            shutil.rmtree(self.folder)
            raise

    def __exit__(self, *_):
        self.stop()
        shutil.rmtree(self.folder)

    def start(self):
        data, port = os.path.join(self.folder, "data"), free_port()
        initdb = [self.program("initdb"), "-D", data, "-U", "postgres", "-A", "trust", "-N", "--locale=C", "-E", "UTF8"]
        run(initdb, **self.as_user)
        with open(os.path.join(data, "postgresql.conf"), "a") as settings:
            settings.writelines(f"{name} = {value}\n" for name, value in POSTGRES_SETTINGS.items())
            settings.write("listen_addresses = '127.0.0.1'\nunix_socket_directories = ''\n")
        self.address = f"127.0.0.1:{port}"
        self.port = port
        with open(os.path.join(self.folder, "log"), "wb") as log:
            words = [self.program("postgres"), "-D", data, "-p", str(port)]
            super().__init__(words, stop_signal=signal.SIGINT, stdout=log, stderr=log, env=self.environment, **self.as_user)
        self.wait_until_up()

    def wait_until_up(self):
        for _ in range(300):
            if not self.is_running():
                raise Failure(f"PostgreSQL did not start; see {self.folder}/log")
            try:
                self.psql("SELECT 1")
                return
            except Failure:
                time.sleep(0.1)
        raise Failure("PostgreSQL did not come up")

    def program(self, name):
        return os.path.join(self.programs, name)

    def psql(self, statement):
        words = ["psql", "-h", "127.0.0.1", "-p", str(self.port), "-U", "postgres", "-d", "postgres", "-qAt", "-v", "ON_ERROR_STOP=1"]
        return run([self.program(words[0]), *words[1:], "-c", statement], **self.as_user).strip()
