"""The proxies of examples/proxies in front of `serve`: stunnel, haproxy and ssh with the configurations that stand there.

The commands of their document are typed into a shell. Then: no authority is replaced by a second run; a client without a certificate, or with a
foreign one, is refused; a silent client is disconnected and its transaction aborted; the clients beyond the limit wait and are served; the health
check finds the server up and down; a server that is drained serves those that are connected and nobody else; the tunnel leads to one port alone.
For each of these but the first the configuration is also changed, or the server ended, so that the check must see it. What isn't installed is left
out, and a line says so. Ports are other, free ones.

`quick` waits for one second where `long` also waits in vain.
"""
import contextlib
import functools
import getpass
import os
import pwd
import shutil
import socket
import ssl
import subprocess
import sys
import threading
import time

import documents
from ssikvd_harness.arguments import is_long, run_harness
from ssikvd_harness.cases import Harness
from ssikvd_harness.deviations import Deviation, expect, wait_for
from ssikvd_harness.examples import simple_client
from ssikvd_harness.server import Server, create, folder, free_port
from ssikvd_harness.settings import PATIENCE, PROGRAM, TOP, bytes_of, text_of

FOLDER = os.path.join(TOP, "examples", "proxies")
DOCUMENT = "examples/proxies/README.md"
sys.path.insert(1, FOLDER)

import tls_client    # noqa: E402

DEBIAN = {"stunnel": "stunnel4", "haproxy": "haproxy", "sshd": "openssh-server", "ssh": "openssh-client", "redis-cli": "redis-tools",
          "openssl": "openssl"}
SBIN = os.environ.get("PATH", "") + ":/usr/sbin:/sbin"


def program(name):
    return shutil.which(name, path=SBIN)


def are_there(what, *names):
    """Are these programs installed? Where one is not, a line says what is left out."""
    gone = [DEBIAN[name] for name in names if not program(name)]
    if gone:
        print(f"  {what}: not run, for want of {' and '.join(gone)} (Debian's)", flush=True)
    return not gone


# What a proxy needs

@contextlib.contextmanager
def trial(tally, what):
    """One run over a server of its own, in which a refusal that isn't looked for is a deviation. Yields a folder and the server."""
    with tally.run(what), folder() as place:
        data = os.path.join(place, "data")
        create(data, 1_024)
        with Server(data) as server:
            try:
                yield place, server
            except (simple_client.Refused, simple_client.Lost) as found:
                raise Deviation(f"{type(found).__name__}: {found}") from None


def changed(text, changes):
    """The text with each of these replaced, all of which must be in it."""
    for old, new in changes.items():
        expect(old in text, f"there is no {old!r} in the configuration")
        text = text.replace(old, new)
    return text


def write(place, name, changes, more=""):
    """Writes a configuration of examples/proxies with changes into the folder."""
    with open(os.path.join(FOLDER, name), encoding="utf-8") as file:
        text = changed(file.read(), changes) + more
    path = os.path.join(place, name)
    with open(path, "w", encoding="utf-8") as file:
        file.write(text)
    return path


@contextlib.contextmanager
def running(words, place, port):
    """A proxy that listens at the port. It is ended by its own handle."""
    with open(os.path.join(place, words[0] + ".said"), "w+b") as said:
        process = subprocess.Popen([program(words[0]), *words[1:]], cwd=place, stdin=subprocess.DEVNULL, stdout=said, stderr=said)
        try:
            wait_for(lambda: answers(port) or process.poll() is not None, f"{words[0]} does not listen")
            said.seek(0)
            expect(process.poll() is None, f"{words[0]} ended: {said.read()[-300:]!r}")
            yield process
        finally:
            process.terminate()
            process.wait(PATIENCE)


def answers(port):
    with socket.socket() as probe:
        return probe.connect_ex(("127.0.0.1", port)) == 0


def client(port, timeout=PATIENCE):
    return simple_client.Client(port, timeout=timeout)


def leave(store):
    """Closes a client's connection."""
    store.replies.close()
    store.socket.close()


def is_served(connect):
    """Is a client served, with a write, a range and a commit?"""
    def work(store):
        store.ask("SET", "a", "1")
        return store.ask("RANGE", "a", "", 10)

    try:
        return connect().transact(work) == [b"a", b"1"]
    except (OSError, simple_client.Lost):
        return False


def seconds_until_closed(store, patience, begun):
    """How long after a moment a client that is silent stays connected; None where it still is."""
    store.socket.settimeout(patience)
    try:
        expect(store.socket.recv(1) == b"", "it was sent something")
    except TimeoutError:
        return None
    except OSError:
        pass
    return time.monotonic() - begun


def silence(connect, server, is_limited):
    """A silent client is disconnected after its second, and the server's session ends; where there is no limit neither happens."""
    before, begun = server.descriptors(), time.monotonic()
    store = connect()
    store.ask("BEGIN")
    passed = seconds_until_closed(store, PATIENCE if is_limited else 3, begun)
    if not is_limited:
        expect(passed is None, f"without a limit it was disconnected after {passed} seconds")
        return
    expect(passed is not None and passed > 0.5, f"a silent client was disconnected after {passed} seconds")
    wait_for(lambda: server.descriptors() <= before, "the session of a silent client did not end")


class Deaf:
    """Stands in for the server: it answers PING alone. It counts the BEGINs that come, and closes each connection."""

    def __init__(self):
        self.begins, self.listener = 0, socket.create_server(("127.0.0.1", 0))
        self.port = self.listener.getsockname()[1]
        threading.Thread(target=self._accept, daemon=True).start()

    def _accept(self):
        with contextlib.suppress(OSError):
            while True:
                link, _ = self.listener.accept()
                with link, contextlib.suppress(OSError):
                    came = link.recv(1 << 16)
                    self.begins += b"BEGIN" in came
                    link.sendall(b"+PONG\r\n" if b"PING" in came else b"")

    def __enter__(self):
        return self

    def __exit__(self, *_):
        self.listener.close()


def sent_once(tally, what, place, through, connect):
    """A request whose connection is lost is not sent a second time by the proxy."""
    with tally.run(f"{what}: a request is sent once"), Deaf() as deaf, through(place, deaf) as port:
        with contextlib.suppress(OSError, simple_client.Lost):
            expect(not connect(port).ask("BEGIN"), "it was answered")
        wait_for(lambda: deaf.begins, "the request did not come")
        time.sleep(0.3)
        expect(deaf.begins == 1, f"the request came {deaf.begins} times")


# The document

def typed(tally):
    """The commands of the document, in a copy whose ports are others."""
    if not are_there(f"the commands of {DOCUMENT}", "stunnel", "haproxy", "redis-cli", "openssl"):
        return
    with folder() as place:
        copy = documents.copy_of(place)
        ports = {port: str(free_port()) for port in ("7777", "7778", "7779")}
        at = os.path.join(copy, "examples", "proxies")
        for name in ("stunnel.conf", "haproxy.cfg"):
            write(at, name, {port: new for port, new in ports.items() if port in example(name)})
        shell = documents.Shell(copy)
        try:
            shell.type(f"cd {at}; export PATH=$PATH:/usr/sbin")
            for command, due in documents.commands(DOCUMENT):
                for port, new in ports.items():
                    command, due = command.replace(port, new), [line.replace(port, new) for line in due]
                with tally.run(f"{DOCUMENT}: {command}"):
                    found = shell.type(command, len(due))
                    expect(found == (due, 0), f"{command} printed {found}, expected {due}")
        finally:
            shell.end()


def example(name):
    """The text of a file of the folder."""
    return text_of(os.path.join("examples", "proxies", name))


def written(tally):
    """The document is written as the others are, and leads nowhere that isn't there."""
    with tally.run(f"the style of {DOCUMENT}"):
        found = documents.paragraphs(text_of(DOCUMENT))
        wide = [cell for cell, is_cell in found if is_cell and len(cell) > documents.CELL_MAX]
        long = [it for text, _ in found for it in documents.sentences(text) if len(it.split()) > documents.WORDS_MAX]
        expect(not wide and not long, f"{wide[:1]} {long[:1]} is too long")
    documents.documents = lambda: [DOCUMENT]
    documents.links(tally)


# TLS

def run_certificates(place, name, user):
    return subprocess.run(["sh", os.path.join(FOLDER, "certificates.sh"), name, "shop.example", user], cwd=place, capture_output=True, check=False)


def certificates(place, name="keys", user="ann"):
    ran = run_certificates(place, name, user)
    expect((ran.returncode, ran.stdout, ran.stderr) == (0, b"", b""), f"certificates.sh ended with {ran}")
    return os.path.join(place, name)


def authorities(tally):
    """An authority isn't replaced by a second run in its folder, also where its key was taken elsewhere or its certificate was."""
    if not are_there("the authority", "openssl"):
        return
    with tally.run("a second authority in one folder"), folder() as place:
        certificates(place)
        for gone in (None, "ca.key", "ca.pem"):
            if gone:
                os.rename(os.path.join(place, "keys", gone), os.path.join(place, gone))
            before = files_of(os.path.join(place, "keys"))
            ran = run_certificates(place, "keys", "bob")
            expect(ran.returncode == 1 and b" is there: " in ran.stderr and b"openssl" not in ran.stderr, f"certificates.sh ended with {ran}")
            expect(files_of(os.path.join(place, "keys")) == before, "it changed what was there")
            if gone:
                os.rename(os.path.join(place, gone), os.path.join(place, "keys", gone))


def files_of(place):
    return {name: bytes_of(os.path.join(place, name)) for name in os.listdir(place)}


class NoCertificate(simple_client.Client):
    """A client over TLS that shows none."""

    def __init__(self, port, keys):
        super().__init__(port, timeout=PATIENCE)
        context = ssl.create_default_context(cafile=os.path.join(keys, "ca.pem"))
        self.socket = context.wrap_socket(self.socket, server_hostname="shop.example")
        self.replies = self.socket.makefile("rb")


@contextlib.contextmanager
def stunnel(place, server, more=None):
    """stunnel with its configuration, and the port where it listens."""
    port = free_port()
    write(place, "stunnel.conf", {"7778": str(port), "7777": str(server.port), **(more or {})})
    with running(["stunnel", "stunnel.conf"], place, port):
        yield port


def tls(tally):
    if not are_there("stunnel", "stunnel", "openssl"):
        return
    with trial(tally, "TLS") as (place, server):
        keys, foreign = certificates(place), certificates(place, "foreign")
        shutil.copy(os.path.join(keys, "ca.pem"), os.path.join(foreign, "ca.pem"))    # it trusts the server, which doesn't trust it
        with stunnel(place, server, {"TIMEOUTidle = 60": "TIMEOUTidle = 1"}) as port:
            expect(is_served(lambda: tls_client.TlsClient(port, "shop.example", keys)), "a client with a certificate is not served")
            expect(not is_served(lambda: NoCertificate(port, keys)), "a client without a certificate is served")
            expect(not is_served(lambda: tls_client.TlsClient(port, "shop.example", foreign)), "a foreign certificate is served")
            expect(not is_served(lambda: tls_client.TlsClient(port, "other.example", keys)), "a server of another name is trusted")
            with contextlib.suppress(OSError, simple_client.Lost):
                expect(not client(port, 2).ask("PING"), "a client without TLS is served")
            silence(lambda: tls_client.TlsClient(port, "shop.example", keys), server, True)
            if program("redis-cli"):
                redis_cli_over_tls(keys, port)
        sent_once(tally, "stunnel", place, stunnel, lambda port: tls_client.TlsClient(port, "shop.example", keys))
        with stunnel(place, server, {"verifyChain = yes": "verifyChain = no", "requireCert = yes": "requireCert = no"}) as port:
            expect(is_served(lambda: NoCertificate(port, keys)), "where none is asked for, a client without a certificate is not served")
            if is_long():
                silence(lambda: NoCertificate(port, keys), server, False)


def redis_cli_over_tls(keys, port):
    words = ["redis-cli", "-p", str(port), "--tls", "--cacert", os.path.join(keys, "ca.pem")]
    own = ["--cert", os.path.join(keys, "client.pem"), "--key", os.path.join(keys, "client.key")]
    for more, is_due in ((own, True), ([], False)):
        ran = subprocess.run([*words, *more], input=b"BEGIN\nGET a\nABORT\n", capture_output=True, timeout=PATIENCE, check=False)
        expect((ran.stdout == b"OK\n1\nOK\n") == is_due, f"redis-cli {'with' if is_due else 'without'} a certificate printed {ran.stdout!r}")


# Limits

@contextlib.contextmanager
def haproxy(place, server, more=None):
    """haproxy with its configuration, and the port where it listens."""
    port = free_port()
    # A check comes soon, and may take as long as one of a real configuration.
    checks = {"inter 2s": "inter 100ms", "timeout connect 5s": "timeout connect 5s\n    timeout check 5s"}
    write(place, "haproxy.cfg", {"7779": str(port), "7777": str(server.port), **checks, **(more or {})})
    with running(["haproxy", "-q", "-f", "haproxy.cfg"], place, port):
        yield port


def state(place):
    """What haproxy's check says of the server, as ("UP", "L7OK")."""
    with socket.socket(socket.AF_UNIX) as link:
        link.settimeout(PATIENCE)
        link.connect(os.path.join(place, "haproxy.socket"))
        link.sendall(b"show stat\n")
        lines = b"".join(iter(lambda: link.recv(1 << 16), b"")).decode().splitlines()
    names = lines[0].lstrip("# ").split(",")
    row = next(dict(zip(names, line.split(","))) for line in lines if line.startswith("store,ssikvd,"))
    return row["status"].split()[0], row["check_status"].lstrip("* ")


def refused_at(clients):
    """The refusal of the first BEGIN that is refused; None where each is answered."""
    for store in clients:
        try:
            store.ask("BEGIN")
        except simple_client.Refused as refusal:
            return str(refusal)
    return None


def limits(tally):
    if not are_there("haproxy", "haproxy"):
        return
    with trial(tally, "the queue of haproxy") as (place, server):
        with haproxy(place, server) as port:
            expect(is_served(lambda: client(port)), "a client is not served")
            wait_for(lambda: state(place) == ("UP", "L7OK"), f"the check says {state(place)}")
            clients = [client(port) for _ in range(60)]
            expect(refused_at(clients) is None, "one of 60 was refused")
            late = client(port)
            late.socket.settimeout(0.5)
            with contextlib.suppress(simple_client.Lost):
                late.ask("BEGIN")
                raise Deviation("the 61st did not wait")
            next_one = client(port)
            next_one.socket.sendall(b"*1\r\n$5\r\nBEGIN\r\n")
            leave(late)
            leave(clients[0])
            expect(next_one.replies.readline() == b"+OK\r\n", "who waited was not served when one left")
            expect(client(server.port).ask("PING") == b"PONG", "a client that bypasses the proxy is not served")
            expect(len(clients) == 60 and server.descriptors() < 60 + 20, f"the server has {server.descriptors()} descriptors")
            server.process.kill()
            wait_for(lambda: state(place)[0] == "DOWN", f"with the server gone the check says {state(place)}")
    with trial(tally, "haproxy without its limit") as (place, server):
        with haproxy(place, server, {" maxconn 60": ""}) as port:
            expect(refused_at([client(port) for _ in range(65)]) == "FULL transactions", "without a limit no BEGIN was refused")
            if is_long():
                silence(lambda: client(port), server, False)
    with folder() as place:
        unchecked = functools.partial(haproxy, more={" check inter 100ms": ""})    # the check sends BEGIN, too
        sent_once(tally, "haproxy", place, unchecked, client)
    with trial(tally, "the idle limit of haproxy") as (place, server):
        with haproxy(place, server, {"timeout client 60s": "timeout client 1s"}) as port:
            wait_for(lambda: state(place) == ("UP", "L7OK"), f"the check says {state(place)}")
            silence(lambda: client(port), server, True)
    if is_long():
        with trial(tally, "the end of haproxy's queue") as (place, server):
            with haproxy(place, server, {"maxconn 60": "maxconn 1", "timeout queue 10s": "timeout queue 1s"}) as port:
                first = client(port)
                first.ask("BEGIN")
                begun = time.monotonic()
                passed = seconds_until_closed(client(port), PATIENCE, begun)
                expect(passed is not None and passed > 0.5, f"who waited was disconnected after {passed} seconds")
                expect(first.ask("ABORT") == b"OK", "the one that was served was disconnected")


def drain(place, *words):
    """drain.py, started in the folder of haproxy's socket."""
    return subprocess.Popen([sys.executable, os.path.join(FOLDER, "drain.py"), *words], cwd=place, stdout=subprocess.PIPE, stderr=subprocess.PIPE, text=True)


def ended(process):
    out, err = process.communicate(timeout=PATIENCE)
    return process.returncode, out, err


def drained(tally):
    """A client in a transaction ends it, one that comes meanwhile is turned away, and one that stays longer is cut."""
    if not are_there("haproxy that is drained", "haproxy"):
        return
    with trial(tally, "haproxy that is drained") as (place, server), haproxy(place, server) as port:
        wait_for(lambda: state(place) == ("UP", "L7OK"), f"the check says {state(place)}")
        store = client(port)
        store.ask("BEGIN")
        store.ask("SET", "a", "1")
        process = drain(place, "drain", "--seconds", str(PATIENCE))
        wait_for(lambda: state(place)[0] == "DRAIN", f"it is {state(place)}")
        expect(not is_served(lambda: client(port)), "who came was served")
        expect(store.ask("COMMIT") == 1 and process.poll() is None, "who was connected couldn't commit")
        leave(store)
        expect(ended(process) == (0, "drained, 0 cut\n", ""), "it wasn't drained")
        expect(ended(drain(place, "ready")) == (0, "", "") and is_served(lambda: client(port)), "it wasn't put back")
    with trial(tally, "haproxy that is drained while clients stay") as (place, server), haproxy(place, server) as port:
        store = client(port)
        store.ask("BEGIN")
        expect(ended(drain(place, "drain", "--seconds", "0.5")) == (0, "drained, 1 cut\n", ""), "it wasn't cut")
        with contextlib.suppress(simple_client.Lost):
            store.ask("COMMIT")
            raise Deviation("it committed")
    with trial(tally, "haproxy that lets nobody drain") as (place, server), haproxy(place, server, {"level admin": "level operator"}):
        status, _, err = ended(drain(place, "drain"))
        expect(status == 1 and "haproxy answered" in err, f"it ended with {status}: {err}")


class At:
    """What listens at a port, in the place of a server."""

    def __init__(self, port):
        self.port = port


def chained(tally):
    """stunnel in front of haproxy."""
    if not are_there("stunnel in front of haproxy", "stunnel", "haproxy", "openssl"):
        return
    with trial(tally, "stunnel in front of haproxy") as (place, server):
        keys = certificates(place)
        with haproxy(place, server) as port, stunnel(place, At(port)) as outer:
            expect(is_served(lambda: tls_client.TlsClient(outer, "shop.example", keys)), "a client through both is not served")


# SSH

@contextlib.contextmanager
def run_folder():
    """The folder that sshd asks for where root starts it. Where it was missing, it is removed again."""
    name = "/run/sshd"
    is_made = os.getuid() == 0 and not os.path.exists(name)
    if is_made:
        os.makedirs(name, 0o755, exist_ok=True)
    try:
        yield
    finally:
        if is_made:
            with contextlib.suppress(OSError):    # another run removed it
                os.rmdir(name)


@contextlib.contextmanager
def sshd(place, server, changes=None):
    """An sshd for this user with the tunnel's rules, and what its clients say to reach it."""
    port = free_port()
    for name in ("host", "own"):
        if not os.path.exists(os.path.join(place, name)):
            subprocess.run(["ssh-keygen", "-q", "-t", "ed25519", "-N", "", "-f", os.path.join(place, name)], check=True)
    shutil.copy(os.path.join(place, "own.pub"), os.path.join(place, "authorized"))
    top = (f"Port {port}\nListenAddress 127.0.0.1\nHostKey {place}/host\nPidFile none\nStrictModes no\nUsePAM no\n"
           f"AuthorizedKeysFile {place}/authorized\n")
    path = write(place, "sshd_tunnel.conf", {"User tunnel": f"User {getpass.getuser()}", "7777": str(server.port), **(changes or {})})
    with open(path, "r+", encoding="utf-8") as file:
        text = file.read()
        file.seek(0)
        file.write(top + text)
    with run_folder(), running(["sshd", "-D", "-e", "-f", path], place, port):
        yield ["ssh", "-F", "none", "-p", str(port), "-i", os.path.join(place, "own"), "-o", f"UserKnownHostsFile={place}/known",
               "-o", "StrictHostKeyChecking=no", "-o", "BatchMode=yes", "-o", "LogLevel=ERROR"]


@contextlib.contextmanager
def tunnel(place, words, target):
    """A tunnel to this port, and the port where it listens."""
    port = free_port()
    to = ["-N", "-L", f"{port}:127.0.0.1:{target}", "-o", "ExitOnForwardFailure=yes", "-o", "ServerAliveInterval=15"]
    with running([*words, *to, f"{getpass.getuser()}@127.0.0.1"], place, port):
        yield port


def ssh(tally):
    if not are_there("ssh", "ssh", "sshd"):
        return
    if os.path.basename(pwd.getpwuid(os.getuid()).pw_shell) in ("nologin", "false"):
        print("  ssh: not run, for want of a user who may log in", flush=True)
        return
    with trial(tally, "the tunnel") as (place, server), sshd(place, server) as words:
        with tunnel(place, words, server.port) as port:
            expect(is_served(lambda: client(port)), "a client through the tunnel is not served")
            ran = subprocess.run([*words, f"{getpass.getuser()}@127.0.0.1", "echo", "ran"], capture_output=True, timeout=PATIENCE, check=False)
            expect(ran.returncode == 1 and not ran.stdout, f"the user of the tunnel ran a command: {ran}")
        with Server(server_of(place)) as other, tunnel(place, words, other.port) as port:
            expect(not is_served(lambda: client(port, 3)), "the tunnel leads to another port")
    with trial(tally, "the tunnel without its rule") as (place, server), sshd(place, server, {"PermitOpen 127.0.0.1": "#"}) as words:
        with Server(server_of(place)) as other, tunnel(place, words, other.port) as port:
            expect(is_served(lambda: client(port)), "without the rule the tunnel does not lead to another port")
        sent_once(tally, "ssh", place, lambda place, deaf: tunnel(place, words, deaf.port), client)


def server_of(place):
    """The data file of a second server."""
    data = os.path.join(place, "other")
    create(data, 64)
    return data


class Proxies(Harness):
    NAME = "proxies"
    NEEDS = (PROGRAM,)
    PARTS = (written, typed, authorities, tls, limits, drained, chained, ssh)


if __name__ == "__main__":
    run_harness()
