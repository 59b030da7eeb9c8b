"""Why a start fails, and what a server does, from outside: `ssikvd-why` and `ssikvd-stat`.

Each cause for which a start fails is provoked: in the folder, the file, its format, room, the locks and the address. What a start needs then refuses,
and `ssikvd-why` names this cause alone, in one line with its cure, and leaves all as it was. Where there is no cause it finds none, also over files
that look odd and aren't wrong. The unit's line runs it where a start failed, and not otherwise.

`ssikvd-stat` reports what was done to a server: commits and keys, connections and their silence, memory, the ages of a backup and of a compaction;
also without `ss`. The probe reports a full log. Each figure of the alert rules is one that a tool writes, and that a unit of dist/ has it write.
"""
import contextlib
import errno
import fcntl
import json
import os
import re
import shutil
import socket
import subprocess
import time

from at_rest import damages, turn
from ssikvd_harness.arguments import run_harness
from ssikvd_harness.cases import Harness
from ssikvd_harness.deviations import expect, is_refused, missing, wait_for
from ssikvd_harness.examples import simple_client
from ssikvd_harness.log_format import SECTOR, log_image
from ssikvd_harness.server import Server, check, create, folder, free_port
from ssikvd_harness.services import Unit
from ssikvd_harness.settings import PATIENCE, PROGRAM, text_of
from ssikvd_harness.tools import DIST, ENVIRONMENT, fill, loaded, operations, tool, within
from ssikvd_harness.units import judge_metrics, names_of_metrics

SECTORS = 512
NOBODY = 65_534
WHY = loaded("ssikvd-why")
IS_ROOT = os.geteuid() == 0
OTHER = {"user": NOBODY, "group": NOBODY, "extra_groups": []} if IS_ROOT else {}    # one whom permissions bind


# Why a start fails

def why(*words, as_nobody=False, before=(), program=None):
    """What `ssikvd-why` answers: within this process, which is faster, or as one of its own where it runs otherwise than here. As another user
    than root where it is asked for, whom permissions bind."""
    if not (as_nobody or before or program):
        return within(WHY, words)
    how = {"capture_output": True, "text": True, "env": ENVIRONMENT, "timeout": PATIENCE, "stdin": subprocess.DEVNULL}
    ran = subprocess.run([*before, program or os.path.join(DIST, "ssikvd-why"), *words], **how, **(OTHER if as_nobody else {}))
    return ran.returncode, ran.stdout, ran.stderr


def expect_causes(found, *due):
    """These causes, each in a line with a cure, and no other."""
    status, out, err = found
    lines = out.splitlines()
    expect(status == 1 and not err and len(lines) == len(due), f"it answered {found}, expected {due}")
    for line, cause in zip(lines, due):
        expect(line.startswith("ssikvd-why: ") and cause in line and "; cure: " in line, f"it says {line!r}, expected {cause!r}")


def expect_none(found, data):
    due = (0, f"ssikvd-why: found nothing that keeps a server of {data} from starting\n", "")
    expect(found == due, f"without a cause it answered {found}")


def cure_of(found):
    """The command behind the first cause."""
    return found[1].splitlines()[0].partition("; cure: ")[2]


def expect_fault(data, text, listen="127.0.0.1:0", as_nobody=False):
    """The program itself doesn't start, with this text."""
    words = [PROGRAM, "serve", "--data", data, "--listen", listen]
    ran = subprocess.run(words, capture_output=True, timeout=PATIENCE, stdin=subprocess.DEVNULL, **(OTHER if as_nobody else {}))
    expect((ran.returncode, ran.stderr) == (3, f"ssikvd: {text}\n".encode()), f"serve ended with {ran.returncode, ran.stderr}")


def image_of(place):
    """All that stands in a folder: names, modes, contents."""
    found = {}
    for name in sorted(os.listdir(place)):
        path = os.path.join(place, name)
        if os.path.isfile(path):
            with open(path, "rb") as file:
                found[name] = os.lstat(path).st_mode, os.lstat(path).st_mtime_ns, file.read()
        else:
            found[name] = os.lstat(path).st_mode
    return found


def writes_nothing(tally):
    """It leaves a folder as it was, whatever it finds there."""
    with store(tally, "what it leaves") as (place, data):
        for size in (SECTOR * SECTORS, 1_000, 0, None):
            os.truncate(data, size) if size is not None else os.remove(data)
            before = image_of(place)
            why("--data", data, "--listen", "127.0.0.1:0")
            expect(image_of(place) == before, "the folder is another one after it")


@contextlib.contextmanager
def store(tally, what):
    """A run with a fresh data file in a folder."""
    with folder() as place, tally.run(what):
        os.chmod(place, 0o755)
        data = os.path.join(place, "shop.data")
        create(data, SECTORS)
        yield place, data


def kinds_of_file(tally):
    with store(tally, "no file") as (place, data):
        os.remove(data)
        expect_fault(data, "file fault")
        found = why("--data", data, "--sectors", "64")
        expect_causes(found, f"there is no file {data}")
        subprocess.run(["sh", "-c", cure_of(found).replace("4194304", "64")], check=True, env={**ENVIRONMENT, "PATH": as_program(place)})
        expect_none(why("--data", data), data)
    with store(tally, "a file that is lost") as (place, data):
        os.rename(data, data + ".old")
        expect(tool("ssikvd-before", data, "64")[0] == 1, "ssikvd-before would start it")
        expect_causes(why("--data", data), f"{data} is missing and was there before")
    with store(tally, "a link that leads nowhere") as (place, data):
        os.rename(data, data + ".away")
        os.symlink("elsewhere", data)
        expect_fault(data, "file fault")
        expect_causes(why("--data", data), f"{data} is a link to elsewhere, where nothing is")
    with store(tally, "links that lead to each other") as (place, data):
        os.remove(data)
        os.symlink("shop.data", data)
        expect_fault(data, "file fault")
        expect_causes(why("--data", data), "Too many levels of symbolic links (ELOOP)")
    for kind, make in (("a folder", os.mkdir), ("a pipe", os.mkfifo)):
        with store(tally, f"{kind} in place of the file") as (place, data):
            os.remove(data)
            make(data)
            expect_causes(why("--data", data), f"{data} is {kind} and no file")
    with store(tally, "a name that is too long") as (place, data):
        long = os.path.join(place, 300 * "a")
        expect_fault(long, "file fault")
        expect_causes(why("--data", long), "File name too long (ENAMETOOLONG)", "File name too long (ENAMETOOLONG)")


def as_program(place):
    """A PATH in which `ssikvd` is the program."""
    commands = os.path.join(place, "commands")
    os.makedirs(commands, exist_ok=True)
    with contextlib.suppress(FileExistsError):
        os.symlink(PROGRAM, os.path.join(commands, "ssikvd"))
    return f"{commands}:{ENVIRONMENT['PATH']}"


def permissions(tally):
    with store(tally, "no right to the file") as (place, data):
        os.chmod(data, 0o400 if IS_ROOT else 0)
        expect_fault(data, "file fault", as_nobody=True)
        expect_causes(why("--data", data, as_nobody=True), f"may not read and write {data}: Permission denied (EACCES)")
    with store(tally, "no right to read the folder") as (place, data):
        os.chmod(data, 0o666)
        os.chmod(place, 0o711 if IS_ROOT else 0o300)
        expect_fault(data, "file fault", as_nobody=True)
        expect_causes(why("--data", data, as_nobody=True), f"may not read the folder {place}, which an opening syncs")
        os.chmod(place, 0o700)
    with store(tally, "no right to the lock") as (place, data):
        os.chmod(data, 0o666)
        with open(data + ".lock", "w", encoding="ascii"):
            os.chmod(data + ".lock", 0)
        expect_causes(why("--data", data, as_nobody=True), f"{data}.lock can't be opened by the user")
    if not in_own_mounts(["true"]):
        missing("a file system that is mounted to be read alone", "the right to mount")
        return
    with store(tally, "a file system to be read alone") as (place, data):
        program = os.path.join(DIST, "ssikvd-why")
        found = in_own_mounts(["sh", "-c", f"mount --bind {place} {place} && mount -o remount,bind,ro {place} && {program} --data {data}"])
        expect_causes(found, "Read-only file system (EROFS)")


def in_own_mounts(words):
    """What a command answers in a mount namespace of its own, or None where none can be made."""
    ran = subprocess.run(["unshare", "-m", *words], capture_output=True, text=True, timeout=PATIENCE, env=ENVIRONMENT)
    return None if "unshare" in ran.stderr or "mount:" in ran.stderr else (ran.returncode, ran.stdout, ran.stderr)


def folders(tally):
    with store(tally, "no folder") as (place, data):
        expect_fault(os.path.join(place, "none", "data"), "file fault")
        found = why("--data", os.path.join(place, "none", "data"))
        expect_causes(found, f"there is no folder {place}/none")
        subprocess.run(["sh", "-c", cure_of(found)], check=True)
        expect(os.path.isdir(os.path.join(place, "none")), "its cure makes none")
        expect_causes(why("--data", os.path.join(data, "data")), f"{data} is no folder")
    with tally.run("a folder that can't be synced"):
        name = "/proc/self/comm"    # of this process, or of the program
        expect_fault(name, "file fault")
        status, out, err = why("--data", name)
        due = "the folder /proc/self can't be synced: Invalid argument (EINVAL)"
        expect(status == 1 and not err and due in out, f"it answered {status, out, err}")


def formats(tally):
    old = log_image([[(b"a", b"b")]], 64).replace(b"SSIKVLG2", b"SSIKVLG1")
    new = log_image([[(b"a", b"b")]], 64)
    cases = {
        "an odd size": (new[:-100], "file fault", "which are no whole number of sectors of 512"),
        "nothing in it": (b"", "not a log", "is empty and no log"),
        "zeros": (bytes(1_024), "not a log", "its first sector is zeros"),
        "a text": (b"hello".ljust(1_024), "not a log", "its first sector is no head"),
        "a head alone": (new[:SECTOR], "not a log", "it has a head and nothing more"),
        "format 1": (old, "old format", "is a log of format 1"),
    }
    for what, (content, text, due) in cases.items():
        with store(tally, f"a file with {what}") as (_, data):
            with open(data, "wb") as file:
                file.write(content)
            expect_fault(data, text)
            expect_causes(why("--data", data), due)
    cures = {
        "an odd size": (new[:-100], ".new", lambda cure: cure.partition(";")[0]), "format 1": (old, "", str),
        "a file that is no log": (bytes(1_024), "", lambda cure: cure.partition("in its place: ")[2].replace("COPY", "$0"))}
    for what, (content, end, command_in) in cures.items():
        with store(tally, f"the cure of {what}") as (place, data):
            copy, environment = os.path.join(place, "copy"), {**ENVIRONMENT, "PATH": as_program(place)}
            write_bytes(copy, new)
            write_bytes(data, content)
            own(data)
            before = owner_and_mode(data)
            subprocess.run(["sh", "-c", "umask 022; " + command_in(cure_of(why("--data", data))), copy], check=True, env=environment, capture_output=True)
            expect_none(why("--data", data + end), data + end)
            expect(owner_and_mode(data + end) == before, f"the server's user has it no longer: {owner_and_mode(data + end)}")
    with store(tally, "the cure of a lost file") as (place, data):
        os.rename(data, data + ".old")
        cure = cure_of(why("--data", data)).partition("in its place: ")[2].partition(";")[0].replace("COPY", "$0")
        subprocess.run(["sh", "-c", cure, data + ".old"], check=True, env=ENVIRONMENT, capture_output=True)
        expect_none(why("--data", data), data)


def write_bytes(name, content):
    with open(name, "wb") as file:
        file.write(content)


def own(data):
    """Makes a file one of the server's user alone, where that may be another."""
    os.chmod(data, 0o600)
    if IS_ROOT:
        os.chown(data, NOBODY, NOBODY)


def owner_and_mode(name):
    found = os.stat(name)
    return found.st_uid, found.st_gid, found.st_mode


def damage(tally):
    with folder() as place:
        whole = os.path.join(place, "whole")
        fill(whole, 12, SECTORS)
        expect_none(why("--data", whole), whole)
        for what, (at, said) in damages(whole).items():
            data = os.path.join(place, what.replace(" ", "-"))
            shutil.copy(whole, data)
            turn(data, at)
            with tally.run(f"a bit of {what} turned over"):
                expect_causes(why("--data", data), "is not a log" if said == "not a log" else f"{data} is damaged: {said}")
        with tally.run("damage without ssikvd-verify"):
            alone = os.path.join(place, "alone")
            os.mkdir(alone)
            shutil.copy(os.path.join(DIST, "ssikvd-why"), alone)
            ran = subprocess.run([os.path.join(alone, "ssikvd-why"), "--data", data], capture_output=True, text=True, timeout=PATIENCE,
                                 env={**os.environ, "PATH": "/usr/bin:/bin"})
            expect(ran.returncode in (0, 1) and not ran.stderr, f"it answered {ran.returncode, ran.stderr}")


def room(tally):
    program = os.path.join(DIST, "ssikvd-why")
    if not in_own_mounts(["true"]):
        missing("full disks", "the right to mount")
    else:
        copied = "cp --sparse=always $1 $0/a"
        cases = {
            "no room for a file to be made": ("64k", f"{program} --data $0/a --sectors 1024", f"of {1024 * SECTOR} bytes", 2),
            "no room for a size": ("64k", f"{program} --data $0/a --sectors 2MiB", f"of {2 ** 21} bytes", 2),
            "no room for the holes of a file": ("64k", f"{copied} && : >$0/a.lock && {program} --data $0/a", "that the disk has not yet", 1),
            "no inode": ("64k,nr_inodes=2", f"{copied} && {program} --data $0/a", "has no inode left", 2),
        }
        for what, (options, script, due, count) in cases.items():
            with store(tally, what) as (place, data):
                disk = os.path.join(place, "disk")
                os.mkdir(disk)
                status, out, err = in_own_mounts(["sh", "-c", f"mount -t tmpfs -o size={options} none $0 && {script}", disk, data])
                expect(status == 1 and not err and due in out and len(out.splitlines()) == count, f"it answered {status, out, err}")
    with store(tally, "a limit on the size of files") as (_, data):
        before = ["prlimit", "--fsize=100000"]
        expect_causes(why("--data", data, before=before), "files may have 100000 bytes at most here")


def locks(tally):
    for due, end in (("the lock", ".lock"), ("the lock of the folder", None)):
        with store(tally, f"{due} is held") as (place, data):
            name = data + end if end else place
            holder = subprocess.Popen(["flock", "-F", name, "sleep", "60"])
            try:
                wait_until_held(name)
                if end:
                    expect(tool("flock", "-n", "-F", "-E", "75", name, "true")[0] == 75, "a server would start")
                expect_causes(why("--data", data), f"{due} {name} is held by process {holder.pid} (sleep)")
            finally:
                holder.kill()
                holder.wait()
            expect_none(why("--data", data), data)


def wait_until_held(name):
    wait_for(lambda: tool("flock", "-n", "-E", "75", name, "true")[0] == 75, "the lock isn't taken")


def addresses(tally):
    cases = {
        "localhost:7777": "is not numeric", ":7777": "is not ADDRESS:PORT", "7777": "is not ADDRESS:PORT", "127.0.0.1": "is not ADDRESS:PORT",
        "127.0.0.1:+7": "is not ADDRESS:PORT", "127.0.0.1:99999": "is above 65535", "127.1:7777": "is not numeric",
        "::1:7777": "one of IPv6 needs brackets",
        "198.51.100.7:7777": "is none of this machine's",
    }
    for address, due in cases.items():
        with store(tally, f"the address {address}") as (_, data):
            expect_fault(data, "listen fault", address)
            expect_causes(why("--data", data, "--listen", address), due)
    with store(tally, "a port that a server has") as (place, data):
        other = os.path.join(place, "other")
        create(other, 64)
        with Server(other) as server:
            address = f"127.0.0.1:{server.port}"
            expect_fault(data, "listen fault", address)
            expect_causes(why("--data", data, "--listen", address), f"the address {address} is taken by process {server.process.pid} (")
            if IS_ROOT:
                os.chmod(data, 0o666)
                expect_causes(why("--data", data, "--listen", address, as_nobody=True), "is taken by a process that is not seen by the user")
            expect(server.is_alive() and tool("ssikvd-probe", address)[0] == 0, "the other server is disturbed")
    with store(tally, "a port that somebody has at all addresses") as (_, data), socket.socket() as link:
        link.bind(("0.0.0.0", 0))
        link.listen()
        address = f"127.0.0.1:{link.getsockname()[1]}"
        expect_causes(why("--data", data, "--listen", address), f"taken by process {os.getpid()} (")
    with open("/proc/sys/net/ipv4/ip_unprivileged_port_start", encoding="ascii") as file:
        is_bound = int(file.read()) > 7
    if is_bound:
        with store(tally, "a port below 1024") as (_, data):
            os.chmod(data, 0o666)
            expect_fault(data, "listen fault", "127.0.0.1:7", as_nobody=True)
            expect_causes(why("--data", data, "--listen", "127.0.0.1:7", as_nobody=True), "a port below 1024")
    else:
        missing("a port below 1024", "a system that forbids it")


def no_cause(tally):
    """What looks odd and keeps nothing from starting."""
    with store(tally, "nothing wrong") as (place, data):
        port = free_port()
        for address in (f"127.0.0.1:{port}", f"127.0.0.1:0{port}", "0.0.0.0:0", "127.0.0.1:0"):
            expect_none(why("--data", data, "--listen", address), data)
        link = os.path.join(place, "link")
        os.symlink(data, link)
        open(data + ".lock", "w", encoding="ascii").close()
        for name in (link, data):
            expect_none(why("--data", name), name)
        with Server(data, listen=f"127.0.0.1:{port}"):
            time.sleep(0.1)
        with Server(data, listen=f"127.0.0.1:{port}") as server:
            expect(server.is_listening(), "it doesn't start")
    with store(tally, "a refused command line") as (_, data):
        for words in (["--listen", "127.0.0.1:0"], ["--data", data, "--sectors", "many"], ["--data", data, "--sectors", "1XiB"]):
            expect(why(*words)[0] == 2, f"it took {words}")


def unit_line(place):
    """The unit's line for a start that failed, as systemd would run it over this folder."""
    with open(os.path.join(DIST, "ssikvd@.service"), encoding="utf-8") as file:
        found = re.search(r"^ExecStopPost=-(.*)$", file.read(), re.M)
    expect(found, "the unit has no line")
    asked = {"%i": "shop", "/var/lib/ssikvd": place, "${SECTORS}": "64", "${LISTEN}": "localhost:1"}
    line = found[1]
    for word, meant in asked.items():
        line = line.replace(word, meant)
    name, *words = line.split()
    return [os.path.join(DIST, name), *words]


def the_unit(tally):
    """A start that failed is reported in the journal; an end that was asked for, or by a signal, isn't."""
    for result, due in (("exit-code", 1), ("success", 0), ("signal", 0)):
        with store(tally, f"the unit after {result}") as (place, data):
            os.truncate(data, 1_000)
            ran = subprocess.run(unit_line(place), capture_output=True, text=True, timeout=PATIENCE, env={**ENVIRONMENT, "SERVICE_RESULT": result})
            expect(ran.returncode == due and not ran.stderr and ran.stdout.count("ssikvd-why: ") == 2 * due, f"it answered {ran}")


def sizes(tally):
    """A size is as many sectors here as in the tools in shell, and what is none here is none there."""
    with folder() as place:
        data = os.path.join(place, "shop.data")
        for text in ("64", "32KiB", "1.5MiB", "1.0001MiB", ".5MiB", "0.7KiB", "1.0000001KiB", "1.MiB", "1XiB", "1e1KiB", "-1MiB", "nanMiB", "MiB", "1mib"):
            with tally.run(f"the size {text}"):
                made = check(data)[3] if tool("ssikvd-before", data, text)[0] == 0 else None
                with contextlib.suppress(FileNotFoundError):
                    os.remove(data)
                try:
                    found = WHY.sectors(text)
                except ValueError:
                    found = None
                expect(made == found, f"ssikvd-before makes {made} sectors, ssikvd-why takes {found}")
    with store(tally, "the unit with a part of a size") as (place, data):
        os.remove(data)
        ran = tool("ssikvd-before", "--failed", data, "1.5MiB", "127.0.0.1:0")
        expect(ran[0] == 1 and not ran[2] and f"there is no file {data}" in ran[1], f"it answered {ran}")


# The probe

def expect_probe(found, status, *texts):
    """One line with this status and these texts."""
    expect(found[0] == status and found[1].count("\n") == 1 and not found[2], f"the probe answered {found}")
    expect(all(text in found[1] for text in texts), f"the probe says {found[1]!r}, expected {texts}")


def probes(tally):
    """The probe reports the fill of a log, and why the connection beyond 128 is closed."""
    with folder() as place:
        data, state = os.path.join(place, "data"), os.path.join(place, "state")
        create(data, 64)
        with Server(data) as server:
            words = "ssikvd-probe", "--used", "50", "--data", data, f"127.0.0.1:{server.port}"
            with tally.run("the probe of an empty log"):
                expect_probe(tool(*words), 0, "SSIKVD OK: transactions begin; 2 of 64 sectors are used | time=")
            put(server.port, 15)
            with tally.run("the probe of half a log"):
                expect_probe(tool(*words), 1, "SSIKVD WARNING: 32 of 64 sectors are used; transactions begin | time=")
                expect_probe(tool(*words, "--used", "51"), 0)
            with tally.run("the probe from where ssikvd-used stopped"):
                expect(tool("ssikvd-used", "--state", state, data)[0] == 0, "it failed")
                put(server.port, 15)
                expect_probe(tool(*words, "--state", state), 1, "62 of 64 sectors")
            with tally.run("the probe of a full log"):
                put(server.port, 1)
                expect_probe(tool(*words), 2, "SSIKVD CRITICAL: the log is full: 64 of 64 sectors are used; transactions begin | time=")
                expect_probe(tool(words[0], words[-1]), 0)
            with tally.run("the probe of a file that is gone"):
                expect_probe(tool(*words[:3], "--data", data + "x", words[-1]), 2, "No such file or directory; transactions begin")
            with tally.run("the probe with 128 connections open"), connected(server.port, 128):
                expect_probe(tool("ssikvd-probe", words[-1]), 2, "perhaps since 128 are open")


# What a server does

def stat(*words, environment=ENVIRONMENT):
    """What `ssikvd-stat` answers, which ends with status 0."""
    status, out, err = tool("ssikvd-stat", *words, environment=environment)
    expect((status, err) == (0, ""), f"it answered {status, out, err}")
    return out


def figures(text):
    """The figures of Prometheus's text, by their names without `ssikvd_stat_`."""
    return {name: float(value) for name, value in re.findall(r"^ssikvd_stat_(\w+)\{data=\"[^\"]+\"\} (\S+)$", text, re.M)}


def without_ss(place):
    """An environment in which there is no `ss`, but Python."""
    commands = os.path.join(place, "without")
    os.makedirs(commands, exist_ok=True)
    with contextlib.suppress(FileExistsError):
        os.symlink("/usr/bin/env", os.path.join(commands, "env"))
    return {**ENVIRONMENT, "PATH": f"{DIST}:{commands}"}


@contextlib.contextmanager
def locked_server(data):
    """A server that holds its lock, as units have it: its process and its port."""
    words = ["flock", "-n", "-F", "-E", "75", data + ".lock", PROGRAM, "serve", "--data", data, "--listen", "127.0.0.1:0"]
    with subprocess.Popen(words, stdin=subprocess.DEVNULL, stdout=subprocess.PIPE) as process:
        try:
            yield process.pid, int(process.stdout.readline().rsplit(b":", 1)[1])
        finally:
            process.kill()


def judge_process(found, process):
    """What is reported of the process is what /proc says."""
    with open(f"/proc/{process}/status", encoding="ascii") as file:
        resident = 1_024 * int(re.search(r"VmRSS:\s+(\d+)", file.read())[1])
    expect(abs(found["resident_memory_bytes"] - resident) <= 4 << 20, f"{found['resident_memory_bytes']} bytes in place of {resident}")
    expect(found["open_descriptors"] == len(os.listdir(f"/proc/{process}/fd")), f"it has {found['open_descriptors']} descriptors")
    expect(found["processor_seconds_total"] < 20 and found["max_descriptors"] >= 64, f"it said {found}")


def judge_unseen(process, port):
    """Where the descriptors of the server aren't seen, as many are counted as there are."""
    module = loaded("ssikvd-stat")
    due = module.descriptors(process, port, True)
    own, module.os.listdir = module.os.listdir, refuse_descriptors
    try:
        found = module.descriptors(process, port, True)
    finally:
        module.os.listdir = own
    inherited = len([name for name in os.listdir(f"/proc/{process}/fd") if int(name) > 2 and not os.readlink(f"/proc/{process}/fd/{name}").startswith(
        ("socket:", "anon_inode:[eventpoll]", "/"))])
    expect(found == due - inherited, f"{found} are counted, {due} there are, {inherited} of them this harness's")


def refuse_descriptors(_):
    raise PermissionError(errno.EACCES, os.strerror(errno.EACCES))


def stats(tally):
    """Each figure is what was done."""
    with folder() as place:
        data, state, copy = (os.path.join(place, name) for name in ("shop.data", "state", "copy"))
        create(data, SECTORS)
        with locked_server(data) as (process, port):
            words = "--data", data, "--listen", f"127.0.0.1:{port}", "--state", state, "--prometheus"
            with tally.run("a server that does nothing"):
                text = stat(*words)
                judge_metrics(text)
                found = figures(text)
                expect((found["connections"], found["log_sectors_used"], found["log_sectors"]) == (0, 2, SECTORS), f"it said {found}")
                expect("commits_per_minute" not in found and "backup_age_seconds" not in found, f"it knows what it can't: {found}")
                judge_process(found, process)
            with tally.run("descriptors that aren't seen"), connected(port, 3):
                judge_unseen(process, port)
            with tally.run("commits and keys"):
                before = age_state(state, 60.0)
                put(port, 30)
                found = figures(stat(*words))
                elapsed = (found["time_seconds"] - before) / 60
                made = found["commits_per_minute"] * elapsed, found["keys_written_per_minute"] * elapsed
                expect(all(abs(count - 30) < 2 for count in made) and found["log_sectors_used"] == 62, f"it said {found}")
                due = (SECTORS - 62) / (60 / (60 * elapsed))
                expect(abs(found["full_seconds"] - due) < due / 10, f"{found['full_seconds']} in place of {due}")
            with tally.run("connections, and the silent one"), connected(port, 3):
                time.sleep(0.3)
                with connected(port, 1):
                    found = figures(stat(*words))
                    age_state(state, 500.0)
                    later = figures(stat(*words))
                expect(found["connections"] == later["connections"] == 4 and later["open_seconds"] >= 500, f"it said {found}, {later}")
                if shutil.which("ss"):
                    expect(0.3 <= found["idle_seconds"] < 20 and found["open_seconds"] >= 0.3, f"it said {found}")
                else:
                    missing("the silence of connections", "ss")
                found = figures(stat(*words, environment=without_ss(place)))
                expect(found["connections"] >= 3 and "idle_seconds" not in found, f"without ss it said {found}")
            with tally.run("the age of the backup"):
                expect(tool("ssikvd-ship", data, copy)[0] == 0, "it failed")
                os.utime(copy, (1, time.time() - 100))
                expect(figures(stat(*words, "--backup", copy))["backup_age_seconds"] == 0, "a whole copy has an age")
                put(port, 1)
                expect(99 < figures(stat(*words, "--backup", copy))["backup_age_seconds"] < 160, "it has another age")
            with tally.run("the age of the compaction"):
                os.link(data, data + ".old")
                expect(figures(stat(*words))["compaction_age_seconds"] < 60, "it has another age")
            with tally.run("the table, without a state"):
                lines = stat(*words[:4], "--interval", "0.1").splitlines()
                due = {"connections             0 of 128", "commits a minute        0.0", "sectors used            64"}
                expect(len(lines) == 13 and due <= set(lines), f"it printed {lines}")
            with tally.run("metrics in a file"):
                name = os.path.join(place, "metrics")
                expect(stat(*words[:-1], "--metrics", name) == "" and figures(open(name, encoding="utf-8").read()), "it wrote none")
                expect(os.stat(name).st_mode & 0o777 == 0o644 and not [it for it in os.listdir(place) if it.startswith(".")], "it left something")
            links(tally, place, words)
            unwritten(tally, place, words)
        with tally.run("no server"):
            status, out, err = tool("ssikvd-stat", *words)
            expect(status == 1 and "log_sectors" in out and "no process holds" in err, f"it answered {status, out, err}")
        with tally.run("no log"):
            os.truncate(data, 100)
            status, out, err = tool("ssikvd-stat", *words)
            expect((status, out) == (2, "") and "not a log" in err, f"it answered {status, out, err}")
            expect(tool("ssikvd-stat", "--data", data, "--listen", "7777")[0] == 2, "it took the address")


def age_state(state, seconds):
    """Makes the previous look older by this many seconds: when it was, now."""
    with open(state, encoding="utf-8") as file:
        found = json.load(file)
    found["log"]["time"] -= seconds
    found["seen"] = {peer: then - seconds for peer, then in found["seen"].items()}
    with open(state, "w", encoding="utf-8") as file:
        json.dump(found, file)
    return found["log"]["time"]


def unwritten(tally, place, words):
    """The file that can't be written is named, with its folder, and not the data file."""
    state, absent = os.path.join(place, "full"), os.path.join(place, "absent", "full")
    for option in ("--state", "--metrics"):
        for name, limit, due in ((state, "0", "File too large"), (absent, "unlimited", "No such file or directory")):
            with tally.run(f"{option}: {due}"):
                found = tool("sh", "-c", f"ulimit -f {limit}; exec ssikvd-stat \"$@\"", "sh", *words[:4], "--interval", "0", option, name)
                expect(found[0] == 2 and found[2].startswith(f"ssikvd-stat: {name}: {due}"), f"it answered {found}")
                expect(not os.path.lexists(name + ".tmp"), "it left what it couldn't write")


def links(tally, place, words):
    """Where the state is a link that another user planted, or no state at all, what it leads to stays as it was."""
    with tally.run("a state that is a link"):
        victim, state = os.path.join(place, "victim"), os.path.join(place, "planted")
        with open(victim, "w", encoding="utf-8") as file:
            file.write("[1]")
        os.symlink(victim, state)
        stat(*words[:4], "--state", state)
        with open(victim, encoding="utf-8") as file:
            expect(file.read() == "[1]" and not os.path.islink(state), "what the link leads to was changed")


def figures_of_rules():
    """The figures that the alert rules rest on."""
    with open(os.path.join(DIST, "alerts.yml"), encoding="utf-8") as file:
        return set(re.findall(r"\bssikvd_[a-z]+_\w+", re.sub(r"(?m)^#.*|summary:.*", "", file.read())))


def alerts(tally):
    """Each figure that a rule names is written by a tool, and each alert is in docs/OPERATIONS.md."""
    with open(os.path.join(DIST, "alerts.yml"), encoding="utf-8") as file:
        text = file.read()
    with tally.run("the figures of the alert rules"):
        named = figures_of_rules()
        due = names_of_metrics()
        expect(len(named) > 10 and named <= due, f"the rules name {sorted(named - due)}")
    with tally.run("the alerts in docs/OPERATIONS.md"):
        lost = [name for name in re.findall(r"alert: (\w+)", text) if f"`{name}`" not in operations()]
        expect(not lost, f"it lacks {lost}")


def of_units(tally):
    """The services of figures and of backups write each figure that a rule rests on. Where there is no backup, its age alone is missing."""
    with folder() as place:
        data, copies, metrics = (os.path.join(place, name) for name in ("shop.data", "copies", "metrics"))
        create(data, SECTORS)
        os.mkdir(copies)
        os.mkdir(metrics)
        os.link(data, data + ".old")    # as a compaction leaves one
        with locked_server(data) as (_, port):
            settings = {"LISTEN": f"127.0.0.1:{port}", "METRICS": metrics, "BACKUPS": copies}
            with tally.run("the figures of the unit without a backup"):
                written = run_unit("ssikvd-used", place, settings)
                expect({"ssikvd_stat_connections", "ssikvd_stat_compaction_age_seconds"} <= written, f"it writes {sorted(written)}")
                expect("ssikvd_stat_backup_age_seconds" not in written, "it writes the age of a backup that isn't there")
            with tally.run("the figures of the units"):
                put(port, 1)
                run_unit("ssikvd-ship", place, settings)
                named = figures_of_rules()
                lost = named - run_unit("ssikvd-used", place, settings)
                expect(len(named) > 10 and not lost, f"the units never write {sorted(lost)}, which the rules name")


def run_unit(name, place, settings):
    """Runs the commands of a service over the files of this folder: the names of all figures that are written then."""
    unit = Unit(name, "shop", settings)
    for line in unit.commands["ExecStart"]:
        words = [word.replace("/var/lib/ssikvd/", place + "/") for word in unit.words(line)]
        ran = tool(*words)
        expect(ran[0] == 0, f"{words} answered {ran}")
    texts = [text_of(os.path.join(settings["METRICS"], it)) for it in os.listdir(settings["METRICS"])]
    return {found for text in texts for found in re.findall(r"^(ssikvd_\w+)[{ ]", text, re.M)}


def put(port, count):
    """Makes this many commits of one small key."""
    store = simple_client.Client(port)
    for number in range(count):
        store.transact(lambda store, number=number: store.ask("SET", "a", number))
    store.socket.close()


@contextlib.contextmanager
def connected(port, count):
    """This many connections that the server has taken."""
    with contextlib.ExitStack() as held:
        for _ in range(count):
            client = simple_client.Client(port)
            held.callback(client.socket.close)
            client.ask("PING")
        yield


def show_that_they_fail(tally):
    """A `ssikvd-why` that looks at no lock, or finds what isn't there, is reported."""
    with open(os.path.join(DIST, "ssikvd-why"), encoding="utf-8") as file:
        text = file.read()
    wrong = {"one that looks at no lock": ("fcntl.flock(file, ", "int("), "one that finds what isn't there": ("if size % SECTOR:", "if True:")}
    for what, (old, new) in wrong.items():
        with store(tally, f"{what} is reported") as (place, data), open(data, "rb") as held:
            expect(old in text, "it can't be planted")
            program = os.path.join(place, "why")
            with open(program, "w", encoding="utf-8") as file:
                file.write(text.replace(old, new))
            os.chmod(program, 0o755)
            os.link(data, data + ".lock")
            fcntl.flock(held, fcntl.LOCK_EX)
            expect_causes(why("--data", data), f"the lock {data}.lock is held by process {os.getpid()} (")
            expect(is_refused(lambda: expect_causes(why("--data", data, program=program), "is held by process")), "it isn't reported")


class StatAndWhy(Harness):
    NAME = "stat_and_why"
    NEEDS = (PROGRAM,)
    PARTS = (
        writes_nothing, kinds_of_file, permissions, folders, formats, damage, room, locks, addresses, no_cause, the_unit, sizes, probes,
        stats, alerts, of_units, show_that_they_fail)


if __name__ == "__main__":
    run_harness()
