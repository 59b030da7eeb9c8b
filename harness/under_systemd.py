"""The package under systemd: units started, killed and timed in a machine of its own.

The machine is booted by systemd-nspawn from a copy of this system that is thrown away: what is written goes to a folder of its own, it has a network
of its own, and of the units that are enabled here it starts none. The package is built, installed, upgraded, removed and purged there. Between these
a server is started, killed, started twice and found again after the machine was killed; started without its file, over a damaged file and one that is
full; compacted and shipped by the timers while clients write, and by the watch between their looks, compacted on a full disk and killed while it is
compacted, and restored. A server that an operator stopped stays stopped. Each commit that was acknowledged must be there. Finally, units with a planted fault are shown to the same judges.

It has no quick form. It needs root, systemd-nspawn (Debian's systemd-container), debhelper and an overlay file system, and says what it lacks.
"""
import contextlib
import glob
import os
import re
import shutil
import signal
import subprocess
import sys
import tempfile
import time

import installing
from ssikvd_harness.arguments import run_harness
from ssikvd_harness.cases import Harness
from ssikvd_harness.deviations import Deviation, expect, wait_for
from ssikvd_harness.examples import simple_client
from ssikvd_harness.log_format import SECTOR, log_of, map_of
from ssikvd_harness.server import folder
from ssikvd_harness.settings import PATIENCE
from ssikvd_harness.tools import commit, lacking
from following import count_of, judge_kept, writers

SLOWLY = 3 * PATIENCE    # what systemd does may take so long
FOLDER = "/var/lib/ssikvd/"
BACKUPS = "/var/lib/ssikvd-backups/"
PORTS = {"shop": 7777, "hurt": 7801, "small": 7802, "tight": 7803, "wrong": 7804, "apart": 7805}
# A line of its journal that each failure to start must leave.
SAYS_MISSING, SAYS_DAMAGED, SAYS_TAKEN = "is missing and was there before", "damaged record 1", "is taken by"


class Machine:
    """A booted copy of this system."""

    def __init__(self, place):
        self.place, self.root, self.process, self.leader = place, os.path.join(place, "root"), None, None
        for name in ("upper", "work", "root"):
            os.mkdir(os.path.join(place, name))
        installing.done(["mount", "-t", "overlay", "overlay", self.root, "-o", f"lowerdir=/,upperdir={place}/upper,workdir={place}/work"])
        units = os.path.join(self.root, "etc/systemd/system")
        for name in [*glob.glob(units + "/*.wants"), *glob.glob(self.root + "/etc/rc?.d")]:
            shutil.rmtree(name)
        for name in ("systemd-networkd.service", "systemd-udevd.service", "systemd-resolved.service", "console-getty.service"):
            with contextlib.suppress(FileExistsError):
                os.symlink("/dev/null", os.path.join(units, name))
        for name, text in (("etc/fstab", ""), ("usr/sbin/policy-rc.d", None)):
            with contextlib.suppress(FileNotFoundError):
                os.remove(os.path.join(self.root, name))
            if text is not None:
                with open(os.path.join(self.root, name), "w", encoding="ascii") as file:
                    file.write(text)

    def boot(self):
        """Boots it. Its process 1 is the one child of systemd-nspawn."""
        words = ["setpriv", "--pdeathsig", "KILL", "systemd-nspawn", "-D", self.root, "--boot", "--register=no", "--keep-unit", "--console=read-only",
                 "--machine=ssikvd-harness"]
        with open(os.path.join(self.place, "console"), "ab") as console:
            self.process = subprocess.Popen(words, stdin=subprocess.DEVNULL, stdout=console, stderr=console,
                                            env={**os.environ, "SYSTEMD_NSPAWN_UNIFIED_HIERARCHY": "1"})
        self.leader = wait_for(self._leader, "it doesn't boot", SLOWLY)
        wait_for(lambda: self.run("systemctl", "is-system-running")[1].strip() in ("running", "degraded"), "systemd doesn't come up", SLOWLY)

    def _leader(self):
        expect(self.process.poll() is None, "systemd-nspawn has ended: " + self.console())
        with contextlib.suppress(OSError, IndexError):
            with open(f"/proc/{self.process.pid}/task/{self.process.pid}/children", encoding="ascii") as file:
                leader = int(file.read().split()[0])
            with open(f"/proc/{leader}/comm", encoding="ascii") as file:
                return leader if file.read() == "systemd\n" else None
        return None

    def console(self):
        with open(os.path.join(self.place, "console"), encoding="utf-8", errors="replace") as file:
            return file.read()[-300:]

    def end(self):
        """Kills the whole machine, as a power switch does."""
        if self.process:
            if self.leader:
                with contextlib.suppress(ProcessLookupError):
                    os.kill(self.leader, 9)
            self.process.kill()
            self.process.wait()
            self.process = self.leader = None

    def run(self, *words, seconds=15 * PATIENCE):
        """Runs a command there: its status, output and error output."""
        inside = ["nsenter", "-t", str(self.leader), "-m", "-u", "-i", "-p", "-C", "--", "env", "-i", "PATH=/usr/sbin:/usr/bin:/sbin:/bin", *words]
        ran = subprocess.run(inside, stdin=subprocess.DEVNULL, capture_output=True, text=True, timeout=seconds, check=False)
        return ran.returncode, ran.stdout, ran.stderr

    def done(self, *words):
        """Runs a command there that must end well: its output."""
        status, out, err = self.run(*words)
        expect(status == 0, f"{' '.join(words)} ended with {status}: {(out + err)[-400:]}")
        return out

    def path(self, name):
        """A file of the machine, from outside."""
        return f"/proc/{self.leader}/root{name}"

    def write(self, name, text):
        os.makedirs(os.path.dirname(self.path(name)), exist_ok=True)
        with open(self.path(name), "w", encoding="ascii") as file:
            file.write(text)

    def installed(self, deb):
        """Installs a package, which lies outside."""
        shutil.copy(deb, self.path("/var/package.deb"))
        self.done("dpkg", "-i", "/var/package.deb")

    def settings(self, instance, sectors, more=""):
        self.write(f"/etc/default/ssikvd-{instance}", f"LISTEN=127.0.0.1:{PORTS[instance]}\nSECTORS={sectors}\n{more}")

    def changed(self, unit, text):
        """Changes a unit, as `systemctl edit` does."""
        self.write(f"/etc/systemd/system/{unit}.d/harness.conf", text)
        self.done("systemctl", "daemon-reload")

    def shown(self, unit, name):
        return self.done("systemctl", "show", "--value", "--property", name, unit).strip()

    def main_process(self, instance):
        """The process of a server, as the machine numbers it; 0 where none runs."""
        return int(self.shown(f"ssikvd@{instance}", "MainPID"))

    def is_active(self, unit):
        return self.run("systemctl", "is-active", "--quiet", unit)[0] == 0

    def journal(self, unit):
        return self.done("journalctl", "--no-pager", "-o", "cat", "-u", unit)

    def contents(self, instance):
        """The map of a data file, of which a server may run."""
        return map_of(log_of(self.path(f"{FOLDER}{instance}.data")))


def due_of(count):
    """The map after this many commits."""
    due = {}
    for number in range(count):
        due[b"%06d" % (number % 40)] = b"v" * (number * 97 % 1_500)
        due[b"last"] = b"%d" % number
    return due


def committed(machine, instance, first, end):
    """Commits these numbers, and looks whether all since 0 are in the file."""
    for number in range(first, end):
        commit(PORTS[instance], number)
    expect(machine.contents(instance) == due_of(end), "a commit is lost")


# The package

def package(place):
    """Builds the package from a copy of the repository, and one of a later version with the same files."""
    copy = installing.copy_of_top(place, "source")
    deb = installing.built_package(copy)
    unpacked, later = os.path.join(place, "later"), os.path.join(place, "later.deb")
    installing.done(["dpkg-deb", "-R", deb, unpacked], 300)
    control = os.path.join(unpacked, "DEBIAN", "control")
    with open(control, encoding="utf-8") as file:
        text = re.sub(r"(?m)^Version: ", "Version: 9:", file.read())
    with open(control, "w", encoding="utf-8") as file:
        file.write(text)
    installing.done(["dpkg-deb", "--root-owner-group", "-Znone", "-b", unpacked, later], 300)
    return deb, later


def install(machine, deb):
    machine.installed(deb)
    expect(machine.done("stat", "-c", "%U %G %a", FOLDER).strip() == "ssikvd ssikvd 700", "the folder is another's")
    known = dict(line.split()[:2] for line in machine.done("systemctl", "list-unit-files", "--no-legend", "ssikvd*").splitlines())
    expect(len(known) == 9 and set(known.values()) == {"static", "disabled"}, f"it knows {known}")
    expect(not machine.done("systemctl", "list-units", "--no-legend", "ssikvd*").strip(), "something was started")


def upgrade(machine, later):
    before = machine.main_process("shop")
    expect(before, "no server runs before the upgrade")
    machine.installed(later)
    wait_for(lambda: machine.main_process("shop") not in (0, before), "the server isn't started again", SLOWLY)
    wait_for(lambda: machine.run("ssikvd-probe", f"127.0.0.1:{PORTS['shop']}")[0] == 0, "it isn't served after the upgrade", SLOWLY)


def remove(machine):
    kept = machine.contents("shop")
    machine.done("dpkg", "-r", "ssikvd")
    expect(not machine.done("systemctl", "list-units", "--no-legend", "--state=active", "ssikvd*").strip(), "something runs after the removal")
    expect(not os.path.exists(machine.path("/usr/bin/ssikvd")), "the program is left")
    expect(machine.contents("shop") == kept, "a data file has changed")
    expect(os.path.exists(machine.path("/etc/default/ssikvd")), "the settings are gone")
    machine.done("dpkg", "-P", "ssikvd")
    expect(not os.path.exists(machine.path("/etc/default/ssikvd")), "settings are left")
    expect(machine.contents("shop") == kept, "a data file is gone")
    expect(machine.done("stat", "-c", "%U", FOLDER + "shop.data").strip() == "ssikvd", "its owner is gone")


# Starts

def start(machine, instance="shop", sectors=65_536, more=""):
    machine.settings(instance, sectors, more)
    machine.done("systemctl", "start", f"ssikvd@{instance}")
    expect(machine.run("ssikvd-probe", f"127.0.0.1:{PORTS[instance]}")[0] == 0, "it counts as started, and doesn't serve")


def first_start(machine):
    start(machine, more="COMPACT_WITHIN=36000\n")    # it is due at any rate
    machine.done("systemctl", "enable", "--now", "ssikvd@shop", "ssikvd-compact@shop.timer", "ssikvd-used@shop.timer", "ssikvd-ship@shop.timer")
    found = machine.done("stat", "-c", "%U %a %s", FOLDER + "shop.data").split()
    expect(found == ["ssikvd", "600", str(65_536 * SECTOR)], f"the file is {found}")
    with open(machine.path(f"/proc/{machine.main_process('shop')}/status"), encoding="ascii") as file:
        status = dict(line.rstrip().split(":\t") for line in file if ":\t" in line)
    found = {name: status[name] for name in ("CapEff", "CapBnd", "NoNewPrivs", "Seccomp")}
    expect(found == {"CapEff": "0" * 16, "CapBnd": "0" * 16, "NoNewPrivs": "1", "Seccomp": "2"}, f"the server's rights are {found}")
    committed(machine, "shop", 0, 30)


def killed(machine):
    before = machine.main_process("shop")
    machine.done("systemctl", "kill", "--kill-whom=main", "--signal=KILL", "ssikvd@shop")
    wait_for(lambda: machine.main_process("shop") not in (0, before) and machine.is_active("ssikvd@shop"), "it isn't started again", SLOWLY)
    committed(machine, "shop", 30, 60)


def started_twice(machine):
    before = machine.main_process("shop")
    machine.done("systemctl", "start", "ssikvd@shop")
    expect(machine.main_process("shop") == before, "a server that runs was started again")
    words = f"flock -n -F -E 75 {FOLDER}shop.data.lock ssikvd serve --data {FOLDER}shop.data --listen 127.0.0.1:7800"
    found = machine.run("runuser", "-u", "ssikvd", "--", *words.split())
    expect(found[0] == 75, f"a second server over the file ended with {found}")
    machine.write("/etc/default/ssikvd-wrong", f"LISTEN=127.0.0.1:{PORTS['shop']}\nSECTORS=64\n")
    fails_to_start(machine, "wrong", SAYS_TAKEN)
    committed(machine, "shop", 60, 61)


def fails_to_start(machine, instance, text):
    """It fails as often as the unit tries, and the journal says why. Started again it takes `reset-failed`."""
    machine.changed(f"ssikvd@{instance}.service", "[Service]\nRestartSec=100ms\n[Unit]\nStartLimitBurst=3\n")
    machine.run("systemctl", "start", f"ssikvd@{instance}")
    wait_for(lambda: machine.shown(f"ssikvd@{instance}", "ActiveState") == "failed", "it doesn't give up", SLOWLY)
    wait_for(lambda: text in machine.journal(f"ssikvd@{instance}"), f"the journal doesn't say that it {text}", SLOWLY)
    machine.run("systemctl", "stop", f"ssikvd@{instance}")
    machine.done("systemctl", "reset-failed", f"ssikvd@{instance}")


def missing_file(machine):
    name = machine.path(FOLDER + "hurt.data")
    start(machine, "hurt", 64)
    committed(machine, "hurt", 0, 3)
    machine.done("systemctl", "stop", "ssikvd@hurt")
    os.rename(name, name + ".away")
    fails_to_start(machine, "hurt", SAYS_MISSING)
    expect(not os.path.exists(name), "a new file was made in the place of the missing one")
    os.rename(name + ".away", name)
    machine.done("systemctl", "start", "ssikvd@hurt")
    committed(machine, "hurt", 3, 4)


def damaged_file(machine):
    name = machine.path(FOLDER + "hurt.data")
    machine.done("systemctl", "stop", "ssikvd@hurt")
    with open(name, "r+b") as file:
        whole = file.read()
        place = 1 + 1 + -(-(44 + int.from_bytes(whole[2 * SECTOR:2 * SECTOR + 4], "big")) // SECTOR)    # the gate of record 1
        file.seek((place + 1) * SECTOR + 50)
        file.write(bytes([whole[(place + 1) * SECTOR + 50] ^ 1]))
    fails_to_start(machine, "hurt", SAYS_DAMAGED)
    with open(name, "r+b") as file:
        file.write(whole)
    machine.done("systemctl", "start", "ssikvd@hurt")
    committed(machine, "hurt", 4, 5)


def full_file(machine):
    start(machine, "small", 64)
    store, count = simple_client.Client(PORTS["small"]), 0
    with contextlib.suppress(simple_client.Refused):
        while count < 100:
            store.transact(lambda store: store.ask("SET", "a", count))
            count += 1
    expect(count == 31, f"{count} commits fitted")
    found = machine.run("ssikvd-probe", "--used", "95", "--data", FOLDER + "small.data", f"127.0.0.1:{PORTS['small']}")
    expect(found[0] == 2, f"the probe of a full file says {found}")
    machine.done("systemctl", "start", "ssikvd-compact@small")
    wait_for(lambda: machine.run("ssikvd-probe", f"127.0.0.1:{PORTS['small']}")[0] == 0, "it isn't served after a compaction", SLOWLY)
    simple_client.Client(PORTS["small"]).transact(lambda store: store.ask("SET", "a", count))
    expect(machine.contents("small") == {b"a": b"31"}, "a commit is lost")


def machine_killed(machine):
    """The whole machine is killed and booted again: what is enabled serves every commit."""
    machine.end()
    machine.boot()
    wait_for(lambda: machine.run("ssikvd-probe", f"127.0.0.1:{PORTS['shop']}")[0] == 0, "it isn't served once the machine was booted", SLOWLY)
    committed(machine, "shop", 61, 62)
    expect(machine.is_active("ssikvd-compact@shop.timer") and machine.is_active(WATCH), "its timer isn't active, or the watch")


# Timers, compactions, backups

def timers(machine):
    """Each timer fires by itself: metrics are there, the file is compacted and shipped, while clients write."""
    machine.changed("ssikvd-ship@shop.timer", "[Timer]\nOnCalendar=\nOnCalendar=minutely\nRandomizedDelaySec=0\n")
    begun = time.time()
    with writers(PORTS["shop"], 0.03, 10) as load:    # some hundred sectors each second
        end = time.monotonic() + 10 * PATIENCE
        old = machine.path(FOLDER + "shop.data.old")
        while time.monotonic() < end and not (os.path.exists(old) and os.path.getctime(old) > begun and is_told(machine, begun)):
            time.sleep(0.5)
        expect(os.path.exists(old), "the timer hasn't compacted the file")
        expect(is_told(machine, begun), f"of metrics there are {os.listdir(machine.path('/run/ssikvd-metrics'))}")
    wait_for(lambda: machine.run("ssikvd-probe", f"127.0.0.1:{PORTS['shop']}")[0] == 0, "it isn't served after a compaction", SLOWLY)
    judge_kept(load, machine.contents("shop"))
    with open(machine.path("/run/ssikvd-metrics/ssikvd-shop-stat.prom"), encoding="ascii") as file:
        found = dict(re.findall(r"(?m)^ssikvd_stat_(\w+)\{.*\} (\S+)$", file.read()))
    lacks_names = {"resident_memory_bytes", "processor_seconds_total", "open_descriptors", "max_descriptors", "connections"} - set(found)
    expect(not lacks_names and 6 <= int(found["open_descriptors"]) < 20, f"of the figures it lacks {lacks_names}: {found}")


def is_told(machine, begun):
    """Has each kind of metrics been written since, and can everybody read it?"""
    names = [machine.path(f"/run/ssikvd-metrics/ssikvd-shop{kind}.prom") for kind in ("", "-probe", "-stat", "-backup")]
    return all(os.path.exists(name) and os.path.getmtime(name) >= begun and os.stat(name).st_mode & 0o777 == 0o644 for name in names)


KILLS = 6


# The units of a compaction. The second is started by the first, and stops the server. The third starts the first.
LOOKS, SWAPS, WATCH = "ssikvd-compact@shop", "ssikvd-swap@shop", "ssikvd-watch@shop"


def watched(machine):
    """Without the timer's looks the watch begins a compaction, while clients write, and again after it was killed. It ends and starts with the timer."""
    machine.changed("ssikvd-compact@shop.timer", "[Timer]\nOnCalendar=\nOnCalendar=2100-01-01\n")
    machine.done("systemctl", "stop", "ssikvd-compact@shop.timer")
    wait_for(lambda: not machine.is_active(WATCH), "the watch goes on without the timer", SLOWLY)
    machine.done("systemctl", "start", "ssikvd-compact@shop.timer")
    wait_for(lambda: machine.is_active(WATCH), "the timer doesn't start the watch", SLOWLY)
    old = machine.path(FOLDER + "shop.data.old")

    def is_compacted(load, since):
        expect(all(writer.is_alive() for writer in load), "a commit met a full log")
        return os.path.exists(old) and os.path.getctime(old) > since and has_ended(machine, SWAPS)

    with writers(PORTS["shop"], 0.0, 40) as load:
        for _ in range(2):
            begun = time.time()
            wait_for(lambda since=begun: is_compacted(load, since), "the watch begins no compaction", 4 * SLOWLY, 0.5)
            wait_for(lambda: machine.is_active("ssikvd@shop"), "it isn't served after a compaction", SLOWLY)
            machine.run("systemctl", "kill", "--signal=KILL", WATCH)
    judge_kept(load, machine.contents("shop"))
    wait_for(lambda: machine.is_active(WATCH), "the watch isn't started again", SLOWLY)
    os.remove(machine.path("/etc/systemd/system/ssikvd-compact@shop.timer.d/harness.conf"))
    machine.done("systemctl", "daemon-reload")
    machine.done("systemctl", "restart", "ssikvd-compact@shop.timer")


def compactions(machine):
    """Compactions while clients write, whole ones and then some killed at each of some moments: of the first unit, of the second once the server was
    stopped, and of that again and again until it has no process left, with the command that starts the server. A server runs, and nothing is lost."""
    always_due(machine)
    with writers(PORTS["shop"], 0.01, 20) as load:
        for _ in range(2):
            wait_for(lambda before=count_of(load): count_of(load) > before + 50, "clients aren't served", SLOWLY)
            begun = time.monotonic()
            machine.done("systemctl", "start", LOOKS)
        seconds = time.monotonic() - begun
        for turn in range(KILLS):
            compaction_killed(machine, load, LOOKS, seconds * turn / KILLS)
        machine.changed(SWAPS + ".service", "[Service]\nExecStartPre=sleep 0.5\n")    # the server's stop is seen
        stopped = sum(compaction_killed(machine, load, SWAPS, 0.2 * turn) for turn in range(KILLS))
        stopped += sum(compaction_killed(machine, load, SWAPS, 0.2 * turn, True) for turn in range(KILLS))
    judge_kept(load, machine.contents("shop"))
    print(f"  {3 * KILLS} compactions killed, {stopped} of them with the server stopped, {count_of(load)} commits", flush=True)
    expect(stopped, "no compaction was killed while the server was stopped")


def always_due(machine):
    machine.changed(LOOKS + ".service", "[Service]\nEnvironment=COMPACT_ABOVE=0\n")


def compaction_killed(machine, load, unit, seconds, is_repeated=False):
    """A compaction of which a unit is killed after this many seconds, from its start on or, where it is the second, from the server's stop on. Was
    the server stopped then?"""
    wait_for(lambda before=count_of(load): count_of(load) > before + 50, "clients aren't served", SLOWLY)
    machine.done("systemctl", "start", "--no-block", LOOKS)
    if unit == SWAPS:
        wait_for(lambda: not machine.is_active("ssikvd@shop"), "the server isn't stopped", SLOWLY)
    time.sleep(seconds)
    was_active = machine.is_active("ssikvd@shop")
    killed_all(machine, unit)
    wait_for(lambda: has_ended(machine, unit) or is_repeated and killed_all(machine, unit), "it goes on after a kill", SLOWLY)
    wait_for(lambda: machine.is_active("ssikvd@shop") and all(has_ended(machine, unit) for unit in (LOOKS, SWAPS)),
             "it isn't served after a compaction", SLOWLY)
    return not was_active


def killed_all(machine, unit):
    """Kills what a unit has of processes."""
    machine.run("systemctl", "kill", "--kill-whom=all", "--signal=KILL", unit)


def has_ended(machine, unit):
    return machine.shown(unit, "ActiveState") in ("failed", "inactive")


def stopped_by_hand(machine):
    """A server that an operator stops while a compaction copies, or before one, stays stopped."""
    state = machine.path(FOLDER + "shop.data.new.state")
    with contextlib.suppress(FileNotFoundError):    # what a compaction that was killed left
        os.remove(state)
    machine.changed(LOOKS + ".service", "[Service]\nEnvironment=COMPACT_ABOVE=0\nExecCondition=sleep 2\n")
    machine.done("systemctl", "start", "--no-block", LOOKS)
    wait_for(lambda: os.path.exists(state), "nothing is copied", SLOWLY)
    machine.done("systemctl", "stop", "ssikvd@shop")
    wait_for(lambda: has_ended(machine, LOOKS), "the compaction doesn't end", SLOWLY)
    always_due(machine)
    stays_stopped(machine)
    machine.run("systemctl", "start", LOOKS)
    stays_stopped(machine)
    machine.done("systemctl", "start", "ssikvd@shop")
    commit(PORTS["shop"], 1)
    no_longer_due(machine)


def no_longer_due(machine):
    """Compactions begin by the timer alone, by its rule."""
    for unit in (LOOKS, SWAPS):
        with contextlib.suppress(FileNotFoundError):
            os.remove(machine.path(f"/etc/systemd/system/{unit}.service.d/harness.conf"))
    machine.done("systemctl", "daemon-reload")


def stays_stopped(machine):
    time.sleep(1.0)
    expect(has_ended(machine, SWAPS) and machine.shown("ssikvd@shop", "ActiveState") == "inactive", "a server was started that an operator had stopped")


@contextlib.contextmanager
def small_disk(machine, size):
    """A disk of this many bytes in the place of the folder of the data files, with no server meanwhile but those that are started there."""
    machine.done("systemctl", "stop", "ssikvd-*@*.timer", "ssikvd@*.service")
    machine.done("mount", "-t", "tmpfs", "-o", f"size={size},mode=700", "tmpfs", FOLDER)
    machine.done("chown", "ssikvd:ssikvd", FOLDER)
    try:
        yield
    finally:
        machine.run("systemctl", "stop", "ssikvd@*.service")
        machine.done("umount", FOLDER)
        machine.done("systemctl", "start", "ssikvd@shop", "ssikvd-compact@shop.timer")


def full_disk(machine):
    """On a disk without room for a second file a compaction does nothing, and the server is never stopped."""
    with small_disk(machine, 6 << 20):
        start(machine, "tight", 8_192, "PAST_CACHE=no\n")    # of 4 MiB; not each kernel reads tmpfs past its cache
        committed(machine, "tight", 0, 20)
        machine.changed("ssikvd-compact@tight.service", "[Service]\nEnvironment=COMPACT_ABOVE=0\n")
        before = machine.main_process("tight")
        machine.run("systemctl", "start", "ssikvd-compact@tight")
        expect("has no room" in machine.journal("ssikvd-compact@tight"), "the journal doesn't say that there is no room")
        expect(machine.main_process("tight") == before, "the server was stopped")
        committed(machine, "tight", 20, 21)


def unmounted_folder(machine):
    """With the assertion of docs/FAIL_OVER.md a server doesn't start, and makes no file, where its folder's disk isn't mounted."""
    machine.changed("ssikvd@apart.service", f"[Unit]\nAssertPathIsMountPoint={FOLDER}\n")
    machine.settings("apart", 64)
    expect(machine.run("systemctl", "start", "ssikvd@apart")[0], "it starts without its disk")
    expect(not os.path.exists(machine.path(FOLDER + "apart.data")), "a data file was made without its disk")
    with small_disk(machine, 1 << 20):
        start(machine, "apart", 64, "PAST_CACHE=no\n")
        committed(machine, "apart", 0, 3)


def shipped_and_restored(machine):
    with writers(PORTS["shop"], 0.01, 30) as load:
        wait_for(lambda: count_of(load) > 100, "clients aren't served", SLOWLY)
        before = [key for writer in load for key in writer.acknowledged]
        machine.done("systemctl", "start", "ssikvd-ship@shop")
    copy = log_of(machine.path(BACKUPS + "shop.data"))
    expect(copy == log_of(machine.path(FOLDER + "shop.data"))[:len(copy)], "the backup is no prefix of the log")
    kept = map_of(copy)
    expect(not set(before) - set(kept), "the backup lacks commits")
    commit(PORTS["shop"], 1)
    machine.done("ssikvd-restore", "shop", BACKUPS + "shop.data")
    expect(machine.is_active("ssikvd@shop"), "no server runs after a restore")
    expect(machine.contents("shop") == kept, "another map is served")
    expect(machine.done("stat", "-c", "%U %a", FOLDER + "shop.data").split() == ["ssikvd", "600"], "the owner or the mode has changed")
    commit(PORTS["shop"], 2)


# Units with a fault

WRONG = {
    "a server that isn't started again": ("ssikvd@.service", "Restart=always\n", "Restart=no\n", killed),
    "a server without its first step": ("ssikvd@.service", "ExecStartPre=ssikvd-before", "ExecStartPre=true", missing_file),
    "a compaction that doesn't start the server": ("ssikvd-swap@.service", "systemctl start --no-block", "true", compactions),
    "a compaction without an end where all was killed": ("ssikvd-swap@.service", "OnFailure=ssikvd@%i.service\n", "", compactions),
    "a compaction of a server that was stopped": ("ssikvd-swap@.service", "+systemctl is-active --quiet", "+systemctl cat", stopped_by_hand),
    "a compaction that doesn't look": ("ssikvd-compact@.service", "ssikvd-compact --part prepare", "true", full_disk),
    "a watch that begins nothing": ("ssikvd-watch@.service", " systemctl start ", " systemctl cat ", watched),
}


def wrong_units(tally, machine):
    for name, (unit, right, wrong, judge) in WRONG.items():
        with tally.run(f"{name} is reported"):
            with open(machine.path("/lib/systemd/system/" + unit), encoding="utf-8") as file:
                text = file.read()
            expect(text.count(right) == 1, f"{name} can't be planted")
            machine.write("/etc/systemd/system/" + unit, text.replace(right, wrong))
            machine.done("systemctl", "daemon-reload")
            try:
                judge(machine)
                found = False
            except (Deviation, OSError, subprocess.SubprocessError):
                found = True
            os.remove(machine.path("/etc/systemd/system/" + unit))
            no_longer_due(machine)
            machine.run("systemctl", "reset-failed", "ssikvd*")
            machine.run("systemctl", "start", "ssikvd@shop")
            expect(found, f"{name} was not reported")


# What is done in the machine, in this order.
PARTS = (
    ("the first start", first_start), ("a kill", killed), ("a second start", started_twice), ("a missing file", missing_file),
    ("a damaged file", damaged_file), ("a full file", full_file), ("a machine that is killed", machine_killed), ("the timers", timers),
    ("the watch", watched), ("compactions", compactions), ("a server that is stopped by hand", stopped_by_hand), ("a backup and its restore", shipped_and_restored),
    ("a full disk", full_disk), ("a disk that isn't mounted", unmounted_folder))


def play(tally):
    with folder() as place:
        machine = Machine(place)
        try:
            deb, later = package(place)
            machine.boot()
            with tally.run("the installation"):
                install(machine, deb)
            if tally.count():
                return
            for name, part in PARTS:
                begun = time.monotonic()
                with tally.run(name):
                    part(machine)
                print(f"  {name}: {time.monotonic() - begun:.0f} s, {tally.count()} deviations so far", flush=True)
            wrong_units(tally, machine)
            with tally.run("an upgrade"):
                upgrade(machine, later)
            with tally.run("the removal"):
                remove(machine)
        finally:
            machine.end()
            installing.done(["umount", machine.root])


def lacks():
    """What is missing for a run, or None."""
    gone = lacking((("systemd-nspawn", "systemd-container"), ("dpkg-buildpackage", "dpkg-dev"), ("dh", "debhelper")))
    if gone:
        return gone
    if os.stat(tempfile.gettempdir()).st_dev != os.stat("/").st_dev:    # else an overlay's files have other numbers in /proc/locks
        return "a folder for temporary files on the disk of /"
    return "root" if os.geteuid() else None


class UnderSystemd(Harness):
    NAME = "under_systemd"
    NEEDS = (installing.BINARY,)

    def test_under_systemd(self):
        self.leave_out_unless("under_systemd", lacks)
        if self.is_in_own_namespaces("SSIKVD_UNDER_SYSTEMD"):
            signal.signal(signal.SIGTERM, lambda *_: sys.exit(1))    # the machine is ended as well
            play(self.tally)


if __name__ == "__main__":
    run_harness()
