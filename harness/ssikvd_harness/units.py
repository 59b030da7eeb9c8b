"""The units of dist/ as `systemd-analyze` reads them, its alert rules as `promtool` does, its scripts, and the runbook of docs/OPERATIONS.md."""
import contextlib
import ctypes.util
import os
import re
import shutil
import signal
import subprocess
from collections.abc import Iterator

from .deviations import Deviation, Tally, expect, is_refused, missing
from .server import folder
from .settings import PATIENCE, PROGRAM, TOP
from .tools import DIST, loaded, operations, promtool, tool


def units(tally: Tally) -> None:
    """The units, with the programs of this copy, as `systemd-analyze` reads them."""
    if not shutil.which("systemd-analyze"):
        missing("the units", "systemd-analyze")
        return
    with folder() as place:
        for name in sorted(os.listdir(DIST)):
            if name.endswith((".service", ".timer")):
                with open(os.path.join(DIST, name), encoding="utf-8") as file:
                    text = re.sub(r"(?m)^(Exec\w+=-?)(ssikvd-)", rf"\1{DIST}/\2", file.read())
                with open(os.path.join(place, name), "w", encoding="utf-8") as file:
                    file.write(text)
        for name in sorted(os.listdir(place)):
            with tally.run(f"the unit {name}"):
                judge_unit(os.path.join(place, name))
        with tally.run("a unit with a wrong line is reported"):
            wrong = os.path.join(place, "wrong@.service")
            with open(os.path.join(place, "ssikvd@.service"), encoding="utf-8") as file:
                text = file.read().replace("ProtectHome=yes", "ProtectHouse=yes")
            with open(wrong, "w", encoding="utf-8") as file:
                file.write(text)
            try:
                judge_unit(wrong)
                expect(False, "it was not reported")
            except Deviation as found:
                expect("ProtectHouse" in str(found), str(found))
        for name in sorted(os.listdir(place)):
            if name.endswith(".service") and name != "wrong@.service":
                with tally.run(f"the score of {name}, and who runs it"):
                    judge_score(os.path.join(place, name))
                    with open(os.path.join(place, name), encoding="utf-8") as file:
                        judge_user(file.read())
        with tally.run("a unit that runs as root is reported"):
            expect(is_refused(judge_user, "[Service]\nExecStart=true\n"), "root was not reported")
            expect(is_refused(judge_user, "[Service]\nUser=ssikvd\nExecStart=+ssikvd-compact shop\n"), "a tool with root's rights was not reported")


def judge_unit(unit: str) -> None:
    ran = subprocess.run(["systemd-analyze", "--man=no", "verify", unit], capture_output=True, text=True, timeout=PATIENCE)
    name = os.path.basename(unit).split("@")[0]
    said = [line for line in (ran.stdout + ran.stderr).splitlines() if name in line]
    expect(not said, f"systemd-analyze says {said}")


def judge_user(text: str) -> None:
    """A unit runs as the service's user, and what it runs with root's rights is systemctl, or a case that calls it."""
    case = r"sh -c 'case \S+ in [\w-]+\)(| ;; \*\))( systemctl [^;|&]*;)+; esac'"
    expect("\nUser=ssikvd\n" in text, "it runs as root")
    for line in re.findall(r"(?m)^Exec\w+=[-@:]*[+!]+[-@:]*(.*)$", text):
        expect(re.fullmatch(rf"systemctl [^;|&]*|{case}", line), f"root runs {line}")


def judge_score(unit: str) -> None:
    """The score of a unit is at most 2, and what docs/OPERATIONS.md says: the server's with the version, those of others behind it."""
    told, version = operations().replace("\n", " "), re.search(r"systemd (\d+)", tool("systemd-analyze", "--version")[1])
    server = re.search(r"exposure level of ([\d.]+) of 10 \(by systemd (\d+)\)", told)
    if not server or not version:
        raise Deviation("docs/OPERATIONS.md names no score, or systemd no version")
    stem = os.path.basename(unit).split("@")[0]
    said = server if stem == "ssikvd" else re.search(rf"`{stem}@` ([\d.]+\d)", told)
    if not said:
        raise Deviation(f"docs/OPERATIONS.md names no score of {stem}@")
    found = re.search(r"exposure level for \S+: ([\d.]+)", tool("systemd-analyze", "security", "--offline=true", unit)[1])
    if server[2] != version[1]:
        missing("the unit's score", f"systemd {server[2]}, here is {version[1]}")
    else:
        score = found[1] if found else "none"
        expect(score == said[1], f"the score is {score}, docs/OPERATIONS.md says {said[1]}")
        expect(float(score) <= 2, f"the score is {score}")


def unit_command(place: str, allocator: str | None) -> list[str]:
    """The words of the server's command in its unit, over a data file in this folder, with its own allocator or another."""
    with open(os.path.join(DIST, "ssikvd@.service"), encoding="utf-8") as file:
        text = file.read()
    environment, started = (re.findall(rf"(?m)^{name}=(.*)$", text)[0] for name in ("Environment", "ExecStart"))
    settings = dict(word.split("=") for word in environment.split())
    settings |= {"LISTEN": "127.0.0.1:0"} | ({} if allocator is None else {"ALLOCATOR": allocator})
    command = started.replace("%i", "shop").replace("/var/lib/ssikvd", place)
    for name, value in settings.items():
        command = command.replace(f"${{{name}}}", value)
    return [PROGRAM if word == "ssikvd" else word for word in command.split()]


@contextlib.contextmanager
def started_by_unit(place: str, allocator: str | None) -> Iterator[subprocess.Popen[bytes]]:
    """The server as the unit starts it, once it listens. Its standard error goes to a file."""
    with open(os.path.join(place, "errors"), "wb") as errors:
        server = subprocess.Popen(unit_command(place, allocator), stdout=subprocess.PIPE, stderr=errors)
    assert server.stdout
    try:
        line = server.stdout.readline()
        expect(line.startswith(b"listening "), f"it printed {line!r}")
        yield server
    finally:
        server.send_signal(signal.SIGKILL)
        server.wait(PATIENCE)
        server.stdout.close()


def judge_allocator(allocator: str | None, is_loaded: bool, is_told: bool) -> None:
    """The server listens. Is jemalloc mapped, and is there a line of the loader's?"""
    with folder() as place:
        created = tool(PROGRAM, "create", "--data", os.path.join(place, "shop.data"), "--sectors", "16")
        expect(created[0] == 0, f"create answered {created}")
        with started_by_unit(place, allocator) as server:
            with open(f"/proc/{server.pid}/maps", encoding="utf-8") as maps:
                expect(("libjemalloc" in maps.read()) == is_loaded, f"jemalloc is {'not ' * is_loaded}mapped")
        with open(os.path.join(place, "errors"), encoding="utf-8") as errors:
            said = errors.read().splitlines()
        expect(len(said) == is_told and all("LD_PRELOAD" in line for line in said), f"standard error has {said}")


def allocator(tally: Tally) -> None:
    """The unit's allocator where it is installed, none, and one that is missing, without which the server starts, too."""
    if not ctypes.util.find_library("jemalloc"):
        missing("the unit's allocator", "libjemalloc2")
    else:
        with tally.run("the unit's allocator"):
            judge_allocator(None, True, False)
    with tally.run("the unit with the C library's allocator"):
        judge_allocator("", False, False)
    with tally.run("the unit with an allocator that isn't there"):
        judge_allocator("libmissing.so.9", False, True)


def names_of_stat() -> set[str]:
    """The metrics that `ssikvd-stat` writes."""
    stat = loaded("ssikvd-stat")
    return {f"ssikvd_stat_{name}" for name in (*stat.FIGURES, stat.TIME, "processor_seconds_total")}


def names_of_metrics() -> set[str]:
    """The metrics that the tools write."""
    found = {f"ssikvd_log_{name}" for name in loaded("ssikvd-used").HELP} | {"ssikvd_probe_status"} | names_of_stat()
    return found | set(re.findall(r"# TYPE (\w+)", loaded("ssikvd-ship").metrics("data", "copy", 1.0, 1)))


def judge_metrics(text: str) -> None:
    if not promtool():
        missing("`promtool check metrics`", "promtool (Debian's prometheus)")
        return
    ran = subprocess.run([promtool() or "promtool", "check", "metrics"], input=text, capture_output=True, text=True)
    expect(ran.returncode == 0 and not ran.stderr, f"promtool says {ran.stderr}")


# For each alert: a series, its values each minute where it fires after an hour, and where it doesn't.
FIRES = {
    "SsikvdLogAlmostFull": ("ssikvd_log_sectors_used", "950x60", "890x60"),
    "SsikvdLogFullSoon": ("ssikvd_log_seconds_to_full", "3500x60", "3700x60"),
    "SsikvdLogDamaged": ("ssikvd_log_damaged", "1x60", "0x60"),
    "SsikvdLogNotRead": ("ssikvd_log_read_time_seconds", "2900x60", "3100x60"),
    "SsikvdLogNotVerified": ("ssikvd_log_verified_time_seconds", "-169300x60", "-169100x60"),
    "SsikvdDown": ('node_systemd_unit_state{name="ssikvd@shop.service", state="active"}', "0x60", "1x60"),
    "SsikvdNoTransactions": ("ssikvd_probe_status", "2x60", "1x60"),
    "SsikvdConnectionsMany": ("ssikvd_stat_connections", "111x60", "110x60"),
    "SsikvdClientSilent": ("ssikvd_stat_idle_seconds", "601x60", "600x60"),
    "SsikvdBackupNotMade": ("ssikvd_backup_time_seconds", "-1000x60", "900x60"),
    "SsikvdBackupAbsent": ("ssikvd_probe_status", "0x140", ""),
    "SsikvdBackupOld": ("ssikvd_stat_backup_age_seconds", "90000x60", "80000x60"),
    "SsikvdStatNotRead": ("ssikvd_stat_time_seconds", "2900x60", "3100x60"),
}


def judge_alert(name: str, series: str, values: str, is_on: bool) -> None:
    """Does the alert fire over this series, with a log of 1,000 sectors?"""
    inputs = [(series, values), *([("ssikvd_log_sectors", "1000x60")] if "sectors_used" in series else [])]
    test = f"rule_files: [{DIST}/alerts.yml]\ntests:\n  - interval: 1m\n    input_series:\n"
    test += "".join(f"      - {{series: '{one}', values: '{given}'}}\n" for one, given in inputs)
    test += f"    promql_expr_test:\n      - expr: 'count(ALERTS{{alertname=\"{name}\", alertstate=\"firing\"}}) or vector(0)'\n"
    test += f"        eval_time: 1h\n        exp_samples: [{{labels: '{{}}', value: {int(is_on)}}}]\n"
    with folder() as place:
        with open(os.path.join(place, "test.yml"), "w", encoding="utf-8") as file:
            file.write(test)
        found = tool(promtool() or "promtool", "test", "rules", os.path.join(place, "test.yml"))
    expect(found[0] == 0, f"promtool says {found[1]}{found[2]}")


def rules(tally: Tally) -> None:
    if not promtool():
        missing("`promtool check rules`", "promtool (Debian's prometheus)")
        return
    with tally.run("the alert rules"):
        found = tool(promtool() or "promtool", "check", "rules", os.path.join(DIST, "alerts.yml"))
        expect(found[0] == 0, f"promtool says {found}")
    for name, (series, *values) in FIRES.items():
        for is_on, given in zip((True, False), values):
            if given:
                with tally.run(f"the alert {name} {'fires' if is_on else 'does not fire'}"):
                    judge_alert(name, series, given, is_on)
    with tally.run("the metrics of the rules"):
        with open(os.path.join(DIST, "alerts.yml"), encoding="utf-8") as file:
            named = set(re.findall(r"ssikvd_[a-z]+_\w+", file.read()))
        due = names_of_metrics()
        expect(named <= due, f"the rules name {sorted(named - due)}")


def scripts(tally: Tally) -> None:
    if not shutil.which("shellcheck"):
        missing("shellcheck", "shellcheck")
        return
    for name in ("ssikvd-before", "ssikvd-compact"):
        with tally.run(f"shellcheck of {name}"):
            found = tool("shellcheck", os.path.join(DIST, name))
            expect(found[0] == 0, found[1])


def texts(tally: Tally) -> None:
    """Each line that the program writes to standard error by itself stands in the runbook."""
    sources = os.path.join(TOP, "crates", "commands", "src")
    with tally.run("the runbook"):
        found: set[str] = set()
        for name in os.listdir(sources):
            with open(os.path.join(sources, name), encoding="utf-8") as file:
                text = file.read()
            found |= {f"{before}N{behind}" for before, behind in re.findall(r'numbered_line\(b"([^"\\]*)", \w+, b"([^"\\]*)', text)}
            found |= set(re.findall(r'(?<!numbered_line\()b"(ssikvd: [^"\\]*)', text))
        expect(len(found) > 10, f"only {len(found)} texts were found")
        told = operations()
        lost = [text for text in found if f"`{text}`" not in told]
        expect(not lost, f"docs/OPERATIONS.md does not say what {sorted(lost)} mean")
