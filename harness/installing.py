"""What is installed and packed: man pages, completions, `make install`, `make dist`, the Debian package.

The program's `--help` is what the rest is compared with. Its commands, options and exit statuses are those of ssikvd(1) and of the completions
for bash, zsh and fish, which are asked in these shells; its examples are run. The refusals of docs/PROTOCOL.md stand in ssikvd(7), and the
example of docs/LOG_FORMAT.md in ssikvd(5). Then what is installed, and that nothing of it is left behind; that packing the same program twice gives
the same bytes; that what is packed installs the same. `long` also builds the Debian package, looks at it with lintian, and installs it
where it runs as root. Where a tool is missing, a line says what was left out.
"""
import contextlib
import filecmp
import os
import pty
import re
import select
import shutil
import subprocess
import time

from ssikvd_harness.arguments import run_harness
from ssikvd_harness.cases import Harness
from ssikvd_harness.deviations import expect
from ssikvd_harness.server import Server, folder, free_port, run
from ssikvd_harness.settings import PATIENCE, PROGRAM, TOP, text_of

BINARY = os.path.abspath(PROGRAM)
MANUALS = ("man/ssikvd.1", "man/ssikvd.5", "man/ssikvd.7")
GENERAL = {"-h", "--help"}
NEVER_PRINTED = {"ssikvd: not empty"}    # of a log made in a file that isn't empty, which no command asks for


def left_out(what, tool):
    """Is this tool missing? Then a line says what is left out."""
    if not shutil.which(tool):
        print(f"  {what}: not run, for want of {tool}", flush=True)
        return True
    return False


def done(words, seconds=6 * PATIENCE, **how):
    """A tool that ends by itself with status 0: its output."""
    ran = subprocess.run(words, stdin=subprocess.DEVNULL, capture_output=True, text=True, timeout=seconds, **how)
    expect(ran.returncode == 0, f"{words} ended with {ran.returncode}: {(ran.stdout + ran.stderr)[-400:]}")
    return ran.stdout + ran.stderr


# What the program says of itself

def help_of(*command):
    status, out, err = run([*command, "--help"])
    expect(status == 0 and not err, f"--help of {command} ended with {status}, {err}")
    return out.decode()


def section(text, head):
    """The lines below a head of a help text, up to the next blank line."""
    found = re.search(rf"^{head}:\n((?:  .*\n?)+)", text, re.M)
    expect(found, f"the help has no {head}")
    return [line.strip() for line in found[1].splitlines()]


def options_of(text):
    """The options of a help text, each with the name of its value, or with None."""
    found = {}
    for line in section(text, "Options"):
        names = re.match(r"(-\w, )?(--\w+)(?: <(.+?)>)?", line)
        found[names[2]] = names[3]
        if names[1]:
            found[names[1][:2]] = None
    return found


def commands_of_program():
    """Each command with its options, as the program's own help gives them; `help` has none."""
    names = [line.split()[0] for line in section(help_of(), "Commands")]
    return {name: {} if name == "help" else options_of(help_of(name)) for name in names}


# The man pages

def manual_section(name, head):
    found = re.search(rf"^\.Sh {head}\n(.*?)(?=^\.Sh |\Z)", text_of(name), re.M | re.S)
    expect(found, f"{name} has no section {head}")
    return found[1]


def manual_options(text, command_macro):
    """The commands of a part of ssikvd(1), each with its options and the names of their values."""
    found = {}
    for line in text.splitlines():
        command = re.match(rf"\.{command_macro} (\w+)", line)
        option = re.match(r"\.(?:It |Op )?Fl Fl (\w+) Ar (\S+)", line)
        if command:
            found[command[1]] = {}
        elif option:
            list(found.values())[-1]["--" + option[1]] = option[2]
    return found


def literal_lines(text):
    """The lines of the literal displays of a man page."""
    return [line.replace("\\e", "\\") for block in re.findall(r"^\.Bd -literal.*?\n(.*?)^\.Ed", text, re.M | re.S) for line in block.splitlines()]


def first_manual(tally):
    commands = commands_of_program()
    due = {name: {option: value for option, value in options.items() if option not in GENERAL} for name, options in commands.items()}
    for head, macro in (("SYNOPSIS", "Cm"), ("DESCRIPTION", "It Cm")):
        with tally.run(f"the {head} of ssikvd(1)"):
            found = manual_options(manual_section(MANUALS[0], head), macro)
            expect(found == due, f"it has {found}, the help {due}")
    with tally.run("the options of the program in ssikvd(1)"):
        named = re.findall(r"Fl (Fl )?(\w+)(?= ,|\n|$)", manual_section(MANUALS[0], "DESCRIPTION"), re.M)
        found = {f"-{dashes and '-'}{name}" for dashes, name in named}
        expect(found == set(options_of(help_of())), f"it has {found}")
    with tally.run("the exit statuses of ssikvd(1)"):
        found = re.findall(r"^\.It (\d)\n(.*)\.$", manual_section(MANUALS[0], "EXIT STATUS"), re.M)
        due = [(line[0], line[1:].strip()) for line in section(help_of(), "Exit status")]
        expect([(number, text[0].lower() + text[1:]) for number, text in found] == due, f"it has {found}, the help {due}")
    with tally.run("the examples of ssikvd(1)"):
        found = literal_lines(manual_section(MANUALS[0], "EXAMPLES"))
        expect(found == section(help_of(), "Examples"), f"it has {found}")
    with tally.run("the lines of standard error in ssikvd(1)"):
        due = {text for text in re.findall(r'b"(ssikvd: [^"]*?) ?(?:\\n)?"', text_of("crates/commands/src/endings.rt"))} - NEVER_PRINTED
        found = {re.sub(r" (Ar|No) .*", "", line) for line in re.findall(r"^\.It (ssikvd: .*)", manual_section(MANUALS[0], "DIAGNOSTICS"), re.M)}
        expect(due and due <= found, f"it lacks {due - found}")


def table(name, head):
    """The first cells of the rows of a document's table, of which this is the first head."""
    found = re.search(rf"^\| {head} \|.*\n\|[-|]+\n((?:\|.*\n)+)", text_of(name), re.M)
    expect(found, f"{name} has no table of {head}")
    return [row.split("|")[1].strip().strip("`") for row in found[1].splitlines()]


def other_manuals(tally):
    with tally.run("the refusals of ssikvd(7)"):
        due = [re.sub(r"<(\w+)>", lambda word: "Ar " + word[1].upper(), text) for text in table("docs/PROTOCOL.md", "Text")]
        found = re.findall(r"^\.It ([A-Z]+ .*)$", text_of(MANUALS[2]), re.M)
        expect(found == due, f"it has {found}, the protocol {due}")
    with tally.run("the commands of ssikvd(7)"):
        found = [line.replace(" Ar", "") for line in re.findall(r"^\.It Ic (.*)$", text_of(MANUALS[2]), re.M)]
        expect(found == table("docs/PROTOCOL.md", "Command"), f"it has {found}")
    with tally.run("the example of ssikvd(7)"):
        rows = [re.split(r" {2,}", line) for line in literal_lines(manual_section(MANUALS[2], "EXAMPLES")) if line[0].isdigit()]
        found = run(["play"], "".join(request + "\n" for request, _ in rows).encode())
        due = "".join(f"{request.split()[0]} {reply}\n" for request, reply in rows)
        expect(rows and found == (0, due.encode(), b""), f"`play` printed {found}, expected {due!r}")
    with tally.run("the example of ssikvd(5)"):
        due = set(re.findall(r"`([0-9a-f]{8,})`", text_of("docs/LOG_FORMAT.md").partition("## An example")[2]))
        found = set(re.findall(r"\b[0-9a-f]{8,}\b", manual_section(MANUALS[1], "EXAMPLES")))
        expect(due and found == due, f"it has {found}, the document {due}")


def tools():
    """The commands of dist/."""
    place = os.path.join(TOP, "dist")
    return sorted(name for name in os.listdir(place) if "." not in name) if os.path.isdir(place) else []


def manuals_of_tools(tally):
    """The options of each command of dist/, as it tells them, stand in its man page."""
    for name in tools():
        with tally.run(f"the man page of {name}"):
            said = subprocess.run(
                [os.path.join(TOP, "dist", name), "--help"], stdin=subprocess.DEVNULL, capture_output=True, text=True, timeout=6 * PATIENCE)
            due = set(re.findall(r"--\w+", said.stdout + said.stderr)) - GENERAL
            for form in (r"^\.(?:Op )?Fl Fl (\w+)", r"^\.It Fl Fl (\w+)"):
                found = {"--" + option for option in re.findall(form, text_of(f"man/{name}.8"), re.M)}
                expect(found == due, f"it has {found}, the command {due}")


def man_lints(tally):
    names = sorted("man/" + name for name in os.listdir(os.path.join(TOP, "man")))
    pages = [os.path.join(TOP, name) for name in names]
    with tally.run("the man pages that ours name"):
        named = {f"man/{name}.{number}" for name, number in re.findall(r"^\.Xr (ssikvd\S*) (\d)", "".join(map(text_of, names)), re.M)}
        expect(named <= set(names), f"there is no {named - set(names)}")
    if not left_out("mandoc -Tlint", "mandoc"):
        with tally.run("mandoc -Tlint"):
            lint = subprocess.run(["mandoc", "-Tlint", *pages], capture_output=True, text=True, timeout=6 * PATIENCE)
            said = [line for line in lint.stdout.splitlines() if "referenced manual not found" not in line]
            expect(not said, f"mandoc says {said[:3]}")
    if not left_out("man --warnings", "man"):
        for page in pages:
            with tally.run(f"man --warnings of {os.path.basename(page)}"):
                shown = subprocess.run(
                    ["man", "--warnings", "-l", page], capture_output=True, text=True, timeout=6 * PATIENCE,
                    env={**os.environ, "LC_ALL": "C.UTF-8", "MANWIDTH": "80", "MANPAGER": "cat"})
                expect(shown.returncode == 0 and not shown.stderr and "SEE ALSO" in shown.stdout, f"man says {shown.stderr[-300:]}")


# The examples of the help

def help_examples(tally):
    with folder() as place:
        os.symlink(BINARY, os.path.join(place, "ssikvd"))
        for line in section(help_of(), "Examples"):
            with tally.run(f"the example {line}"):
                if " serve " in line:
                    with Server(os.path.join(place, "shop.data")) as server:
                        expect(server.is_listening(), f"it printed {server.line}")
                else:
                    done(["sh", "-c", line], cwd=place, env={**os.environ, "PATH": f"{place}:{os.environ['PATH']}"})
    for command in commands_of_program():
        with tally.run(f"the example of {command}"):
            example = [] if command == "help" else section(help_of(command), "Example")
            expect(set(example) <= set(section(help_of(), "Examples")), f"the help of the program hasn't {example}")


# The completions

BASH = """
. "$1"
shift
COMP_WORDS=("$@")
COMP_CWORD=$(($# - 1))
_ssikvd
printf '%s\\n' "${COMPREPLY[@]}"
"""


def by_bash(*words):
    return done(["bash", "-c", BASH, "bash", os.path.join(TOP, "completions", "ssikvd.bash"), "ssikvd", *words]).split()


def by_fish(*words):
    line = " ".join(("ssikvd", *words))
    command = f"source {os.path.join(TOP, 'completions', 'ssikvd.fish')}; complete -C '{line}'"
    return [found.split("\t")[0] for found in done(["fish", "--no-config", "-c", command]).splitlines()]


class Zsh:
    """A zsh at a terminal, which is typed into. Its prompts are numbered, and a line is typed once the prompt before it stands."""

    SETUP = (
        "turn=0; precmd() {{ PS1=\"<$((++turn))>\" }}; unsetopt zle_bracketed_paste prompt_cr prompt_sp\n",
        "fpath=({0} $fpath); autoload -U compinit; compinit -u -D\n",
        "zstyle ':completion:*' list-prompt ''; LISTMAX=0; bindkey '^I' list-choices; bindkey '^U' kill-whole-line\n")

    def __init__(self):
        self.turn = 0
        self.process, self.screen = pty.fork()
        if not self.process:
            os.execvpe("zsh", ["zsh", "-f", "-i"], {**os.environ, "TERM": "dumb", "COLUMNS": "150", "LINES": "60"})
        for line in self.SETUP:
            self._type(line.format(os.path.join(TOP, "completions")))

    def _type(self, keys):
        """Types, and answers what is shown before the next prompt."""
        self.turn += 1
        os.write(self.screen, keys.encode())
        shown, end = "", time.monotonic() + 3 * PATIENCE
        while not shown.endswith(f"<{self.turn}>") and time.monotonic() < end:
            if select.select([self.screen], [], [], 1.0)[0]:
                shown = re.sub(r"\x1b\[[0-9;?]*[A-Za-z]|\r", "", shown + os.read(self.screen, 65_536).decode(errors="replace"))
        return shown

    def choices(self, *words):
        """The words that are offered at the end of this line."""
        line = " ".join(("ssikvd", *words))
        shown = self._type(f"{line}\t\x15\n")
        return re.findall(r"(?<![\w-])--?\w+|^\w+(?= +--)", shown.partition(line)[2], re.M)

    def end(self):
        os.write(self.screen, b"exit\n")
        os.waitpid(self.process, 0)
        os.close(self.screen)


def completions(tally):
    commands = commands_of_program()
    asked = []
    for shell, ask in (("bash", by_bash), ("fish", by_fish)):
        if not left_out(f"the completion for {shell}", shell):
            asked.append((shell, ask))
    zsh = None if left_out("the completion for zsh", "zsh") else Zsh()
    if zsh:
        asked.append(("zsh", zsh.choices))
    for shell, ask in asked:
        with tally.run(f"the commands that {shell} offers"):
            found = set(ask("")) - {"-h", "--help", "-V", "--version"}
            expect(found == set(commands), f"it offers {sorted(found)}")
        for command, options in commands.items():
            with tally.run(f"the options of {command} that {shell} offers"):
                due = {option for option in options if option.startswith("--")}
                found = {word for word in ask(command, "--") if len(word) > 2 and word.startswith("--")}
                expect(found == due or command == "help", f"it offers {sorted(found)}, expected {sorted(due)}")
    if zsh:
        zsh.end()
    if not left_out("shellcheck of the completion for bash", "shellcheck"):
        with tally.run("shellcheck"):
            done(["shellcheck", "-s", "bash", os.path.join(TOP, "completions", "ssikvd.bash")])


# What is installed and packed

def files_below(place):
    """The files of a folder with their bytes' owners: name, mode."""
    return {
        os.path.relpath(os.path.join(at, name), place): os.stat(os.path.join(at, name)).st_mode & 0o777
        for at, _, names in os.walk(place) for name in names}


def make(place, *words):
    return done(["make", "-C", place, *words], 6 * PATIENCE)


def copy_of_top(place, name):
    """A copy of the repository's files, without what was built."""
    copy = os.path.join(place, name)
    shutil.copytree(TOP, copy, ignore=shutil.ignore_patterns("out", ".git", "__pycache__"))
    return copy


def installed(tally, root):
    with tally.run("make install"):
        make(TOP, "install", f"DESTDIR={root}", "PREFIX=/usr", f"PROGRAM={BINARY}")
        found = files_below(root)
        due = {
            "usr/bin/ssikvd": 0o755, "usr/share/man/man1/ssikvd.1": 0o644, "usr/share/man/man5/ssikvd.5": 0o644,
            "usr/share/man/man7/ssikvd.7": 0o644, "usr/share/bash-completion/completions/ssikvd": 0o644,
            "usr/share/zsh/site-functions/_ssikvd": 0o644, "usr/share/fish/vendor_completions.d/ssikvd.fish": 0o644,
            "usr/share/doc/ssikvd/LICENSE": 0o644, "usr/share/doc/ssikvd/docs/PROTOCOL.md": 0o644,
            "usr/share/doc/ssikvd/examples/write_skew.play": 0o644}
        expect(due.items() <= found.items(), f"it lacks {due.items() - found.items()}")
        expect(filecmp.cmp(os.path.join(root, "usr/bin/ssikvd"), BINARY, False), "another program was installed")
    with tally.run("what lies in dist/"):
        found = {os.path.basename(name) for name in files_below(root)}
        due = set(os.listdir(os.path.join(TOP, "dist"))) if os.path.isdir(os.path.join(TOP, "dist")) else set()
        due |= {name + ".8" for name in tools()}
        expect(due <= found, f"not installed: {due - found}")


def uninstalled(tally, root):
    with tally.run("make uninstall"):
        make(TOP, "uninstall", f"DESTDIR={root}", "PREFIX=/usr")
        expect(not files_below(root), f"left behind: {sorted(files_below(root))[:5]}")
    with tally.run("make install without a program"):
        ran = subprocess.run(
            ["make", "-C", TOP, "install", f"DESTDIR={root}", "PROGRAM=/nowhere/ssikvd"], capture_output=True, text=True, timeout=6 * PATIENCE)
        expect(ran.returncode and "there is no program /nowhere/ssikvd" in ran.stderr, f"it ended with {ran.returncode}: {ran.stderr[-200:]}")
        expect(not files_below(root), "it installed something")


@contextlib.contextmanager
def masked_copy(place, name, mask):
    """A copy of the repository; meanwhile files are made with this mask."""
    copy, before = copy_of_top(place, name), os.umask(mask)
    try:
        yield copy
    finally:
        os.umask(before)


def all_written(copy, day):
    """Each file of a copy as it were written on a day."""
    done(["find", copy, "-type", "f", "-exec", "touch", "-d", day, "{}", "+"])


def packed(tally, root):
    """Two packings of the same program, of copies with other masks and times, are equal; what one holds installs what the repository does."""
    with folder() as place:
        tarballs = []
        for mask in (0o022, 0o077):
            with tally.run(f"make dist with a mask of {mask:03o}"):
                with masked_copy(place, f"copy{mask:o}", mask) as copy:
                    if mask != 0o022:
                        done(["chmod", "-R", "go-rwx", copy])
                        all_written(copy, "2001-02-03")
                    make(copy, "dist", f"PROGRAM={BINARY}")
                names = sorted(os.listdir(os.path.join(copy, "out")))
                expect(len(names) == 2 and names[1] == names[0] + ".sha256", f"it left {names}")
                done(["sha256sum", "-c", names[1]], cwd=os.path.join(copy, "out"))
                tarballs.append(os.path.join(copy, "out", names[0]))
        with tally.run("the bytes of two tarballs"):
            expect(len(tarballs) == 2 and filecmp.cmp(*tarballs, False), "they differ")
        with tally.run("the tarball"):
            unpacked = os.path.join(place, os.path.basename(tarballs[0]).removesuffix(".tar.gz"))
            done(["tar", "-xzf", tarballs[0], "-C", place])
            done(["sha256sum", "-c", "SHA256"], cwd=unpacked)
            second = os.path.join(place, "root")
            make(unpacked, "install", f"DESTDIR={second}", "PREFIX=/usr")
            expect(files_below(second) == files_below(root), f"it installs {set(files_below(second)) ^ set(files_below(root))}")
            _, other, errors = filecmp.cmpfiles(root, second, files_below(root), False)
            expect(not other and not errors, f"it installs other bytes in {other[:3]}")


def versions(tally):
    with tally.run("the version"):
        version = run(["--version"])[1].decode().split()[1]
        newest = version if "-" not in version else "Unreleased"    # between releases the version ends with -dev
        for name, form, due in (("CHANGELOG.md", r"^## \[(.*?)\]", newest), ("debian/changelog", r"^ssikvd \((.*?)\)", version.replace("-", "~"))):
            found = re.findall(form, text_of(name), re.M)
            expect(found and found[0] == due, f"{name} has {found}, not {due}")
    with tally.run("the versions that are supported"):
        newest, *older = dict.fromkeys(re.findall(r"^## \[(\d+\.\d+)\.", text_of("CHANGELOG.md"), re.M))
        found = re.findall(r"^\| ([\d.]+) \| (\w+) \|", text_of("SECURITY.md"), re.M)
        expect(found == [(newest, "yes"), *((it, "no") for it in older)], f"SECURITY.md has {found}, and CHANGELOG.md names {newest} and {older}")


# The Debian package

# Over a copy of the system that is thrown away: what is written goes to a folder of its own, and the mounts end with this process.
OVER_A_COPY = """
mount -t overlay overlay -o "lowerdir=/,upperdir=$1/upper,workdir=$1/work" "$1/root"
mount --rbind /dev "$1/root/dev"
mount -t proc proc "$1/root/proc"
exec chroot "$1/root" sh -euc "$2" sh "$3" "$4" "$5"
"""
INSTALL_AND_REMOVE = """
dpkg -i "$1" > /dev/null
test "$(stat -c '%U %G %a' /var/lib/ssikvd)" = 'ssikvd ssikvd 700'
runuser -u ssikvd -- ssikvd create --data /var/lib/ssikvd/shop.data --sectors 8
if command -v redis-cli > /dev/null; then PORT=$3 "$2"; fi
dpkg -r ssikvd > /dev/null
test ! -e /usr/bin/ssikvd
test -e /etc/default/ssikvd
dpkg -P ssikvd > /dev/null
test "$(runuser -u ssikvd -- stat -c %s /var/lib/ssikvd/shop.data)" = 4096
"""
DEBIAN_PATH = {**os.environ, "PATH": "/usr/sbin:/usr/bin:/sbin:/bin", "DEBIAN_FRONTEND": "noninteractive"}


def quick_start(tally):
    """The quick start of README.md, which is the package's own test."""
    if left_out("debian/tests/quick-start", "redis-cli"):
        return
    with folder() as place, tally.run("debian/tests/quick-start"):
        os.symlink(BINARY, os.path.join(place, "ssikvd"))
        path = f"{place}:{os.environ['PATH']}"
        done([os.path.join(TOP, "debian/tests/quick-start")], env={**os.environ, "PATH": path, "PORT": str(free_port())})


def without_program(tally, copy):
    with tally.run("a package without a program"):
        ran = subprocess.run(["debian/rules", "build"], cwd=copy, capture_output=True, text=True, timeout=6 * PATIENCE, env=DEBIAN_PATH)
        expect(ran.returncode and "there is no program" in ran.stderr, f"it ended with {ran.returncode}: {ran.stderr[-300:]}")


def built_package(copy):
    """Builds the package in a copy of the repository: its file, which lies next to the copy."""
    os.makedirs(os.path.join(copy, "crates/ssikvd/out"), exist_ok=True)
    shutil.copy(BINARY, os.path.join(copy, "crates/ssikvd/out/ssikvd"))
    done(["dpkg-buildpackage", "-us", "-uc", "-b"], 600, cwd=copy, env=DEBIAN_PATH)
    place = os.path.dirname(copy)
    found = [name for name in os.listdir(place) if name.endswith(".deb")]
    expect(len(found) == 1, f"{found} were built")
    return os.path.join(place, found[0])


def package(tally):
    """Builds the package, looks at it, and installs, tries, removes and purges it over a copy of the system."""
    if left_out("the Debian package", "dpkg-buildpackage") or left_out("the Debian package", "dh"):
        return
    with folder() as place:
        copy = copy_of_top(place, "source")
        without_program(tally, copy)
        deb = None
        with tally.run("dpkg-buildpackage"):
            deb = built_package(copy)
        if not deb:
            return
        changes = deb.removesuffix(".deb") + ".changes"
        if not left_out("lintian", "lintian"):
            with tally.run("lintian"):
                said = done(["lintian", "--allow-root", "--fail-on", "error,warning", changes], 300, env=DEBIAN_PATH)
                expect(not said, f"it says {said[:300]}")
        with tally.run("the program in the package"):
            done(["dpkg-deb", "-x", deb, os.path.join(place, "unpacked")])
            expect(filecmp.cmp(os.path.join(place, "unpacked/usr/bin/ssikvd"), BINARY, False), "its bytes were changed")
        install_package(tally, place, deb, os.path.join(copy, "debian/tests/quick-start"))


def committed(copy, *tags):
    """Makes a repository of a copy, with one commit of these tags."""
    git = ["git", "-C", copy, "-c", "user.name=harness", "-c", "user.email=harness@localhost"]
    for words in (["init", "-q"], ["add", "-A"], ["commit", "-q", "-m", "all"], *(["tag", tag] for tag in tags)):
        done(git + words)


def refused_releases(tally):
    """What is no release: a version of between two, a commit without the tag of its version, and one with changes since."""
    if left_out("make release", "git"):
        return
    with folder() as place:
        between = os.path.join(place, "ssikvd")
        with open(between, "w", encoding="ascii") as file:
            file.write("#!/bin/sh\necho ssikvd 0.3.0-dev\n")
        os.chmod(between, 0o755)
        number = run(["--version"])[1].decode().split()[1]
        for what, tag, program, is_changed, due in (
            ("between two releases", "v0.3.0-dev", between, False, "which is no release"),
            ("without its tag", "v0.0.0", BINARY, False, f"this is not the commit with the tag v{number}"),
            ("with changes", f"v{number}", BINARY, True, "or it has changes"),
        ):
            with tally.run(f"make release {what}"):
                copy = os.path.join(place, what)
                os.mkdir(copy)
                for name in ("Makefile", "CHANGELOG.md"):
                    shutil.copy(os.path.join(TOP, name), copy)
                committed(copy, tag)
                if is_changed:
                    os.truncate(os.path.join(copy, "CHANGELOG.md"), 10)
                ran = subprocess.run(["make", "-C", copy, "release", f"PROGRAM={program}"], capture_output=True, text=True, timeout=6 * PATIENCE, check=False)
                expect(ran.returncode and due in ran.stderr and not os.path.exists(os.path.join(copy, "out")), f"it answered {ran}")


def released(tally):
    """Two releases of the same program, of copies with other masks and times, one of them a commit with its tag, are equal."""
    if left_out("make release", "dpkg-buildpackage") or left_out("make release", "dh"):
        return
    with folder() as place:
        sums = []
        for mask in (0o022, 0o077):
            with tally.run(f"make release with a mask of {mask:03o}"):
                with masked_copy(place, f"a copy {mask:o}", mask) as copy:
                    all_written(copy, f"200{mask % 9}-02-03")
                    if mask == 0o022 and shutil.which("git"):
                        committed(copy, "v" + run(["--version"])[1].decode().split()[1])
                    done(["make", "-C", copy, "release", f"PROGRAM={BINARY}"], 600, env=DEBIAN_PATH)
                out = os.path.join(copy, "out")
                done(["sha256sum", "--check", "SHA256SUMS"], cwd=out)
                with open(os.path.join(out, "SHA256SUMS"), encoding="ascii") as file:
                    sums.append(file.read())
                expect(sums[-1].count("\n") == 2, f"it has the sums {sums[-1]}")
        with tally.run("the bytes of two releases"):
            expect(len(sums) == 2 and sums[0] == sums[1], f"they differ: {sums}")


def install_package(tally, place, deb, test):
    folders = [os.path.join(place, name) for name in ("upper", "work", "root")]
    for name in folders:
        os.mkdir(name)
    over = ["unshare", "-m", "sh", "-euc", OVER_A_COPY, "sh", place]
    can = os.geteuid() == 0 and not subprocess.run([*over, "true", "", "", ""], capture_output=True, timeout=6 * PATIENCE, env=DEBIAN_PATH).returncode
    if not can:
        print("  dpkg -i: not run, for want of root and an overlay of the system", flush=True)
        return
    with tally.run("dpkg -i, -r and -P"):
        done([*over, INSTALL_AND_REMOVE, deb, test, str(free_port())], 300, env=DEBIAN_PATH)
        written = [os.path.relpath(os.path.join(at, name), folders[0]) for at, below, names in os.walk(folders[0]) for name in below + names]
        found = [name for name in written if "ssikvd" in os.path.basename(name)]
        expect(found == ["var/lib/ssikvd"], f"left behind: {found}")


class Installing(Harness):
    NAME = "installing"
    NEEDS = (PROGRAM,)
    PARTS = (first_manual, other_manuals, manuals_of_tools, man_lints, help_examples, completions, versions, quick_start)
    PARTS_OF_LONG = (package, released)

    def test_make(self):
        with folder() as place:
            root = os.path.join(place, "a root")
            os.mkdir(root)
            if not left_out("make install, uninstall and dist", "make"):
                installed(self.tally, root)
                packed(self.tally, root)
                uninstalled(self.tally, root)
                refused_releases(self.tally)


if __name__ == "__main__":
    run_harness()
