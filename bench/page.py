#!/usr/bin/env python3
"""The tables of docs/PERFORMANCE.md, and the figures that other documents take from it, made from the results in bench/results.

    bench/page.py            looks whether the documents have them: prints what differs, and ends with status 1 if anything does
    bench/page.py --write    writes them into the documents

A table stands between the lines `<!-- bench/page.py: NAME -->` and `<!-- end -->`. A figure in a sentence is found by the words around it (QUOTED).
Each is the median of the slices or runs that `bench/measure.py` left. Needs Python 3 alone.
"""
import argparse
import json
import os
import re
import statistics
import sys

HERE = os.path.dirname(os.path.abspath(__file__))
TOP = os.path.normpath(os.path.join(HERE, ".."))
RESULTS = os.path.join(HERE, "results")
SERVERS = {"ssikvd": "ssikvd", "postgres": "PostgreSQL", "redis": "Redis", "etcd": "etcd", "stand-in": "C stand-in"}
PIPELINED, ONE = "pipelined", "one request at a time"
WORKS = {"read": "BEGIN, 4 GET, COMMIT", "write": "BEGIN, SET, COMMIT"}
SHOWN_CONNECTIONS = (1, 16, 64, 128)
PERCENTILES = ("p50_us", "p99_us", "p999_us")


# The results

def read(part):
    with open(os.path.join(RESULTS, part + ".json"), encoding="utf-8") as file:
        return json.load(file)


def median(values):
    values = [value for value in values if value is not None]
    return statistics.median(values) if values else None


def throughput():
    """The medians of each row, by work, way of sending, server and connections."""
    names = ("rate", *PERCENTILES)
    return {(row["work"], row["how"], row["server"], row["connections"]): {**{name: median(row[name]) for name in names}, "rates": row["rate"]}
            for row in read("throughput")["rows"]}


def rows():
    """The rows of workloads.py by what was measured and against whom."""
    return {(row["what"], row["peer"]): row for row in read("rows")["rows"]}


def loose_figures():
    """Those of workloads.py that have no peer, by what was measured."""
    return {figure["what"]: figure for figure in read("rows")["figures"]}


def scaled(part, row, figure):
    """A figure of scale.py by the size."""
    return {it["size"]: it["figures"][figure] for it in read(part)["rows"] if it["row"] == row and figure in it["figures"]}


def mixed(sync_ms, server, kind, who, figure):
    """A figure of those that read or that write, of readers_and_writers.py."""
    for row in read("readers_and_writers")["rows"]:
        if (row["sync_ms"], row["server"], row["kind"]) == (sync_ms, server, kind):
            return median([it[who][figure] for it in row["slices"]] if who else [it.get(figure) for it in row["slices"]])
    return None


def pauses():
    """The figures of each scene by the number of keys."""
    found = {}
    for row in read("pauses")["rows"]:
        found.setdefault(row["what"], {})[row["keys"]] = row["figures"]
    return found


# How figures are shown

def shown(value):
    """Three digits; of whole numbers all before the point are shown as zeros."""
    if value is None:
        return ""
    if value >= 100:
        return f"{float(f'{value:.3g}'):,.0f}"
    return f"{value:#.3g}".rstrip(".") if value >= 1 else f"{value:#.2g}"


def table(heads, lines):
    return ["| " + " | ".join(cells) + " |" for cells in [heads, ["---"] * len(heads), *lines]]


def host():
    head = read("head")
    kind, of = ("virtual processors", f", {head['virtual'].upper()}") if head["virtual"] else ("processors", "")
    return f"{head['processors']} {kind} ({head['model']}{of}), {head['memory_gb']:.0f} GB"


def versions():
    head = read("head")
    found = [re.search(pattern, head[name] or "") for name, pattern in (("postgres", r"\) ([\d.]+)"), ("redis", r"v=([\d.]+)"), ("etcd", r": ([\d.]+)"))]
    return ", ".join(f"{name} {it[1]}" for name, it in zip(("PostgreSQL", "Redis", "etcd"), found) if it)


# The tables

def head_table():
    head = read("head")
    yield from table(["What", "This run"], [
        ["Program", f"{head['version']}, commit `{head['commit'][:12]}`"],
        ["Host", host()],
        ["System", f"Linux {head['kernel']}, {head['libc']}; {head['disk']}; {head['in_memory'].split()[0]} for data in memory"],
        ["Others", versions()],
        ["Date", head["date"]],
        *(["Remark", remark] for remark in head["remarks"])])


def latency_cells(figures):
    """With the range of the rates where one is more than twice another."""
    least, most = min(figures["rates"]), max(figures["rates"])
    both = f" ({shown(least)} to {shown(most)})" if most > 2 * least else ""
    return [shown(figures["rate"]) + both, *(shown(figures[name] / 1000) for name in PERCENTILES)]


def throughput_table(work):
    found = throughput()
    lines = [
        [SERVERS[server], how, str(connections), *latency_cells(found[work, how, server, connections])]
        for how in (PIPELINED, ONE) for server in SERVERS for connections in SHOWN_CONNECTIONS if (work, how, server, connections) in found]
    yield from table(["Server", "Requests", "Connections", "Transactions a second", "p50, ms", "p99, ms", "p99.9, ms"], lines)


def rows_table():
    lines = []
    for row in read("rows")["rows"]:
        percentiles = [shown(row[name]) if name in row else "" for name in PERCENTILES]
        lines.append([row["what"], row["peer"], shown(row["rate"]), *percentiles, shown(row["peer_rate"]), f"{row['ratio']:.2f}",
                      "{:.2f} to {:.2f}".format(*row["middle_half"])])
    yield from table(["Workload", "Against", "ssikvd, a second", "p50, us", "p99", "p99.9", "the other, a second", "Ratio", "Interquartile range"], lines)


def figures_table():
    yield from table(["What", "Unit", "Figure"], [[it["what"], it["unit"], shown(it["figure"])] for it in read("rows")["figures"]])


def mixed_pairs():
    found = dict.fromkeys((row["sync_ms"], row["server"]) for row in read("readers_and_writers")["rows"])
    return [(sync, server) for sync in dict.fromkeys(it for it, _ in found) for server in SERVERS if (sync, server) in found]


def per_ms(value):
    return None if value is None else value / 1000


def readers_table():
    lines = []
    for sync, server in mixed_pairs():
        alone = shown(mixed(sync, server, "readers alone", "readers", "rate"))
        with_writers = shown(mixed(sync, server, "both", "readers", "rate"))
        times = [shown(per_ms(mixed(sync, server, "both", "readers", name))) for name in PERCENTILES]
        lines.append([f"{sync:g}", SERVERS[server], alone, with_writers, *times])
    yield from table(["A sync, ms", "Server", "16 readers alone, a second", "the same with 16 writers", "p50, ms", "p99, ms", "p99.9, ms"], lines)


def writers_table():
    lines = []
    for sync, server in mixed_pairs():
        one, alone, with_readers = (shown(mixed(sync, server, kind, "writers", "rate")) for kind in ("one writer", "writers alone", "both"))
        times = [shown(per_ms(mixed(sync, server, "writers alone", "writers", name))) for name in PERCENTILES]
        syncs = shown(mixed(sync, server, "writers alone", None, "syncs_a_commit"))
        lines.append([f"{sync:g}", SERVERS[server], one, alone, *times, with_readers, syncs])
    heads = ["A sync, ms", "Server", "1 writer, a second", "16 writers", "p50, ms", "p99, ms", "p99.9, ms", "with 16 readers", "Syncs a commit"]
    yield from table(heads, lines)


GROWTH = (
    ("fill", "us_per_key", "load in random order, 64 keys a commit, for each key, us"),
    ("fill", "cpu_us_per_key", "the same, CPU time, us"),
    ("fill", "longest_commit_ms", "the same, longest COMMIT, ms"),
    ("fill", "bytes_per_key", "the same, memory for each key, bytes"),
    ("insert", "us_per_key", "one more key among N, 64 a commit, us"),
    ("insert", "commit_of_1_us", "COMMIT of one new key, us"),
    ("read", "get_us", "GET among N keys, us"),
    ("read", "range_100_us", "RANGE of 100 among N keys, us"),
    ("deleted", "range_1_us", "RANGE of 1 over N deleted keys, us"),
    ("deleted", "cpu_range_1_us", "the same, CPU time, us"),
    ("old_reader", "cpu_range_1_beside_us", "the same, while a transaction from before is open, CPU time, us"),
    ("old_reader", "cpu_own_range_1_us", "RANGE of 1 of that one over N keys that came after its begin, CPU time, us"),
    ("old_end", "old_end_ms", "end of a transaction that saw N older versions, ms"),
    ("old_commit", "old_commit_ms", "COMMIT of an old transaction after N commits of 64 keys, ms"),
)


def growth_table():
    found = [(what, scaled("growth", row, figure)) for row, figure, what in GROWTH]
    sizes = (10_000, 100_000, 1_000_000)
    yield from table(["What", *(f"N = {size:,}" for size in sizes)], [[what, *(shown(of.get(size)) for size in sizes)] for what, of in found])


def opening_table():
    names = ("file_mb", "start_ms", "sha256sum_ms", "resident_mb", "bytes_per_key")
    found = {name: scaled("opening", "start", name) for name in names}
    lines = [[f"{keys:,}", *(shown(found[name][keys]) for name in names)] for keys in found["start_ms"]]
    yield from table(["Keys", "File, MB", "Opening, ms", "sha256sum of the file, ms", "Resident, MB", "Bytes a key"], lines)


def longest_pause(figures):
    """The longest pause of a scene, and that of its longest run, where that is more than twice as long."""
    least, most = figures.get("cpu_longest_ms"), max(figures.get("cpu_longest_of_runs_ms", [0]))
    return f"{shown(least)} (to {shown(most)})" if least and most > 2 * least else shown(least)


def pauses_table():
    lines = []
    for what, of in pauses().items():
        few, many = (of.get(size, {}) for size in (10_000, 1_000_000))
        lines.append([what, longest_pause(few), longest_pause(many),
                      *(shown(many.get(name)) for name in ("system_ms", "median_ms", "most_ms", "longest_ms", "client_late_ms"))])
    yield from table(["While", "Longest pause over 10,000 keys, ms of CPU time", "over 1,000,000", "of it the system's", "PING over 1,000,000: p50, ms",
                      "p99.9", "longest", "the client itself was late by"], lines)


# Of the scene that lasts, each round's figures.
AGAIN = "everything written again four times, in random order, while a transaction stays open"
ROUNDS = 4
ROUND_FIGURES = (
    ("round_longest_ms", "longest turn with a COMMIT, ms of CPU time"), ("round_most_ms", "p99.9 of these turns"), ("round_p99_ms", "p99"),
    ("round_median_ms", "median"), ("round_memory_mb", "memory of the server behind it, MB"))


def rounds_table():
    """A place stays empty until it is measured."""
    figures = pauses().get(AGAIN, {}).get(1_000_000, {})
    lines = [[head, *(shown(value) for value in figures.get(name, ROUNDS * [None]))] for name, head in ROUND_FIGURES]
    yield from table(["1,000,000 keys", *(f"Round {number + 1}" for number in range(ROUNDS))], lines)


def copies_table():
    found = read("copies")
    lines = [[name, *(shown(median(row["seconds"][name])) for row in found["rows"])] for name in found["rows"][0]["seconds"]]
    yield from table(["Seconds", *(f"keys written in {row['order']} order" for row in found["rows"])], lines)


def compactions_table():
    yield from table(["Keys", "Not served for, s", "The whole compaction, s"],
                     [[f"{row['keys']:,}", shown(median(row["not_served_s"])), shown(median(row["whole_s"]))] for row in read("compactions")["rows"]])


ALLOCATORS = (
    ("load_us", "load, us of CPU time a key"), ("again_us", "written again, us of CPU time a key"), ("end_ms", "end of an old transaction, longest turn, ms"),
    ("large_us", "the largest RANGE, us of CPU time"), ("crowd_ms", "60 clients with the largest RANGEs, longest turn, ms"),
    ("again_mb", "memory, filled and written again, MB"),
    ("later_mb", "after an old transaction, while all were written again, MB"),
    ("opened_again_mb", "started over the log in which each key is written three times, MB"),
    ("opened_mb", "started over a log in which each is written once, MB"))


def allocators_table():
    found = read("allocators")["rows"]
    measured = set.intersection(*(set(it) for of in found.values() for it in of))
    lines = [[what, *(shown(median(it[name] for it in of)) for of in found.values())] for name, what in ALLOCATORS if name in measured]
    yield from table(["100,000 keys", *found], lines)


def conflicts_table():
    lines = []
    for row in read("conflicts")["rows"]:
        shares = [f"{row[server][kind]:.1f}" for kind in ("refused", "structures") for server in ("ssikvd", "postgres")]
        lines.append([str(row["keys"]), str(row["sessions"]), *shares])
    yield from table(["Keys", "Sessions", "Refused: ssikvd", "PostgreSQL", "For a dangerous structure: ssikvd", "PostgreSQL"], lines)


def sizing_table():
    import sizing      # which takes its figures from here
    yield from sizing.lines()


TABLES = {
    "head": head_table, "reads": lambda: throughput_table("read"), "writes": lambda: throughput_table("write"), "rows": rows_table, "figures": figures_table,
    "readers": readers_table, "writers": writers_table, "growth": growth_table, "opening": opening_table, "pauses": pauses_table, "rounds": rounds_table,
    "copies": copies_table, "compactions": compactions_table, "allocators": allocators_table, "conflicts": conflicts_table, "sizing": sizing_table,
}


# Figures in sentences

def rounded(value, digits=2):
    """With so many digits, as a sentence says it."""
    value = float(f"{value:.{digits}g}")
    return f"{value:,.0f}" if value >= 10 ** (digits - 1) else f"{value:g}"


def bytes_of_key():
    """The least and the most that a key takes, loaded or opened, in tens."""
    found = [value for part, row in (("growth", "fill"), ("opening", "start")) for value in scaled(part, row, "bytes_per_key").values()]
    return [f"{min(found) // 10 * 10:.0f}", f"{-(-max(found) // 10) * 10:.0f}"]


def rate_of(what, peer):
    return rounded(rows()[what, peer]["rate"])


def rates_of_reads():
    """The rates of the slices in which 16 connections read four keys with one request at a time and nobody else does anything: those of each place
    of the run that measures this."""
    what = f"{WORKS['read']}, 16 connections, {ONE}"
    alone = (row for row in read("readers_and_writers")["rows"] if (row["server"], row["kind"]) == ("ssikvd", "readers alone"))
    return [
        throughput()["read", ONE, "ssikvd", 16]["rates"], *([it["readers"]["rate"] for it in row["slices"]] for row in alone),
        *(row["rates"] for (name, _), row in rows().items() if name == what),
        *(row["peer_rates"] for (name, peer), row in rows().items() if name.startswith(what) and peer == "without that")]


def least_and_most(values):
    values = list(values)
    return [rounded(min(values)), rounded(max(values))]


def opening_s(keys):
    return f"{scaled('opening', 'start', 'start_ms')[keys] / 1000:.1f}"


def two_syncs_ms():
    return f"{1e3 / rows()['BEGIN, SET, COMMIT, 16 connections, one request at a time', 'the device, two syncs']['peer_rate']:.2f}"


def most_commits():
    """Of small ones a second, over any number of connections, one request at a time or pipelined."""
    return rounded(max(it["rate"] for (work, _, server, _), it in throughput().items() if (work, server) == ("write", "ssikvd")))


def gates_a_second():
    return float(f"{median(read('compactions')['gates_a_second']):.2g}")


def followed_a_second():
    return float(f"{median(read('compactions')['followed_a_second']):.2g}")


def read_a_second():
    """Small records, of an opening of 100,000."""
    return next(100_000 * row["rate"] for (what, _), row in rows().items() if what.startswith("Opening a log of 100,000 commits"))


def copied_a_second():
    return next(row["keys"] / median(row["seconds"]["compact"]) for row in read("copies")["rows"] if row["order"] == "random")


def of_allocator(name, figure):
    return median(it[figure] for it in read("allocators")["rows"][name])


def stopped_s():
    """For how many seconds clients weren't served in a compaction of so many keys."""
    return {row["keys"]: median(row["not_served_s"]) for row in read("compactions")["rows"]}


# Of each document the words around figures, whose places are the groups, and what the figures are.
QUOTED = (
    ("README.md", r"([\d,]+) to ([\d,]+) transactions of four reads a second, ([\d,]+) durable commits, ([\d,]+) PINGs", lambda: [
        *least_and_most(median(rates) for rates in rates_of_reads()),
        rate_of("BEGIN, SET, COMMIT, 16 connections, one request at a time", "the device, two syncs"),
        rate_of("PING, 16 connections", "C epoll echo")]),
    ("README.md", r"a million keys are read in ([\d.]+) s", lambda: [opening_s(1_000_000)]),
    ("README.md", r"(\d+) to (\d+) bytes for a key of 16 bytes with a value of 100", bytes_of_key),
    ("docs/PERFORMANCE.md", r"writes and two syncs of a commit take ([\d.]+) ms", lambda: [two_syncs_ms()]),
    ("docs/PERFORMANCE.md", r"slices of this run had ([\d,]+) to ([\d,]+) transactions of four reads a second", lambda: least_and_most(
        rate for rates in rates_of_reads() for rate in rates)),
    ("docs/OPERATIONS.md", r"A disk that took ([\d.]+) milliseconds to write a small record with its two syncs gave ([\d,]+) commits", lambda: [
        two_syncs_ms(), rate_of("BEGIN, SET, COMMIT, 16 connections, one request at a time", "the device, two syncs")]),
    ("docs/OPERATIONS.md", r"takes any rate that was measured over a disk, up to ([\d,]+) a second", lambda: [most_commits()]),
    ("docs/OPERATIONS.md", r"A million keys took ([\d.]+) seconds, and 100,000 commits of one key ([\d.]+) seconds", lambda: [
        opening_s(1_000_000), rounded(100_000 / read_a_second())]),
    ("docs/OPERATIONS.md", r"gone over, at ([\d,]+) small records a second", lambda: [f"{gates_a_second():,.0f}"]),
    ("docs/OPERATIONS.md", r"the copy has followed, at (\d[\d,]*\d)", lambda: [f"{followed_a_second():,.0f}"]),
    ("docs/OPERATIONS.md", r"served for ([\d.]+) seconds in a compaction of 100,000 keys, and for ([\d.]+) in one of a million", lambda: [
        f"{stopped_s()[keys]:.1f}" for keys in (100_000, 1_000_000)]),
    ("docs/OPERATIONS.md", r"A million keys take ([\d.]+) to ([\d.]+) seconds", lambda: sorted(
        f"{median(row['seconds']['compact']):.1f}" for row in read("copies")["rows"])),
    ("docs/OPERATIONS.md", r"After 100,000 keys that had been written again, the longest turn took ([\d.]+) ms", lambda: [
        f"{of_allocator('C library', 'end_ms'):.1f}"]),
    ("docs/OPERATIONS.md", r"such clients took ([\d.]+) ms with the C library, and ([\d.]+) ms with jemalloc", lambda: [
        f"{of_allocator(name, 'crowd_ms'):.1f}" for name in ("C library", "jemalloc")]),
    ("docs/OPERATIONS.md", r"the largest RANGEs then take ([\d.]+) times the CPU time", lambda: [
        f"{of_allocator('jemalloc, decay at once', 'large_us') / of_allocator('jemalloc', 'large_us'):.1f}"]),
    ("docs/OPERATIONS.md", r"`serve` for that file: ([\d,]+) MB where that takes ([\d,]+)", lambda: [
        f"{read('copies')['most_mb']:,.0f}", f"{scaled('opening', 'start', 'resident_mb')[1_000_000]:,.0f}"]),
    ("docs/OPERATIONS.md", r"An idle connection takes (\d+) KiB more", lambda: [
        f"{next(it['figure'] for what, it in loose_figures().items() if what.startswith('Resident memory of a connection')):.0f}"]),
)


# Writing and comparing

def path_of(name):
    return os.path.join(TOP, name)


def read_text(name):
    with open(path_of(name), encoding="utf-8") as file:
        return file.read()


def with_tables(text):
    """The text with each table as the results make it."""
    def made(found):
        return "\n".join([found[1], *TABLES[found[2]](), found[3]])

    return re.sub(r"(<!-- bench/page\.py: (\w+) -->)\n.*?(<!-- end -->)", lambda found: made(found) if found[2] in TABLES else found[0], text, flags=re.S)


def with_figures(name, text):
    """The text with each figure of this document as the results have it, and what was to be found and isn't there."""
    gone = []
    for document, pattern, figures in QUOTED:
        if document != name:
            continue
        # Words of the text may stand on two lines.
        found = re.search(pattern.replace(" ", r"\s+"), text)
        if not found:
            gone.append(f"{name} doesn't say {pattern}")
            continue
        made, at = "", found.start()
        for number, figure in enumerate(figures(), 1):
            made, at = made + text[at:found.start(number)] + figure, found.end(number)
        text = text[:found.start()] + made + text[at:]
    return text, gone


def documents():
    return sorted({"docs/PERFORMANCE.md", "docs/OPERATIONS.md", *(document for document, _, _ in QUOTED)})


def main():
    parser = argparse.ArgumentParser(description=__doc__, formatter_class=argparse.RawDescriptionHelpFormatter)
    parser.add_argument("--write", action="store_true", help="write them into the documents")
    options = parser.parse_args()
    wrong, unused = [], set(TABLES)
    for name in documents():
        text = read_text(name)
        names = set(re.findall(r"<!-- bench/page\.py: (\w+) -->", text))
        wrong += [f"{name}: there is no table {unknown}" for unknown in sorted(names - set(TABLES))]
        unused -= names
        made, gone = with_figures(name, with_tables(text))
        wrong += gone
        if options.write:
            with open(path_of(name), "w", encoding="utf-8") as file:
                file.write(made)
        elif made != text:
            changed = [new for old, new in zip(text.splitlines(), made.splitlines()) if old != new]
            wrong.append(f"{name} isn't as bench/page.py writes it: {changed[0] if changed else 'a table has another length'}")
    wrong += [f"no document has the table {name}" for name in sorted(unused)]
    for line in wrong:
        print(line)
    return 1 if wrong else 0


if __name__ == "__main__":
    sys.exit(main())
