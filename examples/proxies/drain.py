#!/usr/bin/env python3
"""Takes the server behind haproxy.cfg out of use, and back: `drain.py drain` before a restart or a compaction, `drain.py ready` behind it.

After `drain`, who is connected goes on, and who connects is disconnected at once, before the server has a byte of it. It waits until the last
connection has ended. Those that are left after --seconds are cut: a COMMIT under way on one of them has to be looked up.
"""
import argparse
import csv
import socket
import sys
import time

SERVER = "store/ssikvd"


def say(path, text):
    """What haproxy answers at its socket."""
    with socket.socket(socket.AF_UNIX) as link:
        link.settimeout(10)
        link.connect(path)
        link.sendall(text.encode() + b"\n")
        return b"".join(iter(lambda: link.recv(65_536), b"")).decode().strip()


def change(path, text):
    """Says what has no answer, unless it is refused."""
    answer = say(path, text)
    if answer:
        sys.exit(f"drain.py: haproxy answered {text!r}: {answer}")


def connections(path):
    """How many connections the server has from haproxy."""
    rows = csv.DictReader(say(path, "show stat").lstrip("# ").splitlines())
    return next(int(row["scur"]) for row in rows if f"{row['pxname']}/{row['svname']}" == SERVER)


def drain(path, seconds):
    change(path, f"set server {SERVER} state drain")
    end = time.monotonic() + seconds
    while connections(path) and time.monotonic() < end:
        time.sleep(0.05)
    left = connections(path)
    if left:
        change(path, f"shutdown sessions server {SERVER}")
    print(f"drained, {left} cut")


def main():
    parser = argparse.ArgumentParser(description=__doc__, formatter_class=argparse.RawDescriptionHelpFormatter)
    parser.add_argument("what", choices=("drain", "ready"))
    parser.add_argument("--socket", default="haproxy.socket", help="haproxy's socket for commands (default haproxy.socket)")
    parser.add_argument("--seconds", type=float, default=70, help="how long it waits for the last connection (default 70)")
    asked = parser.parse_args()
    if asked.what == "drain":
        drain(asked.socket, asked.seconds)
    else:
        change(asked.socket, f"set server {SERVER} state ready")


if __name__ == "__main__":
    main()
