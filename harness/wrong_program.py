"""The program, wrong on purpose: `wrong_program.py -- OLD NEW PROGRAM WORD..` runs PROGRAM with these words, and where it prints or answers the text
OLD, it has NEW in its place. Both are Python's string escapes. Where OLD is empty, a bit of the data file is flipped after each command but `serve`.
It ends as the program does, also by a signal, and the program ends with it. `soak.py --sight` asks for it.
"""
import argparse
import contextlib
import ctypes
import os
import signal
import socket
import subprocess
import sys
import threading

PR_SET_PDEATHSIG = 1


def end_with_parent():
    ctypes.CDLL(None).prctl(PR_SET_PDEATHSIG, signal.SIGKILL)


def pass_on(source, target, old, new):
    """What comes from one socket goes to the other one, changed where a piece has the text whole."""
    with contextlib.suppress(OSError):
        while True:
            piece = source.recv(1 << 16)
            if not piece:
                break
            target.sendall(piece.replace(old, new))
    with contextlib.suppress(OSError):
        target.shutdown(socket.SHUT_WR)


def accept_all(front, port, old, new):
    while True:
        near, far = front.accept()[0], socket.create_connection(("127.0.0.1", port))
        for one in (near, far):
            one.setsockopt(socket.IPPROTO_TCP, socket.TCP_NODELAY, 1)
        for words in ((near, far, b"-", b"-"), (far, near, old, new)):
            threading.Thread(target=pass_on, args=words, daemon=True).start()


def serve(words, old, new):
    """A port of its own, whose connections lead to that of `serve`. The status."""
    process = subprocess.Popen(words, stdout=subprocess.PIPE, preexec_fn=end_with_parent)
    line = process.stdout.readline()
    if line.startswith(b"listening "):
        front = socket.create_server(("127.0.0.1", 0), backlog=500)
        threading.Thread(target=accept_all, args=(front, int(line.rsplit(b":", 1)[1]), old, new), daemon=True).start()
        os.write(1, b"listening 127.0.0.1:%d\n" % front.getsockname()[1])
    return process.wait()


def turn_a_bit(words):
    """A command, after which a bit of its data file is flipped. The status."""
    status = subprocess.run(words).returncode
    names = [word for option, word in zip(words, words[1:]) if option in ("--data", "--from")]
    with contextlib.suppress(OSError), open(names[0] if names else "", "r+b") as file:
        first = file.read(1)
        file.seek(0)
        file.write(bytes([first[0] ^ 1]) if first else b"")
    return status


def change_texts(words, old, new):
    """A command whose texts are changed. The status."""
    done = subprocess.run(words, capture_output=True)
    for stream, text in ((1, done.stdout), (2, done.stderr)):
        with contextlib.suppress(OSError):
            os.write(stream, text.replace(old, new))
    return done.returncode


def main():
    parser = argparse.ArgumentParser(description=__doc__, formatter_class=argparse.RawDescriptionHelpFormatter)
    for name in ("old", "new"):
        parser.add_argument(name, metavar=name.upper(), type=lambda text: text.encode().decode("unicode_escape").encode())
    parser.add_argument("words", nargs=argparse.REMAINDER, metavar="PROGRAM WORD..")
    asked = parser.parse_args()
    old, new, words = asked.old, asked.new, asked.words
    if not old:
        status = turn_a_bit(words) if words[1] != "serve" else subprocess.run(words, preexec_fn=end_with_parent).returncode
    elif words[1] == "serve":
        status = serve(words, old, new)
    else:
        status = change_texts(words, old, new)
    if status < 0:
        os.kill(os.getpid(), -status)
    return status


if __name__ == "__main__":
    sys.exit(main())
