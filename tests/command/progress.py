"""Runs the command on a long file of INT96 times, with standard error and standard output as terminals or not.

The line of progress must stand on a standard error that is a terminal where standard output is none, and be erased at the end; nowhere else
is there a word. Argument: the command.
"""
import os
import pty
import re
import subprocess
import sys
import tempfile

command, = sys.argv[1:]
ERASE = b"\r\x1b[K"
COUNT = 5000


def left_on(terminal):
    """All that is written on a terminal until every writer has closed it."""
    taken = b""
    try:
        while piece := os.read(terminal, 65536):
            taken += piece
    except OSError:
        pass
    os.close(terminal)
    return taken


def run(file, *ends):
    """What the command leaves on a terminal that stands at some of its ends; elsewhere it must leave no word on standard error."""
    ours, theirs = pty.openpty()
    redirected = {"stdout": subprocess.DEVNULL, "stderr": subprocess.PIPE} | dict.fromkeys(ends, theirs)
    process = subprocess.Popen([command, "int96", "decode", "--file", file], stdin=subprocess.DEVNULL, **redirected)
    os.close(theirs)
    left = left_on(ours)
    said = b"" if "stderr" in ends else process.stderr.read()
    assert (process.wait(), said) == (0, b""), (process.returncode, said)
    return left


with tempfile.NamedTemporaryFile() as times:
    times.write((bytes(8) + (2440588).to_bytes(4, "little")) * COUNT)
    times.flush()
    told = run(times.name, "stderr")
    assert re.fullmatch(rb"(?:\r\x1b\[K\d+ values)+\r\x1b\[K", told), told
    assert run(times.name) == b""
    for ends in ("stdout",), ("stdout", "stderr"):
        lines = run(times.name, *ends)
        assert ERASE not in lines and lines.count(b"\n") == COUNT, lines[:200]
