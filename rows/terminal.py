"""A program with a pseudo-terminal as its standard error: for rows/faults and rows/summary."""
import os
import pty
import subprocess


def read_open(end):
    """What comes through the end of a pseudo-terminal until nobody has the other open."""
    told = b""
    while True:
        try:
            part = os.read(end, 65536)
        except OSError:
            return told
        if not part:
            return told
        told += part


def run_at_terminal(words, given, environment):
    """Standard output, standard error with plain ends of lines, and the status."""
    end, other = pty.openpty()
    with open("terminal.out", "wb") as out:
        program = subprocess.Popen(words, stdin=given, stdout=out, stderr=other, env=environment)
        os.close(other)
        told = read_open(end)
        status = program.wait()
        # Linux may tell that the other end is closed before it gives what was written there just before.
        told += read_open(end)
        os.close(end)
    with open("terminal.out", "rb") as out:
        return out.read(), told.replace(b"\r\n", b"\n"), status
