"""What the parts of .ci/hostile share: the built program, its exit codes and frames, and how it is said what held."""
import os
import subprocess
import sys

TOP = os.path.dirname(os.path.dirname(os.path.realpath(__file__)))
CRATE = os.path.join(TOP, "crates", "halts")
HALTS = os.path.join(CRATE, "out", "halts")
DONE, TRUNCATED, READ_FAULT, SEND_FAULT, DISK_FAULT, DAMAGED, NO_JOURNAL, NO_MEMORY, BAD_TEXT, NOT_AT_DAY = 0, 3, 4, 5, 6, 8, 9, 10, 11, 12
HELLO, ACK, REFUSED = 0x81, 0x82, 0x83

held = []


def holds(is_so, what):
    """Says what was tried, and ends the run where it doesn't hold."""
    print(("holds: " if is_so else "FAILS: ") + what, flush=True)
    if not is_so:
        sys.exit(1)
    held.append(what)


def halts(words, stdin=b"", **how):
    """The exit code of a run and what it sent."""
    ran = subprocess.run([HALTS, *words], input=stdin, stdout=subprocess.PIPE, stderr=subprocess.DEVNULL, **how)
    return ran.returncode, ran.stdout


def made(journal, *limit):
    """An empty journal, in place of what stands there."""
    if os.path.exists(journal):
        os.remove(journal)
    status, _ = halts([journal, "format", *limit])
    assert status == DONE


def frames(data):
    """The whole frames of a stream, each with its byte of length."""
    at, found = 0, []
    while at < len(data) and at + 1 + data[at] <= len(data):
        found.append(data[at:at + 1 + data[at]])
        at += 1 + data[at]
    return found


def number_in(frame):
    return int.from_bytes(frame[2:10], "big")


def numbered(data):
    """The messages of a stream, without greetings, acknowledgements and refusals."""
    return b"".join(f for f in frames(data) if f[1] not in (HELLO, ACK, REFUSED))


def content(path):
    """What stands in a file, nothing where there is none."""
    try:
        with open(path, "rb") as file:
            return file.read()
    except FileNotFoundError:
        return b""


def refuser(folder):
    """What refuses an allocation of a program that it is loaded into; None where no C compiler is there."""
    library = os.path.join(folder, "refuse.so")
    try:
        subprocess.run(["cc", "-O1", "-shared", "-fPIC", "-o", library, os.path.join(TOP, ".ci", "refuse.c")], check=True)
    except FileNotFoundError:
        return None
    return library
