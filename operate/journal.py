"""The journal, which is only read, and the programs that are run over it."""
import collections
import fcntl
import itertools
import mmap
import os
import subprocess
import threading

from ends import DONE, USAGE, Ended, Stop
from kept import BLOCK, REFUSED, cut, frames_of, number_at

# what the length of a base has more than its bytes
BASE = 1 << 31


def batches(path):
    """Where the frames of each batch stand in the journal, and how many bytes they have. Bases are passed."""
    at = 16
    with open(path, "rb", buffering=0) as file:
        while (head := os.pread(file.fileno(), 5, at))[:1] not in (b"", b"\0"):
            size = int.from_bytes(head[1:], "big")
            if size < BASE:
                yield at + 5, size
            at += 5 + size % BASE


def records_in(path, places):
    """The records of these batches, one after the other."""
    with open(path, "rb", buffering=0) as file:
        for at, size in places:
            yield from cut(os.pread(file.fileno(), size, at))[0]


def last_records(path, count):
    """The last so many records of the journal: they stand in as many batches at most, since each has one."""
    places = collections.deque(batches(path), maxlen=count)
    return list(collections.deque(records_in(path, places), maxlen=count))


def is_in(path, frame):
    """Whether the bytes of a frame stand in the journal."""
    with open(path, "rb") as file, mmap.mmap(file.fileno(), 0, access=mmap.ACCESS_READ) as content:
        return content.find(frame) >= 0


def is_held(path):
    """Whether another run holds the journal."""
    try:
        descriptor = os.open(path, os.O_RDONLY | os.O_NONBLOCK)
    except OSError:
        return False
    try:
        fcntl.flock(descriptor, fcntl.LOCK_EX | fcntl.LOCK_NB)
    except BlockingIOError:
        return True
    except OSError:
        return False
    finally:
        os.close(descriptor)
    return False


def started(words, **streams):
    """A run of a program in a process group of its own, so that what a terminal sends this program alone gets."""
    try:
        return subprocess.Popen(words, stderr=subprocess.PIPE, bufsize=0, process_group=0, **streams)
    except OSError as error:
        raise Stop(USAGE, "%s could not be started (%s): build it by .ci/build, or name it by --halts" % (words[0], error.strerror))


def end_of(child):
    """The exit code of a program that has ended or will, and the first line that it told, without its first word."""
    told = child.stderr.read().decode(errors="replace").strip().partition("\n")[0]
    return child.wait(), told.removeprefix("halts: ")


def feed(pipe, frames):
    """Writes frames, many at once, and closes."""
    try:
        while some := list(itertools.islice(frames, 4096)):
            data = b"".join(some)
            while data:
                data = data[os.write(pipe.fileno(), data):]
        pipe.close()
    except OSError:
        pass


def judged(halts, journal, count, frames):
    """How frames are refused behind the first so many records of the journal: the code and the field of each, by its index."""
    child = started([halts, "-", "replay"], stdin=subprocess.PIPE, stdout=subprocess.PIPE)
    held = itertools.islice(records_in(journal, batches(journal)), count)
    feeder = threading.Thread(target=feed, args=(child.stdin, itertools.chain(held, frames)))
    feeder.start()
    refused = {number_at(frame) - count - 1: frame[10:12]
               for frame in frames_of(lambda: os.read(child.stdout.fileno(), BLOCK)) if frame[1] == REFUSED}
    code, line = end_of(child)
    feeder.join()
    child.stdin.close()
    child.stdout.close()
    if code != DONE:
        raise Ended(code, "replay: " + line)
    return refused
