"""Hostile use of `roll`: a part of .ci/hostile.

A roll is killed at drawn moments, over a disk that takes no byte more, with each allocation refused, and where the last record is no
Day; the base that it leaves is changed at each byte and cut at each length. Each time the journal holds the same records as before,
and what a session sends behind it is what one sends that nobody disturbed.
"""
import os
import random
import resource
import shutil
import signal
import subprocess
import time

from tried import (DAMAGED, DISK_FAULT, DONE, HALTS, HELLO, NOT_AT_DAY, NO_JOURNAL, NO_MEMORY, content, frames, halts, holds, made,
                   number_in, numbered, refuser)

DAY, DATE = 1, slice(10, 14)
HEADER = 16


def next_day(day):
    """The same day's frames, with the date of the day after it."""
    def later(frame):
        if frame[1] != DAY:
            return frame
        date = bytes([frame[10], frame[11], frame[12], frame[13] + 1])
        return frame[:DATE.start] + date + frame[DATE.stop:]
    return b"".join(later(frame) for frame in frames(day))


def last_base(journal):
    """The offset of the gate of the journal's last base; None where it has none."""
    data, at, found = content(journal), HEADER, None
    while data[at:at + 1] not in (b"", b"\0"):
        length = int.from_bytes(data[at + 1:at + 5], "big")
        found = at if length >> 31 else found
        at += 5 + length % (1 << 31)
    return found


def at_second_day(folder, day):
    """A journal of a day and of the next one's first record, what is left of that day, and the messages of both, of one session that
    nobody disturbs."""
    later = next_day(day)
    first = frames(later)[0]
    journal, whole = os.path.join(folder, "second"), os.path.join(folder, "both")
    made(whole)
    status, sent = halts([whole, "serve"], day + later)
    assert status == DONE
    made(journal)
    assert halts([journal, "serve"], day + first)[0] == DONE
    return journal, later[len(first):], frames(numbered(sent))


def passed_in(journal):
    """How many messages the records of a journal gave, as `status` tells."""
    return int(halts([journal, "status"])[1].split(b"messages ")[1].split()[0])


def goes_on(journal, left, messages, passed):
    """Whether a session over what is left gives just these messages but for the first so many, which a base has."""
    status, sent = halts([journal, "serve", "--from", "1"], left)
    return status == DONE and passed < len(messages) and frames(numbered(sent)) == messages[passed:]


def killed(folder, kills):
    draw = random.Random(20240604)
    _, day = halts(["-", "generate", "--symbols", "10", "--records", "20000"])
    before, left, messages = at_second_day(folder, day)
    lines, old = halts([before, "status"]), content(before)[:-1]
    journal, based, passed = os.path.join(folder, "rolled"), 0, passed_in(before)
    for count in range(kills):
        shutil.copyfile(before, journal)
        run = subprocess.Popen([HALTS, journal, "roll"], stdin=subprocess.DEVNULL, stdout=subprocess.DEVNULL, stderr=subprocess.DEVNULL)
        time.sleep(draw.random() * 0.008)
        run.send_signal(signal.SIGKILL)
        run.wait()
        is_based = last_base(journal) is not None
        based += is_based
        is_well = content(journal).startswith(old) and halts([journal, "status"]) == lines
        is_well = is_well and halts([journal, "roll"])[0] == DONE and last_base(journal) is not None
        rolled = content(journal)
        is_well = is_well and halts([journal, "roll"]) == (DONE, b"") and content(journal) == rolled
        if not is_well or not content(journal).startswith(old) or not goes_on(journal, left, messages, passed):
            holds(False, "after kill %d of a roll the journal has its batches, is rolled again, and is gone on from" % (count + 1))
    holds(passed > 0 and goes_on(before, left, messages, 0), "%d rolls were killed, %d of them with the base left: each journal has its "
          "batches byte for byte and is rolled again, and the %d messages behind that base, as the %d without one, are those of a session "
          "that nobody disturbed" % (kills, based, len(messages) - passed, len(messages)))


def no_day(folder, day):
    journal = os.path.join(folder, "nights")
    made(journal)
    empty = content(journal)
    holds(halts([journal, "roll"]) == (NOT_AT_DAY, b"") and content(journal) == empty, "a roll of no records writes nothing")
    halts([journal, "serve"], day)
    served = content(journal)
    holds(halts([journal, "roll"]) == (NOT_AT_DAY, b"") and content(journal) == served, "a roll behind another record than a Day writes nothing")
    holds(halts(["-", "roll"])[0] == DISK_FAULT, "a roll of no journal is a fault of the disk")


def limited_to(size):
    def limit():
        signal.signal(signal.SIGXFSZ, signal.SIG_IGN)
        resource.setrlimit(resource.RLIMIT_FSIZE, (size, size))
    return limit


def full_disk(folder, day):
    before, left, messages = at_second_day(folder, day)
    lines, size, passed = halts([before, "status"]), os.path.getsize(before), passed_in(before)
    for room in (0, 1, 4, 5, 6, 40):
        journal = os.path.join(folder, "tight")
        shutil.copyfile(before, journal)
        status, _ = halts([journal, "roll"], preexec_fn=limited_to(size + room))
        if status != DISK_FAULT or halts([journal, "status"]) != lines or halts([journal, "roll"])[0] != DONE \
                or not goes_on(journal, left, messages, passed):
            holds(False, "a roll over a disk with room for %d bytes is a fault of the disk, and one with room goes on" % room)
    holds(True, "a roll over a full disk is a fault of the disk, and the journal holds its records, which are rolled once there is room")


def refused_memory(folder, day):
    library = refuser(folder)
    if library is None:
        return
    before, _, _ = at_second_day(folder, day)
    lines, old, statuses = halts([before, "status"]), content(before), {}
    journal = os.path.join(folder, "poor")
    for behind in ("", "+"):
        for number in range(1, 100000):
            shutil.copyfile(before, journal)
            how = dict(os.environ, LD_PRELOAD=library, REFUSE=str(number) + behind)
            status, sent = halts([journal, "roll"], env=how)
            if status == DONE:
                break
            statuses[status] = statuses.get(status, 0) + 1
            if status not in (NO_MEMORY, DISK_FAULT) or sent or content(journal) != old or halts([journal, "status"]) != lines:
                holds(False, "a roll with allocation %d%s refused leaves the journal as it was" % (number, behind))
    holds(NO_MEMORY in statuses, "a roll with each allocation refused ended %s, and wrote nothing" % (
        " and ".join("%d times with %d" % (statuses[s], s) for s in sorted(statuses))))


def damage(folder, day):
    before, left, messages = at_second_day(folder, day)
    assert halts([before, "roll"])[0] == DONE
    assert halts([before, "serve"], frames(left)[0])[0] == DONE
    whole, start = content(before), last_base(before)
    ends, damaged = {DONE: 0, DAMAGED: 0, NO_JOURNAL: 0}, os.path.join(folder, "damaged base")

    def tried(data):
        with open(damaged, "wb") as file:
            file.write(data)
        status, said = halts([damaged, "serve"], b"")
        if status not in ends or (status != DONE and (content(damaged) != data or said[1:2] == bytes([HELLO]))):
            holds(False, "a journal that is not served stays as it is")
        if status == DONE and (halts([damaged, "roll"])[0] not in (DONE, NOT_AT_DAY) or halts([damaged, "status"])[0] != DONE):
            holds(False, "a journal that was served is rolled, or its last record is no day")
        ends[status] += 1

    for at in range(start, len(whole)):
        for change in (1, 2, 4, 8, 16, 32, 64, 128):
            tried(whole[:at] + bytes([whole[at] ^ change]) + whole[at + 1:])
        tried(whole[:at])
    tried(whole[:len(whole) - 1] + whole[start:])
    holds(ends[DAMAGED] > ends[DONE] > 0, "of %d journals that were changed or cut behind the gate of their base %d were served and %d "
          "damaged" % (sum(ends.values()), ends[DONE], ends[DAMAGED]))


def rolls(folder, day, kills):
    no_day(folder, day)
    full_disk(folder, day)
    refused_memory(folder, day)
    damage(folder, day)
    killed(folder, kills)
