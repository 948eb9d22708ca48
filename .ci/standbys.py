"""Hostile use of `ship` and `standby`: a part of .ci/hostile.

A journal is shipped to a second one while either side is killed at drawn moments, and Parts are lost, repeated and sent in another
order. Each time the second journal holds the first records of the first one, with each that a Have counted; in the end both give the
same messages. Frames that are no Part, Parts that don't come next and records that may not follow get their replies; a disk takes no byte
more, each allocation is refused, and after each record of a short day the second journal is gone on from.
"""
import os
import random
import shutil
import signal
import subprocess
import tempfile
import time

from rolls import at_second_day, limited_to
from tried import (DAMAGED, DISK_FAULT, DONE, HALTS, NO_JOURNAL, NO_MEMORY, TOP, TRUNCATED, content, frames, halts, holds, made, numbered,
                   refuser)

PART, HAVE = 0xa1, 0xa2
RECORDS = os.path.join(TOP, "operate", "records")


def framed(body):
    return bytes([len(body)]) + body


def part(number, frame):
    """The Part of the record of an input frame."""
    return framed(bytes([PART]) + number.to_bytes(8, "big") + frame)


def have(count):
    return framed(bytes([HAVE]) + count.to_bytes(8, "big"))


def refused(place, code):
    return framed(bytes([0x83]) + place.to_bytes(8, "big") + bytes([code, 0]))


def last_have(replies):
    """The count of the last Have among the replies, 0 where there is none."""
    counts = [int.from_bytes(f[2:10], "big") for f in frames(replies) if f[1] == HAVE]
    return counts[-1] if counts else 0


def records_of(journal):
    """The records of a journal, as input frames."""
    return subprocess.run([RECORDS, journal], stdout=subprocess.PIPE, check=True).stdout


def messages_of(journal):
    """All that a session over no input sends of a journal."""
    status, sent = halts([journal, "serve", "--from", "1"])
    assert status == DONE
    return sent


def first_of(folder, day):
    """A journal of the records of a day."""
    journal = os.path.join(folder, "first")
    made(journal)
    assert halts([journal, "serve"], day)[0] == DONE
    return journal


def replies(folder, day):
    journal, records = os.path.join(folder, "second"), frames(day)
    second, other = records[1], framed(bytes([7]) + bytes(8))
    rows = (
        ("a Part twice", [part(1, records[0])] * 2, [have(1), have(1)]),
        ("a Part before the first", [part(2, second), part(1, records[0]), part(2, second)], [have(0), have(1), have(2)]),
        ("a Part of the number 0", [part(0, records[0])], [refused(1, 2)]),
        ("a Part of a number above the list", [part(1 << 63, records[0])], [have(0)]),
        ("a Part with a byte more", [framed(part(1, records[0])[1:] + b"\0")], [refused(1, 2)]),
        ("a Part with a byte fewer", [framed(part(1, records[0])[1:-1])], [refused(1, 2)]),
        ("a Part of no record", [part(1, framed(b"\x01"))], [refused(1, 2)]),
        ("a record that may not follow", [part(1, second), part(1, records[0])], [refused(1, 4), have(1)]),
        ("a day that may not follow", [part(1, records[0]), part(2, records[0])], [have(1), refused(2, 5)]),
        ("an empty body", [b"\0"], [refused(1, 2)]),
        ("frames of other kinds", [have(1), records[0], other], [refused(1, 1), refused(2, 1), refused(3, 1)]),
    )
    for batch in ("1", "2", "64"):
        for what, sent, want in rows:
            made(journal)
            got = halts([journal, "standby", "--batch", batch], b"".join(sent))
            if got != (DONE, b"".join(want)):
                holds(False, "%s is replied to, by batches of %s" % (what, batch))
    made(journal)
    cut = part(1, records[0]) + part(2, second)[:-1]
    holds(halts([journal, "standby"], cut) == (TRUNCATED, have(1)), "%d inputs of a standby have their replies, by batches of 1, 2 and 64, "
          "and one that ends inside a Part has those of the Parts before" % len(rows))
    made(journal, "--limit", "2")
    all_parts = b"".join(part(k + 1, record) for k, record in enumerate(records[:3]))
    holds(halts([journal, "standby"], all_parts) == (DONE, have(1) + have(2) + refused(3, 9)), "a standby of a lower limit refuses what it has no room for")
    os.remove(journal)
    holds(halts([journal, "standby"], all_parts) == (NO_JOURNAL, b"") and halts([journal, "ship"]) == (NO_JOURNAL, b"")
          and not os.path.exists(journal), "neither side makes a journal")


def shipped(journal, start, draw, killed):
    """What a ship sends from a number on, to its end or to a drawn moment at which it is killed."""
    with tempfile.TemporaryFile() as sent:
        run = subprocess.Popen([HALTS, journal, "ship", "--from", str(start)], stdin=subprocess.DEVNULL, stdout=sent, stderr=subprocess.DEVNULL)
        if killed:
            time.sleep(draw.random() * 0.006)
            run.send_signal(signal.SIGKILL)
        run.wait()
        sent.seek(0)
        return sent.read()


def harmed(data, draw):
    """The same frames with some lost, some repeated and some in another order; what is cut at the end stays there."""
    whole, out = frames(data), []
    tail = data[sum(len(f) for f in whole):]
    for frame in whole:
        kind = draw.random()
        if kind < 0.96:
            out.append(frame)
        if 0.92 < kind < 0.96:
            out.insert(draw.randint(max(0, len(out) - 9), len(out)), frame)
        if kind > 0.99 and out:
            out.insert(draw.randint(max(0, len(out) - 9), len(out)), frame)
    return b"".join(out) + tail


def taken(journal, data, draw, killed):
    """What a standby replies to some bytes, to its end or to a drawn moment at which it is killed."""
    with tempfile.TemporaryFile() as sent:
        run = subprocess.Popen([HALTS, journal, "standby", "--batch", str(draw.choice((1, 7, 64)))], stdin=subprocess.PIPE, stdout=sent, stderr=subprocess.DEVNULL)
        try:
            run.stdin.write(data)
            run.stdin.flush()
            if killed:
                time.sleep(draw.random() * 0.02)
                run.send_signal(signal.SIGKILL)
            run.stdin.close()
        except BrokenPipeError:
            pass
        run.wait()
        sent.seek(0)
        return sent.read()


def killed_pair(folder, kills):
    draw = random.Random(20240605)
    _, day = halts(["-", "generate", "--symbols", "10", "--records", "20000"])
    first = first_of(folder, day)
    second, all_records = os.path.join(folder, "second"), records_of(first)
    most, counts = len(frames(all_records)), [0, 0]
    made(second)
    count = rounds = 0
    while sum(counts) < kills or count < most:
        if count == most:
            made(second)
            count, rounds = 0, rounds + 1
        side = draw.randrange(2) if sum(counts) < kills else 2
        counts = [counts[k] + (side == k) for k in range(2)]
        data = shipped(first, count + 1, draw, side == 0)[:draw.randint(200, 60000) if side < 2 else None]
        count = max(count, last_have(taken(second, harmed(data, draw) if side < 2 else data, draw, side == 1)))
        held_now = records_of(second)
        if not all_records.startswith(held_now) or len(frames(held_now)) < count:
            holds(False, "after kill %d the second journal holds the first records, with each that was counted" % sum(counts))
        count = len(frames(held_now)) if side == 2 else count
    holds(messages_of(second) == messages_of(first), "%d ships and %d standbys were killed, with Parts lost, repeated and in another order, over %d copies: "
          "each time the second journal held the first records of the first one, with each that a Have counted, and in the end both send "
          "the same messages" % (counts[0], counts[1], rounds + 1))


def taken_over(folder, day):
    first, whole = first_of(folder, day), numbered(halts(["-", "replay"], day)[1])
    records, second = frames(records_of(first)), os.path.join(folder, "second")
    parts = frames(halts([first, "ship"])[1])
    for count in range(len(records) + 1):
        made(second)
        status, sent = halts([second, "standby"], b"".join(parts[:count]))
        if status != DONE or last_have(sent) != count or numbered(halts([second, "serve", "--from", "1"], b"".join(records[count:]))[1]) != whole:
            holds(False, "behind %d records the second journal is gone on from" % count)
    holds(len(parts) == len(records), "behind each of the %d records of a day the second journal is gone on from, with the messages of the first" % len(records))


def behind_a_base(folder, day):
    before, left, messages = at_second_day(folder, day)
    assert halts([before, "roll"])[0] == DONE
    copy = os.path.join(folder, "copy")
    shutil.copyfile(before, copy)
    held_before = len(frames(records_of(before)))
    assert halts([before, "serve"], left)[0] == DONE
    status, parts = halts([before, "ship"])
    first = frames(parts)[0]
    is_well = status == DONE and int.from_bytes(first[2:10], "big") == held_before + 1
    status, sent = halts([copy, "standby"], parts)
    holds(is_well and status == DONE and last_have(sent) == len(frames(records_of(before))) and messages_of(copy) == messages_of(before),
          "behind a base a ship begins with the next record, and a copy of the file from then goes on with it")


def poor(folder, day):
    first = first_of(folder, day)
    parts, second = halts([first, "ship"])[1], os.path.join(folder, "second")
    for room in (0, 1, 5, 40, 200):
        made(second)
        status, sent = halts([second, "standby"], parts, preexec_fn=limited_to(17 + room))
        held_now = records_of(second)
        if status != DISK_FAULT or not records_of(first).startswith(held_now) or len(frames(held_now)) < last_have(sent):
            holds(False, "a standby over a disk with room for %d bytes is a fault of the disk" % room)
        if halts([second, "standby"], parts)[0] != DONE or messages_of(second) != messages_of(first):
            holds(False, "and one with room goes on")
    holds(True, "a standby over a full disk is a fault of the disk, holds each record that it counted, and goes on once there is room")
    library = refuser(folder)
    if library is None:
        return
    ends = {"ship": 0, "standby": 0}
    for word, journal, stdin in (("ship", first, b""), ("standby", second, parts)):
        for number in range(1, 100000):
            made(second)
            old = content(journal)
            status, sent = halts([journal, word], stdin, env=dict(os.environ, LD_PRELOAD=library, REFUSE=str(number)))
            if status == DONE:
                break
            ends[word] += status == NO_MEMORY
            if status not in (NO_MEMORY, DISK_FAULT) or sent or content(journal) != old:
                holds(False, "a %s with allocation %d refused sends and writes nothing" % (word, number))
    holds(ends["ship"] > 0 and ends["standby"] > 0, "with each allocation refused %d ships and %d standbys ended with 10, and sent and wrote nothing" % (ends["ship"], ends["standby"]))


def damaged_pair(folder, day):
    first = first_of(folder, day)
    parts, whole, second = halts([first, "ship"])[1], content(first), os.path.join(folder, "second")
    counts = {DONE: 0, DAMAGED: 0, NO_JOURNAL: 0}
    for at in range(0, min(len(whole), 400)):
        data = whole[:at] + bytes([whole[at] ^ 64]) + whole[at + 1:]
        with open(second, "wb") as file:
            file.write(data)
        status, sent = halts([second, "ship"])
        same, replied = halts([second, "standby"], b"")
        counts[status] = counts.get(status, 0) + 1
        is_part = status == DONE or parts.startswith(sent) or sent == b""
        if status not in (DONE, DAMAGED, NO_JOURNAL) or same != status or replied or content(second) != data or not is_part:
            holds(False, "a journal whose byte %d is changed is shipped or told, and not written" % at)
    holds(counts[DAMAGED] > 0, "of %d journals with a changed byte %d were read whole and %d damaged, by both sides alike, and none was written" % (
        sum(counts.values()), counts[DONE], counts[DAMAGED]))


def standbys(folder, day, kills):
    replies(folder, day)
    taken_over(folder, day)
    behind_a_base(folder, day)
    poor(folder, day)
    damaged_pair(folder, day)
    killed_pair(folder, kills)
