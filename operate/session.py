"""The sessions of serve, one after the other over one input."""
import collections
import fcntl
import os
import select
import subprocess

from day import Day
from ends import DISK_FAULT, FULL, MISMATCH, USAGE, Stop
from journal import end_of, is_in, judged, last_records, started
from kept import ACK, BLOCK, HELLO, Answers, acknowledgement, cut, number_at, put, read_books, refusal, sync_folder

DAY = b"\x01"
# The most frames that are handed on and have no answer, and how many answers at most are written without a sync.
WINDOW, UNSYNCED = 1024, 65536


class Desk:
    """What is kept from one session of serve to the next."""

    def __init__(self, options, request):
        self.options, self.request = options, request
        self.answers = Answers(os.path.join(options.folder, "answers"))
        self.lock()
        self.messages, marked = read_books(self.answers, options.folder)
        self.answers.mend()
        self.messages.mend()
        if options.first > self.answers.answered + 1:
            raise Stop(USAGE, "frame %d is the next one: the input may not begin with frame %d" % (
                self.answers.answered + 1, options.first))
        self.waiting, self.moved, self.synced = collections.deque(), 0, marked[0] if marked else 0
        self.day = Day(options, self.answers.answered, marked)

    def lock(self):
        try:
            fcntl.flock(self.answers.descriptor, fcntl.LOCK_EX | fcntl.LOCK_NB)
        except OSError:
            raise Stop(DISK_FAULT, "another run of this program works in %s: end it first" % self.options.folder)

    def write_mark(self):
        """Syncs both files, and then says how far they are on the disk, and with which byte the next frame of the input begins."""
        answers, messages, day = self.answers, self.messages, self.day
        answers.sync()
        messages.sync()
        position = 0 if day.over or day.position is None else day.position + self.moved
        mark = (answers.size, answers.answered, answers.accepted, answers.full, messages.size, messages.held, position)
        put(os.path.join(self.options.folder, "mark"), b" ".join(b"%d" % number for number in mark) + b"\n")
        self.synced = answers.answered

    def answer(self, frames):
        """Writes the answers of the frames that have waited longest for theirs."""
        if len(frames) > len(self.waiting):
            raise Stop(MISMATCH, "serve sent more answers than it was handed frames")
        self.answers.append(frames)
        for _ in frames:
            self.moved += len(self.waiting.popleft())
        if self.answers.answered - self.synced >= UNSYNCED:
            self.write_mark()

    def is_ending(self):
        """Whether no further frame is handed on."""
        return self.request.asked or bool(self.answers.full) or (self.day.is_over and not self.day.frames)

    def end(self):
        """The end, once a session has ended in good order and nothing is left to hand on."""
        self.write_mark()
        if self.answers.full:
            raise Stop(FULL, "frame %d was refused, since the journal takes no more records: begin a new journal with a greater "
                       "--limit and an empty folder, and hand the whole input on" % self.answers.full)
        fault = None if self.request.asked else self.day.fault()
        if fault:
            raise fault


class Session:
    """One run of serve: what it is handed, and what it sends."""

    def __init__(self, desk):
        self.desk, self.options = desk, desk.options
        words = [self.options.halts, self.options.journal, "serve", *self.options.serve]
        if desk.answers.greeting:
            words += ["--from", str(desk.messages.held + 1)]
        self.child = started(words, stdin=subprocess.PIPE, stdout=subprocess.PIPE)
        os.set_blocking(self.child.stdin.fileno(), False)
        self.unsent, self.rest, self.is_greeted, self.before, self.began = b"", b"", False, 0, desk.messages.size

    def run(self):
        """Goes on to the end of serve, and answers its exit code and its line."""
        try:
            while self.step():
                pass
            return end_of(self.child)
        finally:
            self.child.stdin.close()
            self.child.stdout.close()
            self.child.wait()

    def step(self):
        """Waits until a pipe or the input is ready, and moves what it has. False once serve has closed its output."""
        desk, child = self.desk, self.child
        self.hand_on()
        wants = self.is_greeted and not desk.is_ending() and not desk.day.frames
        reads = [child.stdout] + ([] if desk.request.asked else [desk.request]) + ([desk.day] if wants else [])
        readable, writable, _ = select.select(reads, [child.stdin] if self.unsent else [], [])
        if writable:
            self.send()
        if desk.day in readable:
            desk.day.fill()
        if child.stdout in readable:
            piece = os.read(child.stdout.fileno(), BLOCK)
            self.take(piece)
            return bool(piece)
        return True

    def hand_on(self):
        """Puts frames of the input into the window, and closes serve's input once all that will come has been sent. Where it is
        closed already, serve has ended, or will."""
        desk = self.desk
        if self.child.stdin.closed:
            return
        if self.is_greeted and not desk.is_ending():
            some = [desk.day.frames.popleft() for _ in range(min(len(desk.day.frames), WINDOW - len(desk.waiting)))]
            desk.waiting.extend(some)
            self.unsent += b"".join(some)
        if desk.is_ending() and not self.unsent and (self.is_greeted or desk.request.asked):
            self.child.stdin.close()

    def send(self):
        try:
            self.unsent = self.unsent[os.write(self.child.stdin.fileno(), self.unsent):]
        except BlockingIOError:
            pass
        except BrokenPipeError:
            self.unsent = b""
            self.child.stdin.close()

    def take(self, piece):
        """Writes the whole frames that serve has sent, messages before answers."""
        found, end = cut(self.rest + piece)
        self.rest = (self.rest + piece)[end:]
        messages = [frame for frame in found if frame[1] < HELLO]
        self.desk.messages.append(messages)
        if not self.is_greeted and (hello := next((frame for frame in found if frame[1] == HELLO), None)):
            self.greeted(hello)
        answers = [self.numbered_on(frame) for frame in found if frame[1] > HELLO]
        if answers:
            self.desk.answer(answers)

    def numbered_on(self, frame):
        """An answer as a session over the whole input has it: a Refused counts the frames of its own session."""
        return frame if frame[1] == ACK else refusal(number_at(frame) + self.before, frame[10:12])

    def greeted(self, hello):
        """Begins with the Hello. Where it can't, messages that may be another input's don't stay."""
        try:
            self.begin(hello)
        except Stop:
            self.desk.messages.cut_back(self.began)
            raise

    def begin(self, hello):
        """Finds which frames without an answer are held, and hands on those behind them."""
        desk = self.desk
        answers, messages, held, sent = desk.answers, desk.messages, number_at(hello), number_at(hello, 10)
        if answers.greeting is None:
            self.refuse_twice(held)
            answers.append([hello])
            answers.sync()
            sync_folder(self.options.folder)
            sync_folder(os.path.dirname(os.path.abspath(self.options.folder)))
            messages.held = sent
        if held < answers.accepted or sent != messages.held:
            raise Stop(MISMATCH, "the journal has %d records and %d messages, and %s has %d and %d: it is not the journal of this "
                       "folder, its disk lost what it had confirmed, or it was rolled before the folder had all messages" % (
                           held, sent, self.options.folder, answers.accepted, messages.held))
        if not desk.request.asked:
            self.settle(held, held - answers.accepted)
            self.before = answers.answered
            self.unsent = b"".join(desk.waiting)
            self.is_greeted = True

    def refuse_twice(self, held):
        """No Day is accepted twice. So where a new folder's input begins with one that the journal has, it had another folder."""
        day = self.desk.day
        frame = day.next(self.desk.request) if held else None
        if frame is not None:
            day.frames.appendleft(frame)
        if frame is not None and frame[1:2] == DAY and is_in(self.options.journal, frame):
            os.remove(day.kept)
            raise Stop(MISMATCH, "the journal has the first frame of this input already, and %s no answers: take the folder that the "
                       "input began with" % self.options.folder)

    def settle(self, held, lacking):
        """Answers the frames up to the last one that the journal holds, where `lacking` of its records have no answer yet."""
        desk, frames, accepted = self.desk, [], set()
        records = last_records(self.options.journal, lacking) if lacking else []
        for record in records:
            frames.append(self.unanswered(len(frames)))
            while frames[-1] != record:
                frames.append(self.unanswered(len(frames)))
            accepted.add(len(frames) - 1)
        refused = {}
        if len(frames) > len(accepted):
            refused = judged(self.options.halts, self.options.journal, held - lacking, frames)
        if len(records) != lacking or set(refused) != set(range(len(frames))) - accepted:
            raise Stop(MISMATCH, "what the journal holds behind record %d is not what the input has" % (held - lacking))
        answers, number = [], held - lacking
        for index in range(len(frames)):
            number += index in accepted
            is_refused = index in refused
            answers.append(refusal(desk.answers.answered + 1 + index, refused[index]) if is_refused else acknowledgement(number))
        desk.answer(answers)

    def unanswered(self, index):
        """The frame that stands so many frames behind the first one without an answer."""
        desk = self.desk
        if index == len(desk.waiting):
            frame = desk.day.next(desk.request)
            if frame is None:
                raise desk.day.fault() or desk.day.ended_early("the input has ended before the last record that the journal holds")
            desk.waiting.append(frame)
        if index >= WINDOW + UNSYNCED:
            raise Stop(MISMATCH, "the journal holds records behind record %d that the input has not: it is not the journal or the "
                       "input of this folder" % desk.answers.accepted)
        return desk.waiting[index]
