"""The input: its frames that have no answer yet."""
import collections
import os
import select
import stat
import subprocess

from ends import BAD_TEXT, DONE, MISMATCH, READ_FAULT, TRUNCATED, USAGE, Stop
from journal import end_of, started
from kept import BLOCK, content_of, cut, put


class Day:
    """The frames of the input that have no answer yet. `number` is that of the next frame that is read, `over` how many are
    passed over still, and `position` the byte behind those that were passed over, where it is known."""

    def __init__(self, options, answered, marked):
        self.frames, self.rest, self.is_over, self.broken, self.packer = collections.deque(), b"", False, None, None
        self.kept = os.path.join(options.folder, "first")
        self.number, self.position = options.first, 0 if options.first == 1 else None
        self.descriptor = self.opened(options.input)
        self.is_file = stat.S_ISREG(os.fstat(self.descriptor).st_mode)
        if options.lines:
            self.packer = started([options.halts, "-", "pack", "--kind", "records"], stdin=self.descriptor, stdout=subprocess.PIPE)
            self.descriptor = self.packer.stdout.fileno()
        elif options.first == 1 and marked:
            self.seek(*marked)
        self.over = answered + 1 - self.number

    def seek(self, answered, position):
        """Begins behind the frames up to the mark, where the input is a file of frames."""
        if self.is_file and 0 < position <= os.fstat(self.descriptor).st_size:
            self.check(b"".join(cut(os.pread(self.descriptor, 256, 0))[0][:1]))
            self.position = os.lseek(self.descriptor, position, os.SEEK_SET)
            self.number = answered + 1

    @staticmethod
    def opened(path):
        if path == "-":
            return 0
        try:
            return os.open(path, os.O_RDONLY | os.O_CLOEXEC)
        except OSError as error:
            raise Stop(USAGE, "the input %s could not be opened (%s): mend its path" % (path, error.strerror))

    def fileno(self):
        return self.descriptor

    def check(self, frame):
        """The first frame of the input is kept, and has to be the same one at each start."""
        kept = content_of(self.kept)
        if not kept:
            put(self.kept, frame)
        elif kept != frame:
            raise Stop(MISMATCH, "the input is not the one that this folder began with: its first frame is another. Hand that one "
                       "on to its end, and begin this one with a folder of its own")

    def fill(self):
        """Reads once, and passes over the frames that have their answers."""
        try:
            piece = os.read(self.descriptor, BLOCK)
        except OSError as error:
            piece, self.broken = b"", Stop(READ_FAULT, "the input could not be read (%s): look at the reader, then start "
                                             "again" % error.strerror)
        self.is_over = not piece
        found, end = cut(self.rest + piece)
        self.rest = (self.rest + piece)[end:]
        if found and self.number == 1:
            self.check(found[0])
        self.number += len(found)
        if self.over:
            passed = found[:self.over]
            found = found[self.over:]
            self.over -= len(passed)
            if self.position is not None:
                self.position += sum(map(len, passed))
        self.frames.extend(found)

    def next(self, request):
        """The next frame, or None at the end of the input."""
        while not self.frames and not self.is_over:
            select.select([self, request], [], [])
            if request.asked:
                raise Stop(DONE, "")
            self.fill()
        return self.frames.popleft() if self.frames else None

    def fault(self):
        """What is to be told where the input has ended as it should not."""
        if self.broken:
            return self.broken
        if self.packer:
            code, line = end_of(self.packer)
            if code == BAD_TEXT:
                return Stop(BAD_TEXT, "%s: mend that line of the input, then start again; all before it has its answers" % line)
            if code != DONE:
                return Stop(READ_FAULT, "the input could not be read: pack ended with %d %s" % (code, line))
        if self.rest:
            return Stop(TRUNCATED, "the input ends inside frame %d: look at the reader, then start again" % self.number)
        if self.over:
            return self.ended_early("the input has ended %d frames before the first one without an answer" % self.over)
        return None

    def ended_early(self, line):
        """An input that is shorter than what it gave before: a file has been changed, a reader may do better."""
        if self.is_file:
            return Stop(MISMATCH, line + ": it is not the input of this folder")
        return Stop(TRUNCATED, line + ": look at the reader, then start again")

    def close(self):
        if self.packer:
            self.packer.stdout.close()
            self.packer.kill()
            self.packer.wait()
