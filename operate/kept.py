"""Frames, the files of answers and messages, and small files that are written whole."""
import os

from ends import DISK_FAULT, MISMATCH, Stop, tell

HELLO, ACK, REFUSED = 0x81, 0x82, 0x83
BAD_FIELD, JOURNAL_FULL = 3, 9
BLOCK = 1 << 16


def cut(data):
    """The whole frames at the front of some bytes, and how many bytes they take."""
    found, at, size = [], 0, len(data)
    while at < size and at + data[at] < size:
        end = at + 1 + data[at]
        found.append(data[at:end])
        at = end
    return found, at


def frames_of(read):
    """The whole frames of what `read` gives piece by piece, up to an empty piece."""
    rest = b""
    while piece := read():
        rest += piece
        found, end = cut(rest)
        rest = rest[end:]
        yield from found


def number_at(frame, offset=2):
    return int.from_bytes(frame[offset:offset + 8], "big")


class Book:
    """A file of frames, to which whole frames are appended. `count` takes a frame in, and is false where it may not come next."""

    def __init__(self, path):
        self.path, self.size, self.last = path, 0, b""
        self.descriptor = os.open(path, os.O_RDWR | os.O_CREAT | os.O_APPEND, 0o644)

    def read_on(self):
        """Counts the frames that stand behind those that were counted, up to the first that may not stand there."""
        at = self.size

        def read():
            nonlocal at
            piece = os.pread(self.descriptor, BLOCK, at)
            at += len(piece)
            return piece
        for frame in frames_of(read):
            if not self.count(frame):
                break
            self.size += len(frame)
            self.last = frame

    def mend(self):
        """Cuts off what stands behind the counted frames."""
        excess = os.fstat(self.descriptor).st_size - self.size
        if excess:
            self.cut_back(self.size)
            tell("the last %d bytes of %s were no whole frame that may stand there: they come again" % (excess, self.path))

    def append(self, frames):
        """Counts frames and writes them behind the others."""
        for frame in frames:
            if not self.count(frame):
                raise Stop(MISMATCH, "serve sent what can't come next in %s: %s" % (self.path, frame.hex()))
        data = b"".join(frames)
        self.size += len(data)
        try:
            while data:
                data = data[os.write(self.descriptor, data):]
        except OSError as error:
            raise Stop(DISK_FAULT, "%s could not be written (%s): make room, then start again" % (self.path, error.strerror))

    def cut_back(self, size):
        os.ftruncate(self.descriptor, size)

    def sync(self):
        os.fsync(self.descriptor)


class Answers(Book):
    """The Hello of the first session, and an Ack or a Refused for each frame of the input, numbered over the whole input."""

    def __init__(self, path):
        super().__init__(path)
        self.greeting, self.answered, self.accepted, self.full = None, 0, 0, 0

    def count(self, frame):
        size, kind = len(frame), frame[1:2]
        if self.greeting is None:
            if size != 18 or kind != bytes([HELLO]):
                return False
            self.greeting, self.accepted = frame, number_at(frame)
        elif size == 10 and frame[1] == ACK and number_at(frame) == self.accepted + 1:
            self.accepted += 1
            self.answered += 1
        elif size == 12 and frame[1] == REFUSED and number_at(frame) == self.answered + 1 and is_refusal(frame[10], frame[11]):
            self.answered += 1
            self.full = self.full or (self.answered if frame[10] == JOURNAL_FULL else 0)
        else:
            return False
        return True


class Messages(Book):
    """The numbered messages, from the first one on that the input brought about."""

    def __init__(self, path, before):
        super().__init__(path)
        self.held = before

    def count(self, frame):
        if not (len(frame) >= 18 and 0x11 <= frame[1] <= 0x19 and number_at(frame) == self.held + 1):
            return False
        self.held += 1
        return True

    def mend(self):
        """The last message comes again too, where it wasn't synced: where the machine fell, zeros may stand in its fields. In
        an answer they can't, since each of its bytes is told by those before it or may not be 0."""
        super().mend()
        if self.last:
            self.size -= len(self.last)
            self.held -= 1
            self.cut_back(self.size)


def is_refusal(code, field):
    return 1 <= code <= 9 and (1 <= field <= 7 if code == BAD_FIELD else field == 0)


def acknowledgement(number):
    return bytes([9, ACK]) + number.to_bytes(8, "big")


def refusal(number, reason):
    """A Refused with the code and the field that the two bytes of `reason` are."""
    return bytes([11, REFUSED]) + number.to_bytes(8, "big") + reason


def sync_folder(folder):
    descriptor = os.open(folder, os.O_RDONLY)
    try:
        os.fsync(descriptor)
    finally:
        os.close(descriptor)


def put(path, content):
    """Puts a file with this content in the place of the old one, on the disk too."""
    try:
        with open(path + ".new", "wb") as file:
            file.write(content)
            file.flush()
            os.fsync(file.fileno())
        os.replace(path + ".new", path)
        sync_folder(os.path.dirname(path))
    except OSError as error:
        raise Stop(DISK_FAULT, "%s could not be written (%s): make room, then start again" % (path, error.strerror))


def content_of(path):
    """The content of a file, empty where there is none."""
    try:
        with open(path, "rb") as file:
            return file.read()
    except FileNotFoundError:
        return b""


def read_books(answers, folder):
    """Reads the file of answers and that of messages from the mark on. Answers the second one, and up to which frame and byte
    of the input the mark stands, if one does."""
    path = os.path.join(folder, "messages")
    if not answers.count(os.pread(answers.descriptor, 18, 0)):
        if content_of(path):
            raise Stop(MISMATCH, "%s has messages, but no answers stand beside it: begin with an empty folder" % folder)
        return Messages(path, 0), None
    messages = Messages(path, number_at(answers.greeting, 10))
    sizes = [os.fstat(book.descriptor).st_size for book in (answers, messages)]
    mark = [int(word) for word in content_of(os.path.join(folder, "mark")).split() if word.isdigit()]
    if len(mark) != 7 or mark[0] > sizes[0] or mark[4] > sizes[1]:
        mark = [len(answers.greeting), 0, answers.accepted, 0, 0, messages.held, 0]
    answers.size, answers.answered, answers.accepted, answers.full, messages.size, messages.held, position = mark
    answers.read_on()
    messages.read_on()
    return messages, (mark[1], position)
