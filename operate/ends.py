"""The ends of the programs: their exit codes, what each asks for, and the lines that are told."""
import os

DONE, USAGE, TRUNCATED, READ_FAULT, SEND_FAULT, DISK_FAULT, SESSION_FULL = 0, 2, 3, 4, 5, 6, 7
DAMAGED, NO_JOURNAL, NO_MEMORY, BAD_TEXT, MISMATCH, FULL = 8, 9, 10, 11, 12, 13
# Ends of serve behind which it is started again, however often.
GOES_ON = (DONE, TRUNCATED, READ_FAULT, SEND_FAULT, SESSION_FULL)
ASKS = {
    USAGE: "the program is of another version, or a value of an option is out of its range: mend the command line",
    DISK_FAULT: "look at the disk of the journal: full, gone, or without permission; then start again",
    DAMAGED: "keep the journal as it is, and see docs/OPERATING.md, \"A damaged journal\"",
    NO_JOURNAL: "mend the path, or make an empty journal by `halts JOURNAL format`",
    NO_MEMORY: "give the machine memory, then start again; nothing that was acknowledged is lost",
}


class Stop(Exception):
    """The end of this program: its exit code, and the line that it tells."""

    def __init__(self, code, line):
        super().__init__(line)
        self.code = code


class Ended(Exception):
    """The end of a program that this one runs: its exit code, below 0 for a signal, and the line that it told."""

    def __init__(self, code, line):
        super().__init__(line)
        self.code = code


def tell(line):
    """Tells a line on standard error, where that takes it."""
    try:
        os.write(2, ("operate/run: %s\n" % line).encode(errors="replace"))
    except OSError:
        pass
