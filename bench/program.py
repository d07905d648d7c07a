"""Starts a program many times: without a shell, with files in memory as its standard streams, and if asked for with the library of
faults.c, which refuses some of its calls.
"""
import mmap
import os
import pathlib
import signal
import struct

ROOT = pathlib.Path(__file__).resolve().parent.parent
BUILT = ROOT / "crates/pct_run/out/pct_run"
INSPECT = ROOT / "crates/pct_inspect/out/pct_inspect"
# A start takes a few milliseconds. One that has not ended after this time is ended, and counts as a hang.
SECONDS = 30
# A pipe whose reads end where a write ended.
PACKETS = os.O_DIRECT
# The page that the library of faults.c shares with us: its struct page up to `loaded`, and after it. Before `loaded` comes `is_alone`.
ASKED = struct.Struct("=11q")
TOLD = struct.Struct("=10q")
PAGE, LOADED = 1 << 20, 0x6661756C74
ALLOCATION, THREAD, READ, WRITE = 1, 2, 3, 4
FOREVER = 2**62


class Hang(Exception):
    pass


class NoEnd(int):
    """A number above each status, which is written as `no end`."""

    def __repr__(self):
        return "no end"

    __str__ = __repr__


# In the place of a status: the program was ended.
HANG = NoEnd(1000)


def on_alarm(_signal, _frame):
    raise Hang


def write_text(file, text):
    os.ftruncate(file, 0)
    os.pwrite(file, text, 0)
    os.lseek(file, 0, os.SEEK_SET)


def held_text(file):
    size = os.fstat(file).st_size
    return os.pread(file, size, 0) if size else b""


class Program:
    """A program. An answer is its status, or minus the signal that ended it, and what it wrote to standard output. What it wrote to
    standard error, which should be nothing, is in `stderr`."""

    def __init__(self, path, environment=None):
        self.path = str(path)
        self.environment = {} if environment is None else environment
        self.input, self.output, self.errors = (os.memfd_create(name) for name in ("input", "output", "errors"))
        self.stderr = b""
        self.starts = 0
        signal.signal(signal.SIGALRM, on_alarm)

    def close(self):
        for file in (self.input, self.output, self.errors):
            os.close(file)

    def start(self, words, files):
        """Starts the program with these files as 0, 1 and 2, and if there are more as 3 and so on."""
        actions = [(os.POSIX_SPAWN_DUP2, file, number) for number, file in enumerate(files)]
        # Python ignores SIGPIPE; the program is started as a shell starts it.
        self.starts += 1
        return os.posix_spawn(self.path, [self.path, *words], self.environment, file_actions=actions, setsigdef=[signal.SIGPIPE])

    def start_closed(self, words, closed):
        """Starts the program with standard input, 0, or standard output, 1, closed."""
        files = {0: self.input, 1: self.output, 2: self.errors}
        actions = [(os.POSIX_SPAWN_DUP2, file, number) for number, file in files.items() if number != closed]
        self.starts += 1
        return os.posix_spawn(self.path, [self.path, *words], self.environment, file_actions=[*actions, (os.POSIX_SPAWN_CLOSE, closed)], setsigdef=[signal.SIGPIPE])

    def status(self, process):
        signal.setitimer(signal.ITIMER_REAL, SECONDS)
        try:
            return os.waitstatus_to_exitcode(os.waitpid(process, 0)[1])
        except Hang:
            os.kill(process, signal.SIGKILL)
            os.waitpid(process, 0)
            return HANG
        finally:
            signal.setitimer(signal.ITIMER_REAL, 0)

    def between(self, words, source, sink, *more):
        """Runs the program between two files, and gives its status."""
        os.ftruncate(self.errors, 0)
        os.lseek(self.errors, 0, os.SEEK_SET)
        status = self.status(self.start(words, (source, sink, self.errors, *more)))
        self.stderr = held_text(self.errors)
        return status

    def answer(self, words, text):
        """The answer to an input that is a file."""
        write_text(self.input, text)
        return self.to_memory(words, self.input)

    def to_memory(self, words, source, *more):
        write_text(self.output, b"")
        status = self.between(words, source, self.output, *more)
        return status, held_text(self.output)

    def answer_to_pieces(self, words, pieces):
        """The answer to an input that comes through a pipe in these pieces, at most 16."""
        reader, writer = os.pipe2(PACKETS | os.O_CLOEXEC)
        try:
            for piece in pieces:
                os.write(writer, piece)
            os.close(writer)
            writer = -1
            return self.to_memory(words, reader)
        finally:
            os.close(reader)
            if writer >= 0:
                os.close(writer)


class FaultyProgram(Program):
    """A program with the library of faults.c. After an answer `counts` has how many allocations, threads, reads and writes it asked
    for, `made` how many were refused, `taken` how many bytes it read, `written` how many it wrote, and `held` what the reader of a
    pipe took. If the library is not there `loaded` is false."""

    def __init__(self, path, library):
        super().__init__(path)
        self.page_file = os.memfd_create("page")
        os.ftruncate(self.page_file, PAGE)
        self.page = mmap.mmap(self.page_file, PAGE)
        self.environment = {"LD_PRELOAD": str(library), "FAULTS_PAGE": "3"}
        self.counts, self.made, self.taken, self.written, self.held, self.loaded = (0, 0, 0, 0, 0), 0, 0, 0, b"", False

    def close(self):
        super().close()
        self.page.close()
        os.close(self.page_file)

    def ask(self, refused, first, last, code, read_piece, write_piece, reader, reader_takes, memory):
        self.page[:ASKED.size + TOLD.size] = ASKED.pack(refused, first, last, code, read_piece, write_piece, reader, reader_takes, memory, 0, 0) + bytes(TOLD.size)

    def tell(self):
        asked = ASKED.unpack_from(self.page, 0)
        told = TOLD.unpack_from(self.page, ASKED.size)
        self.loaded = asked[-1] == LOADED
        self.counts = told[:5]
        self.made, self.taken, self.written, held = told[5:9]
        # The bytes come after the last number, which is the ninth one.
        self.held = self.page[ASKED.size + 9 * 8:ASKED.size + 9 * 8 + held]

    def faulty(self, words, text, refused=0, first=1, last=None, code=0, read_piece=0, write_piece=0, memory=0):
        """The answer with these calls refused: of a class those from `first` to `last`, which is `first` where none is given."""
        self.ask(refused, first, first if last is None else last, code, read_piece, write_piece, -1, 0, memory)
        write_text(self.input, text)
        answer = self.to_memory(words, self.input, self.page_file)
        self.tell()
        return answer

    def cut_off(self, words, text, takes, write_piece=0):
        """The status if the reader of the output takes so many bytes and then closes its end; what it took is in `held`."""
        reader, writer = os.pipe()
        try:
            self.ask(0, 1, 1, 0, 0, write_piece, 4, takes, 0)
            write_text(self.input, text)
            process = self.start(words, (self.input, writer, self.errors, self.page_file, reader))
        finally:
            os.close(writer)
            os.close(reader)
        self.page[ASKED.size - 16:ASKED.size - 8] = (1).to_bytes(8, "little")
        status = self.status(process)
        self.tell()
        return status


def processors(asked):
    """How many processes work beside each other: as asked, or one for each processor that may be used."""
    return asked or len(os.sched_getaffinity(0))
