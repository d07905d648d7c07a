"""Reports for check_judge.py: of runs, of the made lists of law_lists.py, and of events that are made by their forms; and reports that are
spoilt: events are dropped, repeated, exchanged, moved or put in, their threads, processes, numbers and names are changed, and parts of two
reports are joined.
"""
import dataclasses
import re

from events import FORMS, NAMES, NUMBERS
from law_lists import FINE, WRONG

# What the fields of made events are. The points are those of the table of docs/FORMATS.md that have rules of their own, and some others.
FIELDS = {
    "V": ["0", "0", "1", "3", "4294967295"], "A": ["0", "1", "2"], "N": ["1", "2", "2", "3", "4"], "K": ["1", "2"], "P": ["1", "2", "2", "3"],
    "F": ["f", "g"], "M": ["m", "n"], "C": ["c", "d"], "S": ["s", "z"], "O": ["o", "p"],
    "NAME": ["read", "pause", "printf", "readdir", "pthread_testcancel", "waitpid", "sem_wait", "sem_timedwait", "pthread_join", "pthread_cond_wait", "pthread_cond_timedwait"],
}
THREADS = ["1.1", "1.1", "1.1", "1.2", "1.2", "1.3", "2.1", "2.1", "2.2", "3.1"]
# The words of an event that a change leaves as they are: all of them are names in the place of a field alone.
POINTS = ("call", "done")


@dataclasses.dataclass(frozen=True)
class ReportText:
    """The title of a report, its event lines, and the lines from its verdict on, the header of its schedule first but one."""
    title: str
    lines: tuple
    rest: tuple

    def text(self):
        return "".join(line + "\n" for line in (self.title, *self.lines, *self.rest)).encode()

    @property
    def limits(self):
        """The numbers PASSES and SLOTS."""
        return tuple(map(int, self.rest[1].split(" ")[3:5]))

    def with_lines(self, lines):
        return dataclasses.replace(self, lines=tuple(lines))

    def with_limits(self, passes, slots):
        words = self.rest[1].split(" ")
        return dataclasses.replace(self, rest=(self.rest[0], " ".join([*words[:3], str(passes), str(slots)]), *self.rest[2:]))


def report_of(text):
    """The parts of the text of a report."""
    lines = text.splitlines()
    verdict = next(place for place, line in enumerate(lines) if line.startswith("verdict "))
    return ReportText(lines[0], tuple(lines[1:verdict]), tuple(lines[verdict:]))


def without_run(lines, passes=4, slots=64):
    """A report with these events and no step."""
    return ReportText("report 2", tuple(lines), ("verdict open", f"schedule 2 100 {passes} {slots}", "end 0"))


LISTS = [[line.removeprefix(">") for line in text.split("; ") if line] for *_, text in WRONG + FINE]


class Spoiler:
    """Makes reports, and spoils them, by a generator of random numbers."""

    def __init__(self, random):
        self.random = random

    def one(self, *choices):
        return self.random.choice(choices)

    # ---- made reports

    def event(self):
        words = [self.one(*FIELDS[field]) if field in FIELDS else field for field in self.one(*FORMS).split()]
        return " ".join([self.one(*THREADS), *words])

    def made(self):
        """A report of no run: a made list, the events of two of them in turns, or events that are made by their forms."""
        way = self.random.randrange(4)
        if way == 0:
            lines = [self.event() for _ in range(self.random.randint(1, 12))]
        elif way == 1:
            lines = self.in_turns(self.one(*LISTS), self.one(*LISTS))
        else:
            lines = self.one(*LISTS)
        return without_run(lines, self.one(4, 4, 5, 16), self.one(64, 64, 1, 2, 3))

    def in_turns(self, first, second):
        lines, rests = [], [list(first), list(second)]
        while any(rests):
            rest = self.one(*(rest for rest in rests if rest))
            lines.append(rest.pop(0))
        return lines

    # ---- spoilt reports

    def place(self, lines):
        """The place of an event. Events of rare kinds are as frequent as others."""
        kind = self.one(*sorted({line.split(" ")[1] for line in lines}))
        return self.one(*(place for place, line in enumerate(lines) if line.split(" ")[1] == kind))

    def dropped(self, lines):
        place = self.place(lines)
        return lines[:place] + lines[place + self.one(1, 1, 1, 2, 3):]

    def repeated(self, lines):
        place, to = self.place(lines), self.random.randint(0, len(lines))
        to = self.one(place + 1, place + 1, to)
        return lines[:to] + lines[place:place + self.one(1, 1, 1, 2)] + lines[to:]

    def exchanged(self, lines):
        lines, first = list(lines), self.place(lines)
        second = self.one(min(first + 1, len(lines) - 1), self.random.randrange(len(lines)), self.place(lines))
        lines[first], lines[second] = lines[second], lines[first]
        return lines

    def moved(self, lines):
        lines, first = list(lines), self.place(lines)
        line = lines.pop(first)
        lines.insert(self.one(first + 1, max(first - 1, 0), self.random.randint(0, len(lines))), line)
        return lines

    def put_in(self, lines):
        place = self.random.randint(0, len(lines))
        thread = self.one(*lines).split(" ")[0] if lines else "1.1"
        event = self.event()
        return lines[:place] + [self.one(event, f"{thread} {event.split(' ', 1)[1]}")] + lines[place:]

    def forked(self, lines):
        """A fork is put in, of a process that there is."""
        place, (thread, child) = self.random.randint(0, len(lines)), (self.one(*lines).split(" ")[0] for _ in range(2))
        return lines[:place] + [f"{thread} fork {child.split('.')[0]}"] + lines[place:]

    def with_line(self, lines, change):
        """The lines with one of them changed, or with all that are equal to it."""
        place = self.place(lines)
        new = change(lines[place], lines)
        if self.random.random() < 0.1:
            return [new if line == lines[place] else line for line in lines]
        return [*lines[:place], new, *lines[place + 1:]]

    def other_thread(self, line, lines):
        """The event of another thread of its process, or of a thread of the same number in another process."""
        thread, rest = line.split(" ", 1)
        pid, tid = thread.split(".")
        others = sorted({other.split(" ")[0] for other in lines})
        beside, replica = f"{pid}.{self.one(*FIELDS['N'])}", f"{self.one(1, 2, 3)}.{tid}"
        return f"{self.one(beside, replica, self.one(*others), self.one(*others))} {rest}"

    def other_number(self, line, lines):
        words = line.split(" ")
        places = [place for place in range(2, len(words)) if words[place].isdigit()]
        if places:
            place = self.one(*places)
            # No thread and no process has the number 0.
            least = 1 if words[1] in ("create", "fork") else 0
            found = [word for word in re.findall(r"[0-9]+", " ".join(lines))]
            new = self.one(int(words[place]) + 1, int(words[place]) - 1, int(self.one(*found)), self.random.randint(0, 5), int(words[place]) + 256)
            words[place] = str(min(max(new, least), 4294967295))
        return " ".join(words)

    def other_name(self, line, lines):
        """The event with another name of the same kind, or with the other word of its form."""
        words = line.split(" ")
        alike = [other.split(" ") for other in lines if other.split(" ")[1] == words[1] and len(other.split(" ")) == len(words)]
        place = self.random.randrange(2, len(words)) if len(words) > 2 else None
        if place and not words[place].isdigit():
            made = [FIELDS["NAME"]] if words[1] in POINTS else [FIELDS[field] for field in ("F", "M", "C", "O")]
            is_name = words[1] in ("push", "pop", "handler", "dtor", "acquire", "release", "signal", "broadcast", "cancel_wait", "expire", "handon", "take", "post", *POINTS)
            is_name = is_name and (words[1], place) != ("pop", 4)
            words[place] = self.one(*(other[place] for other in alike), *(self.one(*made) if is_name else ()))
        return " ".join(words)

    def other_event(self, line, lines):
        """Another event of the report in the place of it, of the same thread."""
        return f"{line.split(' ')[0]} {self.one(*lines).split(' ', 1)[1]}"

    def renamed(self, lines):
        """From a place on, the events of a thread are of another one."""
        first = self.random.randrange(len(lines))
        thread, other = (self.one(*lines).split(" ")[0] for _ in range(2))
        return [f"{other} {line.split(' ', 1)[1]}" if place >= first and line.split(" ")[0] == thread else line for place, line in enumerate(lines)]

    def changed(self, lines, other):
        """The lines of a report with one change. `other` are those of another report."""
        lines = list(lines)
        if not lines or self.random.random() < 0.05:
            first, second = self.random.randint(0, len(lines)), self.random.randint(0, len(other))
            return self.one(lines[:first] + list(other[second:]), self.in_turns(lines[:first], other[:second]))
        if self.random.random() < 0.4:
            return self.with_line(lines, self.one(self.other_thread, self.other_number, self.other_number, self.other_name, self.other_event))
        return self.one(self.dropped, self.dropped, self.repeated, self.exchanged, self.moved, self.put_in, self.put_in, self.forked, self.renamed)(lines)

    def spoilt(self, report, other):
        """A report with some changes."""
        lines = report.lines
        for _ in range(self.one(1, 1, 1, 2, 2, 3, 5)):
            lines = self.changed(lines, other.lines)
        report = report.with_lines(lines)
        if self.random.random() < 0.1:
            passes, slots = report.limits
            report = report.with_limits(self.one(passes, 4, 5, 16), self.one(slots, 1, 2, 3, 64))
        return report
