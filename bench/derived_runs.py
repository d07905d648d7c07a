"""The steps of a report with its script: with the states that script and events lead to, and with those that the views show."""
import dataclasses
import subprocess

from derived_states import World
from events import NoEvent, events_of
from script_text import Script
from seen_states import seen, viewed
from steps import STOPS, History, Step

SECONDS = 60


@dataclasses.dataclass(frozen=True)
class Report:
    """The words of its events, with their threads; its verdict; the header of its schedule; and its entries."""
    events: list
    verdict: str
    header: str
    entries: list

    def prefix(self, length):
        """The schedule of the first entries."""
        return "\n".join([self.header, *self.entries[:length], ""])

    @property
    def passes(self):
        return int(self.header.split()[3])


def report_in(text):
    """The report of a text. A text that is no report is a NoEvent."""
    title, *lines = text.split("\n")
    verdicts = [place for place, line in enumerate(lines) if line.startswith("verdict ")]
    if title not in ("report 1", "report 2") or not verdicts:
        raise NoEvent(f"no report, or one without a verdict: {text.strip()[:200]!r}")
    place = verdicts[0]
    if lines[place + 1].split()[:2] != ["schedule", title.split()[1]]:
        raise NoEvent(f"a report of one format with a schedule of another: {title!r}, {lines[place + 1]!r}")
    ends = next(at for at, line in enumerate(lines) if line.startswith("end ") and at > place)
    return Report(events_of(lines[:place]), lines[place], lines[place + 1], lines[place + 2:ends])


def choice_of(line):
    """The process, the thread, the choice of an entry, and the number of the choice, or None."""
    words = line.split(" ")
    return int(words[1]), int(words[2]), words[3], int(words[4]) if len(words) > 4 else None


class Underivable(Exception):
    """An event of a report that its script and the events before it do not lead to: its place, and why."""


def compare(report, place, own, events, number):
    """The events from a place on are these, of the thread. Another one is Underivable."""
    found = report.events[place:place + len(events)]
    for at, words in enumerate(events):
        if at >= len(found) or found[at].words != words or (found[at].pid, found[at].tid) != own:
            raise Underivable(place + at, f"entry {number}: the report has {found[at:at + 1]}, and the script leads to {' '.join(words)}")


def derived_steps(script, report, world_of=World):
    """The steps of a report, with derived states. An event that they do not lead to is Underivable. Of another World than that of
    derived_states.py the events are its own, and are not compared; the stop is that of the report."""
    world, history, place = world_of(script, report.passes), History(), 0
    before = seen(world)
    for number, entry in enumerate(report.entries, 1):
        pid, tid, choice, argument = choice_of(entry)
        stop = report.events[-1] if number == len(report.entries) and report.events and report.events[-1].word in STOPS else None
        events = [stop.words] if stop else world.step(pid, tid, choice, argument)
        after = before if stop else seen(world)
        if world_of is World:
            compare(report, place, (pid, tid), events, number)
        place += len(events)
        step = Step(script, (pid, tid, choice), events, (before, after), history)
        yield step
        history.after(step)
        before = after
    if world_of is World and place != len(report.events):
        raise Underivable(place, f"an event that no step shows: {report.events[place]}")


def view(inspect, command, text, prefix):
    ran = subprocess.run([inspect, command], input=f"{text}%%\n{prefix}".encode(), stdout=subprocess.PIPE, timeout=SECONDS)
    return ran.stdout.decode()


class Views:
    """The views of a run after some of its entries."""

    def __init__(self, inspect, text, report):
        self.inspect, self.text, self.report, self.script = inspect, text, report, Script(text)

    def texts(self, length):
        prefix = self.report.prefix(length)
        return [view(self.inspect, command, self.text, prefix) for command in ("states", "choices")]

    def read(self, texts):
        return viewed(*texts, self.script)

    def state(self, length):
        return self.read(self.texts(length))
