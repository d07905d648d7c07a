"""The events of a report: how their lines are read, by the forms of docs/FORMATS.md.

A line of no such form is refused. Other readers should pass over an event that they do not know; here it is a mistake, of the
program or of the page.
"""
import dataclasses
import re

# The forms in the table of events of docs/FORMATS.md. A letter, or NAME, is a field; every other word is itself.
FORMS = """\
emit V
push F A
pop F A run
pop F A drop
create N joinable
create N detached
answer pthread_create 1
call pthread_join
joined N V
detach N
state enable
state disable
type deferred
type asynchronous
call NAME
done NAME
request N
key K
answer pthread_key_create 1
key_delete K
acquire M
release M
call pthread_cond_wait
call pthread_cond_timedwait
signal C N
broadcast C N
done pthread_cond_wait
done pthread_cond_timedwait
expire C
answer pthread_cond_timedwait 4
cancel_wait C
handon C N
call sem_wait
call sem_timedwait
take S
answer sem_timedwait 4
post S
once O call
once O done
fork P
answer fork 1
call waitpid
reap P N
answer waitpid 3
ending canceled
ending canceled C M
ending exit V
handler F A
pass N
dtor N K F A
leftover N
ended V
exit V
at_exit F
answer atexit 1
process_end N
answer pthread_atfork 2
prepare F
parent F
child F
profile fork_child_call
profile stack_full
profile cleanup_full
profile fork_in_ending
undefined thread_id
undefined join_self
undefined not_joinable
undefined join_twice
undefined detach_joined
undefined async_call
undefined enable_in_handler
undefined key_id
undefined not_owner
undefined cond_two_mutexes
undefined exit_in_ending
undefined exit_twice
""".splitlines()

NUMBERS = ("V", "A", "N", "K", "P")
NAMES = ("F", "M", "C", "S", "O", "NAME")
LARGEST = 4294967295


class NoEvent(ValueError):
    """A line of a report that is no event."""


@dataclasses.dataclass(frozen=True)
class Event:
    pid: int
    tid: int
    words: tuple

    @property
    def word(self):
        return self.words[0]

    def number(self, index):
        return int(self.words[index])


def is_number(word):
    return re.fullmatch("0|[1-9][0-9]*", word) is not None and int(word) <= LARGEST


def is_name(word):
    return re.fullmatch("[A-Za-z_][A-Za-z0-9_]*", word) is not None


def fits(word, field):
    """The word may be at this place of a form."""
    if field in NUMBERS:
        return is_number(word)
    return is_name(word) if field in NAMES else word == field


def has_form(words, form):
    fields = form.split()
    return len(words) == len(fields) and all(fits(word, field) for word, field in zip(words, fields))


def event_of(line):
    """The event of a line `PID.TID EVENT`, whose words are separated by one space."""
    thread, *words = line.split(" ")
    numbers = thread.split(".")
    if len(numbers) != 2 or not all(is_number(number) for number in numbers):
        raise NoEvent(f"the line {line!r} is no event: it does not begin with PID.TID")
    if not any(has_form(words, form) for form in FORMS):
        raise NoEvent(f"the line {line!r} is no event: docs/FORMATS.md has none of this form")
    return Event(int(numbers[0]), int(numbers[1]), tuple(words))


def events_of(lines):
    """The events of the lines, in order. The first line that is no event is a NoEvent."""
    return [event_of(line) for line in lines]


def table_of(page, heading):
    """The first cells of the table below a heading of docs/FORMATS.md, whose rows begin with a form."""
    table = page.partition(f"\n{heading}\n")[2].partition("\n### ")[0].partition("\n## ")[0]
    return [line.split("|")[1] for line in table.splitlines() if line.startswith("| `")]


def forms_of(page):
    """The forms in the table of events of docs/FORMATS.md. One row points to the table of stops, which has theirs."""
    rows = table_of(page, "### Events") + table_of(page, "### Stops")
    forms = [form for row in rows for form in re.findall("`([^`]+)`", row)]
    return [form for form in forms if form not in ("profile NAME", "undefined NAME")]
