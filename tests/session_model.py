"""A model of a session, written from docs/SESSION.md, against which sessions.py holds the program.

It stands on the model of model.py: which restrictions are in force after each line, and what is replied to it,
made of the run under them. How fast the train is and when it arrives is said there.
"""

from collections import Counter
from collections.abc import Callable, Mapping
from dataclasses import dataclass, field
from functools import cached_property

from compare import Answer, Ride, numbers_text, records_text
from model import LONGEST, Call, Drive, Line, Plan, Timetable, Train, Zone, bounds_of, caps_of, code_of, words_of

MOST_BYTES = 67108864  # of an input
TEXTS = {"envelope", "timetable", "cert"}  # the commands of one word


def lines_of(given: bytes) -> tuple[list[str], bool]:
    """The lines of an input that get a reply, each without one CR at its end; and whether it is too long.

    The last line needs no LF, where the input ends behind it. Bytes that aren't UTF-8 stay what they are.
    """
    is_long = len(given) > MOST_BYTES
    *lines, last = given[:MOST_BYTES].split(b"\n")
    if last and not is_long:
        lines.append(last)
    return [line.removesuffix(b"\r").decode(errors="surrogateescape") for line in lines], is_long


def name_in(line: str) -> str:
    """The name of the point that a line `time NAME` asks about: blanks inside it stay."""
    return line.strip(" ").removeprefix("time").strip(" ")


@dataclass(frozen=True)
class Talk:
    """What a session is about: a train on a line with named points, and a plan whose calls have names."""

    line: Line
    train: Train
    plan: Plan
    points: Mapping[str, int]  # m
    name_of: Callable[[Call], str]

    @cached_property
    def drive(self) -> Drive:
        return Drive(self.line, self.train)

    def under(self, zones: tuple[Zone, ...]) -> "Outcome":
        """What comes of the restrictions in force."""
        bounds = bounds_of(self.plan, self.line.length)
        line = self.line.under(zones)
        return Outcome(self, Ride(self.drive, caps_of(line, self.train.length, self.train.top, bounds)))


@dataclass(frozen=True)
class Outcome:
    """The run under the restrictions in force, or up to where the train is stalled."""

    talk: Talk
    ride: Ride

    @cached_property
    def stall(self) -> int | None:
        """The point at which the train is stalled; None where there is a run."""
        return self.ride.stall if self.ride.run is None else None

    @property
    def verdict(self) -> str:
        """How far the train gets."""
        return "whole" if self.stall is None else f"stalled {self.stall}"

    @cached_property
    def times(self) -> Timetable:
        """The times of the run, or of its points before the stall."""
        run = self.ride.run or self.ride.drive.keeps(self.ride.caps, self.stall - 1)[: self.stall]
        return Timetable(run, self.talk.plan)

    def arrival(self, point: int) -> str:
        """The reply to `time`, of a point."""
        if self.stall is not None and point >= self.stall:
            return "none\n"
        return "time {} {}\n".format(*self.times.arrival(point))

    def text(self, command: str) -> str:
        """The reply to a command of one word."""
        if command == "cert":
            return self.ride.certificate
        if self.stall is not None:
            return f"stalled {self.stall}\n"
        if command == "envelope":
            return numbers_text(self.ride.run)
        return records_text(self.times.rows(self.talk.name_of))


@dataclass
class Session:
    """A session that goes on, with what is in force."""

    talk: Talk
    held: dict[str, Zone] = field(default_factory=dict)
    binding: Counter[Zone] = field(default_factory=Counter)  # how often each zone is in force
    outcomes: dict[tuple[Zone, ...], Outcome] = field(default_factory=dict)  # that were asked for so far

    @property
    def outcome(self) -> Outcome:
        """What comes of what is in force."""
        zones = tuple(sorted(+self.binding))  # neither their order nor a repeat is of matter to a run
        if zones not in self.outcomes:
            self.outcomes[zones] = self.talk.under(zones)
        return self.outcomes[zones]

    def code(self, line: str) -> int | None:
        """The code of a line that is refused; None where it isn't."""
        words = words_of(line)
        if len(line.encode(errors="surrogateescape")) > LONGEST:
            return 1
        if len(words) == 1 and words[0] in TEXTS:
            return None
        if words[:1] == ["time"] and len(words) > 1:
            return None if name_in(line) in self.talk.points else 7
        return code_of(line, self.talk.line.length, self.held)

    def edit(self, kind: str, name: str, *zone: str) -> None:
        """Puts a restriction in force or takes it out."""
        if kind == "put":
            start, end, kmh = map(int, zone)
            self.held[name] = start, end, kmh
            self.binding[self.held[name]] += 1
        else:
            self.binding[self.held.pop(name)] -= 1

    def reply(self, line: str) -> str:
        """The reply to a line."""
        if code := self.code(line):
            return f"error {code}\n"
        words = words_of(line)
        if words[0] in TEXTS:
            return self.outcome.text(words[0])
        if words[0] == "time":
            return self.outcome.arrival(self.talk.points[name_in(line)])
        self.edit(*words)
        return f"ok {self.outcome.verdict}\n"


def held_with(talk: Talk, given: bytes) -> Answer:
    """The status and the text of a session with an input."""
    session = Session(talk)
    lines, is_long = lines_of(given)
    replies = "".join(map(session.reply, lines))
    return (8, f"{replies}too long 6\n") if is_long else (0, replies)
