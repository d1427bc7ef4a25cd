"""Simulated pupils: rhythms, and taps as somebody would tap them.

Timing is that of Wing and Kristofferson (Response delays and the timing of discrete motor responses, Perception &
Psychophysics 14, 1973): a clock in the head, whose intervals have a spread of their own, and a delay of the hand at
each tap. Besides, the tempo drifts by a random walk, leans towards faster or slower from the first note to the last,
and in half of the performances gets slower over the last five notes.

A performance is fixed by its seed, who plays, how evenly, and how many notes.
"""

import math
import random
from dataclasses import dataclass

# The shortest interval of the clock, in ms.
LEAST_INTERVAL = 20.0
# By how much the tempo may have changed when a note begins, as a power of e; an ending's slowing comes on top.
MOST_CHANGE = 0.4
# Over how many notes an ending gets slower, and by how much from one to the next, as a power of e.
ENDING = 5
SLOWING = 0.06


@dataclass(frozen=True)
class Level:
    """How unevenly pupils tap."""

    # The random walk of the tempo: its spread after a beat, as a share of the tempo.
    drift: float = 0.012
    # The spread of the clock's intervals, as a share of each.
    clock: float = 0.025
    # The spread of the hand's delays, in ms.
    motor: float = 6.0
    # By how much the tempo leans at most, over the whole, as a power of e.
    lean: float = 0.35
    # Whether half of them get slower at the end.
    slows: bool = True


LEVELS = {
    "easy": Level(drift=0.004, clock=0.02, motor=5.0, lean=0.08, slows=False),
    "normal": Level(),
    "hard": Level(clock=0.04, motor=12.0),
}

# What rhythms are made of, in ticks, twelve to a beat, and how often each comes beside the others.
SIMPLE = {
    (12,): 8,
    (6, 6): 6,
    (24,): 2,
    (12, 12): 4,
    (18, 6): 2,
    (6, 12, 6): 1,
    (3, 3, 6): 1.5,
    (6, 3, 3): 1.5,
    (4, 4, 4): 1.5,
    (3, 3, 3, 3): 1,
    (9, 3): 1,
    (8, 4): 0.7,
    (36,): 0.5,
}
WHOLE = {(48,): 0.5}
SWUNG = {(12,): 8, (8, 4): 6, (24,): 2, (12, 12): 4, (4, 4, 4): 1.5, (6, 6): 1, (4, 8): 1}
# In six-eight, where 18 ticks are the beat that is felt.
COMPOUND = {(18,): 4, (12, 6): 6, (6, 6, 6): 6, (36,): 1, (6, 12): 1, (9, 3, 6): 1.5}


@dataclass(frozen=True)
class Pupils:
    """What some pupils play: the parts of their rhythms, and at how many ms a quarter they begin."""

    parts: dict
    fastest: float
    slowest: float


@dataclass(frozen=True)
class Performance:
    # Of each note, how many ticks it lasts.
    ticks: list
    # The times of the taps, in ms: one for each note, and one that ends the last.
    taps: list
    # How many ms a quarter takes at the beginning.
    beat: float


def with_kinds(parts, kinds):
    """Of these parts the ones that are made of these kinds alone, by their ticks."""
    return {part: often for part, often in parts.items() if kinds.issuperset(part)}


def perform(seed, pupils, level, notes):
    """The performance with this seed, of so many notes."""
    rng = random.Random(seed)
    ticks = make_rhythm(rng, pupils.parts, notes)
    beat = rng.uniform(pupils.fastest, pupils.slowest)
    return Performance(ticks, make_taps(rng, ticks, beat, level), beat)


def make_rhythm(rng, parts, notes):
    """Parts, one after the other, cut after so many notes."""
    rhythm = []
    while len(rhythm) < notes:
        rhythm += rng.choices(list(parts), list(parts.values()))[0]
    return rhythm[:notes]


def make_taps(rng, ticks, beat, level):
    """The taps of a rhythm, in whole ms, each later than the one before, the first at 0."""
    slows = level.slows and rng.random() < 0.5
    ending = len(ticks) - ENDING if slows else len(ticks)
    lean = rng.uniform(-level.lean, level.lean) / sum(ticks)
    now, pace = 0.0, 0.0
    times = [now]
    for note, lasts in enumerate(ticks):
        pace += lean * lasts + rng.gauss(0, level.drift) * math.sqrt(lasts / 12)
        pace = max(-MOST_CHANGE, min(MOST_CHANGE, pace))
        if note >= ending:
            pace += SLOWING
        interval = lasts / 12 * beat * math.exp(pace)
        now += max(LEAST_INTERVAL, rng.gauss(interval, level.clock * interval))
        times.append(now)
    taps = []
    for time in times:
        tap = round(time + rng.gauss(0, level.motor))
        taps.append(max(taps[-1] + 1, tap) if taps else tap)
    return [tap - taps[0] for tap in taps]
