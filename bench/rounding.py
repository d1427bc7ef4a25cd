"""Ways to write taps down that stand beside the desk: each gap is rounded by itself, at some tempo."""

from dataclasses import dataclass

# By what share of the way a tempo follows each gap: of 0, 0.1, 0.2 and so on the one that reads most notes right in
# performances with the seeds 1000 to 1299.
FOLLOW = 0.4


@dataclass
class Rounded:
    # Of each note, how many ticks it lasts.
    ticks: list
    # How far all gaps are off together, in twelfths of a ms.
    off: float


def round_gaps(gaps, kinds, beat, follow):
    """Reads each gap as the kind that is nearest at the tempo, which then goes towards the one that would fit exactly.

    gaps: in ms; kinds: by their ticks; beat: the first tempo, in ms for twelve ticks; follow: by what share of the way.
    """
    rounded = Rounded([], 0.0)
    for gap in gaps:
        nearest = min(kinds, key=lambda kind: abs(12 * gap - kind * beat))
        rounded.ticks.append(nearest)
        rounded.off += abs(12 * gap - nearest * beat)
        beat += follow * (12 * gap / nearest - beat)
    return rounded


def at_first_tempo(gaps, kinds, beat):
    """At one tempo, that of the first note."""
    return round_gaps(gaps, kinds, beat, 0).ticks


def at_followed_tempo(gaps, kinds, beat):
    """At a tempo that follows, from that of the first note on."""
    return round_gaps(gaps, kinds, beat, FOLLOW).ticks


def at_any_tempo(gaps, kinds, tempi):
    """At a tempo that follows, from that one of these on with which the gaps are least off."""
    tried = (round_gaps(gaps, kinds, tempo, FOLLOW) for tempo in tempi)
    return min(tried, key=lambda rounded: rounded.off).ticks
