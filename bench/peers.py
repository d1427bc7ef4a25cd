"""Programs that a school can install, and that write a MIDI file down as notes.

Each is given a file with a note at each tap, and writes a score. The score is made a MIDI file again, by the same
program or one that belongs to it, and there the notes begin where they are written.
"""

import contextlib
import json
import os
import shutil
import subprocess
import sys
from dataclasses import dataclass
from difflib import SequenceMatcher
from pathlib import Path
from typing import Callable

from midi import pitch_of, read_midi, write_midi

# How far from a whole number of ticks a note's length may be, for what a MIDI file rounds.
ROUNDED = 0.06
# How long a program may take for all files of a folder, in seconds.
MOST_SECONDS = 1800


@dataclass(frozen=True)
class Settings:
    # How much of each gap sounds in the files that a program is given.
    sounds: float
    # What it is told on its command line.
    options: tuple = ()


@dataclass(frozen=True)
class Peer:
    name: str
    # Debian's package, and the commands of it that are started.
    package: str
    commands: tuple
    # write_down(folder, options): makes of each file N.mid in the folder a file N.score.mid, where it can.
    write_down: Callable
    # Of those tried, the ones with which it reads most notes right of the performances for the book of all kinds with
    # the seeds 1000 to 1099: where the files tell the first tempo, and where they tell none.
    told: Settings
    untold: Settings

    def is_installed(self):
        return all(shutil.which(command) for command in self.commands)


def transcribe(peer, performances, told, folder):
    """Of each note of each performance, how many ticks it lasts as the peer writes it; None where it is not there."""
    settings = peer.told if told else peer.untold
    for number, performance in enumerate(performances):
        beat = performance.beat if told else None
        (folder / f"{number}.mid").write_bytes(write_midi(performance.taps, settings.sounds, beat))
    peer.write_down(folder, settings.options)
    scores = [folder / f"{number}.score.mid" for number in range(len(performances))]
    missing = sum(not score.exists() for score in scores)
    if missing:
        print(f"{peer.name}: of {len(scores)} files it wrote no score for {missing}", file=sys.stderr)
    return [read_score(score, len(performance.taps)) for score, performance in zip(scores, performances)]


def read_score(path, count):
    """Of the notes at so many taps, but for the last, how many ticks each lasts."""
    begins = note_begins(read_midi(path.read_bytes()), count) if path.exists() else {}
    return [ticks_between(begins.get(tap), begins.get(tap + 1)) for tap in range(count - 1)]


def note_begins(notes, count):
    """When the note of each tap begins that is there. Notes are known by their pitches, in order."""
    wanted = [pitch_of(tap) for tap in range(count)]
    found = [note.pitch for note in notes]
    begins = {}
    for block in SequenceMatcher(None, wanted, found, autojunk=False).get_matching_blocks():
        for place in range(block.size):
            begins[block.a + place] = notes[block.b + place].begins
    return begins


def ticks_between(begin, end):
    if begin is None or end is None:
        return None
    ticks = round(end - begin)
    return ticks if abs(end - begin - ticks) < ROUNDED else None


def midi_files(folder):
    return sorted(path for path in folder.glob("*.mid") if path.stem.isdigit())


def run(*words, **options):
    """What a program can't write is not there, whatever it says; and it is stopped where it does not end."""
    with contextlib.suppress(subprocess.TimeoutExpired):
        subprocess.run(
            words, stdout=subprocess.DEVNULL, stderr=subprocess.DEVNULL, check=False, timeout=MOST_SECONDS, **options
        )


def by_musescore(folder, options):
    jobs = [{"in": str(path), "out": str(path.with_suffix(".score.mid"))} for path in midi_files(folder)]
    (folder / "jobs.json").write_text(json.dumps(jobs))
    run("mscore3", *options, "-j", str(folder / "jobs.json"), env=dict(os.environ, QT_QPA_PLATFORM="offscreen"))


def by_midi2ly(folder, options):
    for path in midi_files(folder):
        source = path.with_suffix(".ly")
        run("midi2ly", *options, f"--output={source}", str(path))
        if source.exists():
            # Nothing is to be drawn.
            source.write_text(source.read_text().replace("\\layout {}", ""))
    run("lilypond", "--silent", *sorted(path.name for path in folder.glob("*.ly")), cwd=folder)
    for score in folder.glob("*.midi"):
        score.rename(score.with_suffix(".score.mid"))


def by_midi2abc(folder, options):
    for path in midi_files(folder):
        source = path.with_suffix(".abc")
        run("midi2abc", str(path), "-o", str(source), *options)
        run("abc2midi", str(source), "-o", str(path.with_suffix(".score.mid")))


def quantized(note):
    """midi2ly's options for a grid of such notes."""
    return (f"--start-quant={note}", f"--duration-quant={note}")


# Short rests belong to the note before; the shortest note is guessed.
SHORT_RESTS = ("-sr", "2")
GUESS = ("-gu",)

PEERS = [
    Peer("MuseScore", "musescore3", ("mscore3",), by_musescore, Settings(0.9), Settings(0.8)),
    Peer(
        "midi2ly",
        "lilypond",
        ("midi2ly", "lilypond"),
        by_midi2ly,
        Settings(0.9, quantized(16)),
        Settings(0.9, quantized(8)),
    ),
    Peer(
        "midi2abc",
        "abcmidi",
        ("midi2abc", "abc2midi"),
        by_midi2abc,
        Settings(0.9, SHORT_RESTS),
        Settings(0.5, GUESS + SHORT_RESTS),
    ),
]
