"""Taps as a MIDI file, and the notes of one."""

import struct
from dataclasses import dataclass

# Pulses for a quarter, and how many ms a quarter has in a file that does not say.
PULSES = 480
DEFAULT_BEAT = 500
# Each note has the pitch after that of the one before, so that it can be told which are missing; twelve of them.
LOWEST = 60
PITCHES = 12


@dataclass(frozen=True)
class Note:
    # When it begins, in ticks, twelve to a quarter.
    begins: float
    pitch: int


def pitch_of(number):
    """Of the note at the tap with this number."""
    return LOWEST + number % PITCHES


def write_midi(taps, sounds, beat=None):
    """A file with a note at each tap.

    sounds: for how much of the time to the next one; beat: how many ms a quarter takes, where the file is to say so.
    """
    pulses = [round(tap * PULSES / (beat or DEFAULT_BEAT)) for tap in taps]
    events = bytearray()
    if beat is not None:
        events += b"\x00\xff\x51\x03" + round(beat * 1000).to_bytes(3, "big")
    now = 0
    for number, begins in enumerate(pulses):
        follows = pulses[number + 1] if number + 1 < len(pulses) else begins + PULSES
        ends = begins + round(sounds * (follows - begins))
        events += variable(begins - now) + bytes([0x90, pitch_of(number), 80])
        events += variable(ends - begins) + bytes([0x80, pitch_of(number), 0])
        now = ends
    events += b"\x00\xff\x2f\x00"
    header = b"MThd" + struct.pack(">IHHH", 6, 0, 1, PULSES)
    return header + b"MTrk" + struct.pack(">I", len(events)) + bytes(events)


def variable(number):
    """A number by seven bits a byte, the highest first."""
    digits = [number & 0x7F]
    while number := number >> 7:
        digits.append(number & 0x7F | 0x80)
    return bytes(reversed(digits))


def read_midi(data):
    """The notes of all tracks of a file, as they begin."""
    tracks, pulses = struct.unpack(">HH", data[10:14])
    at = 14
    notes = []
    for _ in range(tracks):
        length = int.from_bytes(data[at + 4 : at + 8], "big")
        notes += track_notes(data[at + 8 : at + 8 + length], pulses)
        at += 8 + length
    return sorted(notes, key=lambda note: note.begins)


def track_notes(data, pulses):
    events = Events(data)
    notes = []
    now = 0
    status = 0
    while not events.at_end():
        now += events.variable()
        if events.peek() & 0x80:
            status = events.byte()
        if status == 0xFF:
            events.byte()
            events.skip(events.variable())
        elif status in (0xF0, 0xF7):
            events.skip(events.variable())
        else:
            first = events.byte()
            second = 0 if status >> 4 in (0xC, 0xD) else events.byte()
            if status >> 4 == 0x9 and second > 0:
                notes.append(Note(12 * now / pulses, first))
    return notes


class Events:
    """The bytes of a track, read from the front."""

    def __init__(self, data):
        self.data = data
        self.at = 0

    def at_end(self):
        return self.at == len(self.data)

    def peek(self):
        return self.data[self.at]

    def byte(self):
        self.at += 1
        return self.data[self.at - 1]

    def skip(self, count):
        self.at += count

    def variable(self):
        number = 0
        while True:
            byte = self.byte()
            number = number << 7 | byte & 0x7F
            if not byte & 0x80:
                return number
