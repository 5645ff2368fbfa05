#!/usr/bin/env python3
"""Writes cards of version 3, each beside the card of version 4 as which it is taken in: folded, and one with a long line on one physical line too.

  sets.py FOLDER
"""
import pathlib
import random
import sys

WORDS = "Linie 4 und Schicht 2 vom Depot Lindenhof bei Störung der Oberleitung\\, zuerst das Umspannwerk rufen; ".split(" ")


def fold(line):
    """A line in physical lines of at most 75 octets, cut between characters."""
    octets, out, room = line.encode(), b"", 75
    while len(octets) > room:
        cut = room
        while octets[cut] & 0xC0 == 0x80:
            cut -= 1
        out, octets, room = out + octets[:cut] + b"\r\n ", octets[cut:], 74
    return out + octets + b"\r\n"


def both(old, new=None):
    """A line of version 3, and the same of version 4."""
    return old, old if new is None else new


def line(dice, turn):
    """One line that both versions have, and its other form: half of the lines change."""
    number, note = dice.randrange(1000, 9999), " ".join(WORDS)
    kinds = [
        both(f"TEL;TYPE=work,pref,voice:+49-30-5550-{number}", f"TEL;TYPE=work,voice;PREF=1:+49-30-5550-{number}"),
        both(f"funk.TEL;TYPE=cell:+49 170 {number}"),
        both(f"ADR;TYPE=work:;;Gleisstraße {number};Berlin;;12345", f"ADR;TYPE=work:;;Gleisstraße {number};Berlin;;12345;"),
        both(f"NOTE:{number} {note}", f"NOTE:{number} {note}".replace(";", "\\;")),
        both(f"EMAIL;TYPE=internet:dienst{number}@tram.example"),
        both("TITLE:Fahrdienstleitung Süd\\Nund Mitte", "TITLE:Fahrdienstleitung Süd\\nund Mitte"),
        both("ORG:Verkehrsbetriebe;Leitstelle Nord"),
        both(f"GEO:{number}.5;-13.25", f"GEO:geo:{number}.5,-13.25"),
        both(f"URL:https://tram.example/dienst/{number}"),
    ]
    return kinds[turn % len(kinds)]


def lines(count):
    """So many lines of a card, in both versions."""
    dice = random.Random(7)
    head = [both("BEGIN:VCARD"), both("VERSION:3.0", "VERSION:4.0"), both("FN:Anna Klein"), both("N:Klein;Anna", "N:Klein;Anna;;;")]
    return head + [line(dice, turn) for turn in range(count - len(head) - 1)] + [both("END:VCARD")]


def long_line():
    """A line of about 5,000 octets."""
    note = "NOTE:" + " ".join(WORDS * 50)
    return both(note, note.replace(";", "\\;"))


def flat(line):
    """A line as one physical line."""
    return line.encode() + b"\r\n"


def main():
    folder = pathlib.Path(sys.argv[1])
    long = lines(9)[:-1] + [long_line(), both("END:VCARD")]
    for name, pairs, write in (("9", lines(9), fold), ("85", lines(85), fold), ("250", lines(250), fold), ("long", long, fold), ("flat", long, flat)):
        for version in (3, 4):
            (folder / f"set{version}-{name}").write_bytes(b"".join(write(pair[version - 3]) for pair in pairs))


main()
