#!/usr/bin/env python3
"""Writes inputs for the benchmark: a phone book of 16 KB, a denser one, small cards, long folded lines, damaged inputs, and texts.

  book.py FOLDER
"""
import pathlib
import random
import sys

FIRST = "Anna Bernd Carla Dieter Eva Frank Greta Hans Ilse Jörg Käthe Lars Mara Nils Olga Paul Rosa Sven Tina Uwe".split()
LAST = "Müller Schmidt Schneider Fischer Weber Meyer Wagner Becker Schulz Hoffmann Schäfer Koch Bauer Richter Klein Wolf".split()
PLACES = ["Leitstelle Nord", "Umspannwerk Hafen", "Depot Lindenhof", "Werkstatt Süd", "Fahrdienstleitung", "Betriebshof Mitte"]
LIMIT = 16384


def fold(line):
    """A line in physical lines of at most 75 octets, cut between characters."""
    octets, out, room = line.encode(), b"", 75
    while len(octets) > room:
        cut = room
        while octets[cut] & 0xC0 == 0x80:
            cut -= 1
        out, octets, room = out + octets[:cut] + b"\r\n ", octets[cut:], 74
    return out + octets + b"\r\n"


def card(dice):
    """One entry of a cab telephone's phone book."""
    first, last, place = dice.choice(FIRST), dice.choice(LAST), dice.choice(PLACES)
    lines = [
        "BEGIN:VCARD",
        "VERSION:4.0",
        f"UID:urn:uuid:4fbe8971-0bc3-424c-9c26-{dice.randrange(10**11, 10**12)}",
        f"FN:{place}\\, {first} {last}",
        f"N:{last};{first};;;",
        f"ORG:Verkehrsbetriebe;{place}",
        f"TEL;VALUE=uri;PREF=1;TYPE=\"voice,work\":tel:+49-30-5550-{dice.randrange(1000, 9999)}",
        f"funk.TEL;TYPE=cell:+49 170 {dice.randrange(1000000, 9999999)}",
        f"ADR;LABEL=\"Halle {dice.randrange(1, 9)}, Tor {dice.randrange(1, 5)}\":;;Gleisstraße {dice.randrange(1, 99)};Berlin;;12345;Deutschland",
        f"NOTE:Schicht {dice.randrange(1, 4)}\\, Linie {dice.randrange(1, 80)}\\; bei Störung der Oberleitung zuerst das Umspannwerk rufen\\, dann die Leitstelle",
        "CATEGORIES:Tram,Depot,Nacht",
        f"REV:20261115T0500{dice.randrange(10, 59)}Z",
        "END:VCARD",
    ]
    return b"".join(fold(line) for line in lines)


def dense_card(dice):
    """An entry of many short lines, none of them folded."""
    first, last, place = dice.choice(FIRST), dice.choice(LAST), dice.choice(PLACES)
    number = dice.randrange(1000, 9999)
    lines = [
        "BEGIN:VCARD",
        "VERSION:4.0",
        f"PRODID:-//Betriebshof//Buch {dice.randrange(1, 9)}//DE",
        f"UID:urn:uuid:4fbe8971-0bc3-424c-9c26-{dice.randrange(10**11, 10**12)}",
        "KIND:individual",
        f"FN:{first} {last}",
        f"N:{last};{first};;;",
        f"NICKNAME:{first[:3]},{last[:3]}",
        f"TITLE:Fahrdienst {dice.randrange(1, 9)}",
        "ROLE:Leitung",
        f"ORG:Verkehrsbetriebe;{place}",
        f"TEL;VALUE=uri;TYPE=voice:tel:+49-30-5550-{number}",
        f"funk.TEL;TYPE=cell:+49 170 {dice.randrange(1000000, 9999999)}",
        f"EMAIL;PREF=1:dienst{number}@tram.example",
        f"ADR:;;Gleisweg {dice.randrange(1, 99)};Berlin;;12345;",
        f"URL:https://tram.example/dienst/{number}",
        f"NOTE:Linie {dice.randrange(1, 80)}\\, Schicht {dice.randrange(1, 4)}",
        "CATEGORIES:Tram,Depot,Nacht",
        f"REV:20261115T0500{dice.randrange(10, 59)}Z",
        "END:VCARD",
    ]
    return b"".join(line.encode() + b"\r\n" for line in lines)


def single(length, lines):
    """One card of so many octets: these lines, and a note that fills it up."""
    octets = b"".join(fold(line) for line in ["BEGIN:VCARD", "VERSION:4.0", *lines])
    end = b"END:VCARD\r\n"
    missing = length - len(octets) - len(end)
    words, note = "Linie 4 und Schicht 2 vom Depot Lindenhof ", b""
    for letters in range(missing):
        note = fold("NOTE:" + (words * 30)[:letters])
        if len(note) == missing:
            return octets + note + end
    raise SystemExit(f"book.py: no card of {length} octets")


def filled(make):
    """As many cards as an input holds."""
    dice, book = random.Random(7), b""
    while True:
        more = make(dice)
        if len(book) + len(more) > LIMIT:
            return book
        book += more


def main():
    folder = pathlib.Path(sys.argv[1])
    folder.mkdir(parents=True, exist_ok=True)
    book = filled(card)
    small = b"BEGIN:VCARD\r\nVERSION:4.0\r\nFN:A\r\nEND:VCARD\r\n"
    long = b"BEGIN:VCARD\r\nVERSION:4.0\r\nFN:A\r\n" + fold("NOTE:" + "Umspannwerk " * 1200) + b"END:VCARD\r\n"
    prose = "Bei Störung der Oberleitung zuerst das Umspannwerk rufen, dann die Leitstelle; Funk auf Kanal 4 lassen.\n" * 70
    # an address on lines, with a newline, a quote mark or a caret every 40 octets; and the same with an accent a line
    address = 'Depot Lindenhof Halle sieben links hinten\n"Tor vier" am Umspannwerk Hafen bei der ^ Weiche\nFunk auf Kanal 4 lassen bis zum Morgen\n'
    accents = address.replace("Lindenhof", "Lindenhöhe").replace("hinten", "zurück").replace("Morgen", "Süden")

    def encoded(value):
        return value.replace("^", "^^").replace("\n", "^n").replace('"', "^'")

    name = ["FN:Anna Klein", "TEL:+49 30 5550"]
    person = [
        "UID:urn:uuid:4fbe8971-0bc3-424c-9c26-36a9f1d2c3b4",
        "FN:Anna Klein",
        "N:Klein;Anna;;;",
        "TEL;VALUE=uri;TYPE=work:tel:+49-30-5550-4711",
        "EMAIL:anna@tram.example",
        "REV:20261115T050012Z",
    ]
    files = {
        "card87": single(87, name),
        "card290": single(290, person),
        "card1024": single(1024, person),
        "book": book,
        "dense": filled(dense_card),
        "small": small * (LIMIT // len(small)),
        "long": long[:LIMIT] if len(long) <= LIMIT else long,
        "damaged": book[:-20] + b"\x01" + book[-19:],
        "plain": b"Leitstelle Nord, Umspannwerk Hafen, Depot Lindenhof ".replace(b",", b"") * 150,
        "prose": prose.encode(),
        "value": (address * 50).encode(),
        "label": encoded(address * 50).encode(),
        "accents": (accents * 50).encode(),
        "letters": encoded(accents * 50).encode(),
        "escaped": prose.replace("\\", "\\\\").replace(",", "\\,").replace(";", "\\;").replace("\n", "\\n").encode(),
    }
    for name, octets in files.items():
        (folder / name).write_bytes(octets)


main()
