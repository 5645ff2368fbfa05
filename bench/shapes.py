#!/usr/bin/env python3
"""Writes inputs of many sizes and shapes for the benchmark, and tells their names.

  shapes.py FOLDER

Cards of each size (size-N) and texts (escaped-N, and prose-N, which has N octets once it is escaped); cards of one size by their count of lines, parameters or
folds (lines-N, parameters-N, folds-N); and odd cards of at most 16,384 octets (odd-NAME), which are to cost at most 4 times what a book does.
"""
import pathlib
import sys

LIMIT = 16384
SIZES = [256, 512, 1024, 2048, 4096, 6144, 8192, 12288, 16384]
ONE_SIZE = 15360  # so that the folded form of one long line still has at most 16,384 octets
PROSE = "Bei Störung der Oberleitung zuerst das Umspannwerk rufen\\, dann die Leitstelle\\; Funk auf Kanal 4 lassen.\\n"


def card(text):
    """A card with these octets after its FN line."""
    return b"BEGIN:VCARD\r\nVERSION:4.0\r\nFN:A\r\n" + text + b"END:VCARD\r\n"


FRAME = len(card(b""))


def line(start, octets, end=b""):
    """A line of so many octets with its CR LF, filled up with letters between start and end."""
    return start + b"a" * (octets - len(start) - len(end) - 2) + end + b"\r\n"


def shared(octets, count):
    """So many octets in parts that are equal but for one octet."""
    return [octets * (i + 1) // count - octets * i // count for i in range(count)]


def sized(octets):
    """Entries of a phone book with so many octets; a ROLE line and NOTE lines of 50 octets fill the last one up."""
    lines = b"N:Weber;Anna;;;\r\nORG:Verkehrsbetriebe;Depot\r\nTEL;VALUE=uri;TYPE=voice:tel:+49-30-5550\r\nEMAIL;PREF=1:dienst@tram.example\r\n"
    entry = card(lines)
    whole = (octets - len(entry) - 7) // len(entry)
    rest = octets - (whole + 1) * len(entry) - 7
    return entry * whole + card(lines + line(b"ROLE:", rest % 50 + 7) + line(b"NOTE:", 50) * (rest // 50))


def escaped(octets):
    """Prose with its escapes, cut before a character and filled up with letters."""
    text = b""
    while len(text) + len(PROSE.encode()) <= octets:
        text += PROSE.encode()
    return text + b"a" * (octets - len(text))


def unescaped(text):
    return text.replace(b"\\n", b"\n").replace(b"\\,", b",").replace(b"\\;", b";")


def by_count():
    """Cards of one size: many lines, or one line with many parameters or folds."""
    room, files = ONE_SIZE - FRAME, {}
    for n in [1, *range(250, 2001, 250)]:
        files[f"lines-{n}"] = card(b"".join(line(b"NOTE:", octets) for octets in shared(room, n)))
    for n in [0, 60, 120, 250, *range(500, 3501, 500)]:
        files[f"parameters-{n}"] = card(line(b"NOTE" + b";A=b" * n + b":", room))
        texts = shared(room - len(b"NOTE:\r\n") - 3 * n, n + 1)
        files[f"folds-{n}"] = card(b"NOTE:" + b"\r\n ".join(b"a" * octets for octets in texts) + b"\r\n")
    return files


def long_altid(room):
    """An N line whose ALTID takes half of the room, folded, and N lines with a shorter ALTID until the second instance; then short lines."""
    half = room // 2
    tag = b"\r\n ".join([b"a" * 72] * ((half - 20) // 75))
    first = b"N;ALTID=" + tag + b":;;;;\r\n"
    return first + b"A:\r\n" * ((room - len(first)) // 4)


def odd():
    """Cards that might cost more than others."""
    room = LIMIT - FRAME
    small = card(b"")
    return {
        "lines of 4 octets": card(b"A:\r\n" * (room // 4)),
        "lines of 5 octets": card(b"AB:\r\n" * (room // 5)),
        "names almost TEL": card(b"TEK:\r\n" * (room // 6)),
        "ALTID on 500 N lines": card(b"".join(line(b"N;ALTID=1:;;;;", octets) for octets in shared(room, 500))),
        "a long folded ALTID and short lines": card(long_altid(room)),
        "ALTID of folds alone": card(b"N;ALTID=" + b"\r\n " * ((room - 40) // 3) + b":;;;;\r\nN;ALTID=:;;;;\r\n"),
        "cards of 43 octets": small * (LIMIT // len(small)),
        "parameters": card(line(b"A" + b";A=b" * ((room - 4) // 4) + b":", room)),
        "names almost VALUE": card(line(b"A" + b";VALUX=" * ((room - 4) // 7) + b":", room)),
        "values of one parameter": card(line(b"A;B=b" + b",b" * ((room - 8) // 2) + b":", room)),
        "a fold at every octet": card(b"NOTE:" + b"a\r\n " * ((room - 7) // 4) + b"\r\n"),
        "folds with nothing between": card(b"NOTE:" + b"\r\n " * ((room - 7) // 3) + b"\r\n"),
        "escapes": card(b"NOTE:" + b"\\n" * ((room - 7) // 2) + b"\r\n"),
        "two-octet characters": card(b"NOTE:" + "ö".encode() * ((room - 7) // 2) + b"\r\n"),
        "digits of a CLIENTPIDMAP": card(b"CLIENTPIDMAP:" + b"1" * (room - 19) + b";a:b\r\n"),
    }


def main():
    folder = pathlib.Path(sys.argv[1])
    folder.mkdir(parents=True, exist_ok=True)
    files = by_count() | {"odd-" + name.replace(" ", "-"): octets for name, octets in odd().items()}
    for n in SIZES:
        files |= {f"size-{n}": sized(n), f"escaped-{n}": escaped(n), f"prose-{n}": unescaped(escaped(n))}
    for name, octets in files.items():
        (folder / name).write_bytes(octets)
        print(name)


main()
