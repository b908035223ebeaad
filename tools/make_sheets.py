#!/usr/bin/env python3
"""Writes the bundled sheet files into crates/sehurani/data, or into the folder that is named.

    python3 tools/make_sheets.py [FOLDER]

bright_stars.sheet is the star catalogue. The stars, their J2000.0 positions in degrees and visual magnitudes are the
well-known bright ones, rounded to four decimals; the last column has their numbers in the Bright Star Catalogue. It
shows what a sheet may hold: texts, floats, moments of the 1900 system, flags, blanks in the note column, one error
cell, and one extra column at the right edge. The others are small: every kind of cell, the empty sheet, and one
damaged file for each refusal of the reader. docs/SHEET_FILE.md has the format.
"""

import struct
import sys
from pathlib import Path

FOLDER = Path(__file__).resolve().parent.parent / 'crates/sehurani/data'

HEADERS = ['Designation', 'RA', 'Dec', 'Mag', 'Epoch', 'Variable', 'Note', 'Catalogue no.']

# designation, right ascension and declination in degrees, magnitude (None: an error cell), variable, note, HR number
STARS = [
    ('Sirius', 101.2872, -16.7161, -1.46, False, 'double', 2491),
    ('Canopus', 95.9880, -52.6957, -0.74, False, None, 2326),
    ('Rigil Kentaurus', 219.9021, -60.8340, -0.27, False, 'double', 5459),
    ('Arcturus', 213.9153, 19.1824, -0.05, True, None, 5340),
    ('Vega', 279.2347, 38.7837, 0.03, True, 'zero point', 7001),
    ('Capella', 79.1723, 45.9980, 0.08, True, 'double', 1708),
    ('Rigel', 78.6345, -8.2016, 0.13, True, None, 1713),
    ('Procyon', 114.8255, 5.2250, 0.34, False, None, 2943),
    ('Achernar', 24.4285, -57.2368, 0.46, True, None, 472),
    ('Betelgeuse', 88.7929, 7.4071, None, True, 'dimmed 2019', 2061),
    ('Hadar', 210.9559, -60.3730, 0.61, True, None, 5267),
    ('Altair', 297.6958, 8.8683, 0.76, True, None, 7557),
    ('Acrux', 186.6496, -63.0991, 0.76, False, 'double', 4730),
    ('Aldebaran', 68.9802, 16.5093, 0.86, True, None, 1457),
    ('Antares', 247.3519, -26.4320, 0.96, True, '\N{GREEK SMALL LETTER ALPHA} Sco', 6134),
    ('Spica', 201.2983, -11.1613, 0.97, True, None, 5056),
    ('Pollux', 116.3290, 28.0262, 1.14, False, None, 2990),
    ('Fomalhaut', 344.4127, -29.6222, 1.16, False, 'dust ring', 8728),
    ('Deneb', 310.3580, 45.2803, 1.25, True, None, 7924),
    ('Mimosa', 191.9303, -59.6888, 1.25, True, None, 4853),
    ('Regulus', 152.0930, 11.9672, 1.40, False, None, 3982),
]

J2000 = 36526.5  # 2000-01-01 12:00 as a serial of the 1900 system
FIRST_ROW, FIRST_COLUMN = 2, 1
EMPTY, WHOLE, FLOAT, TEXT, YES_NO, MOMENT_1900, MOMENT_1904, SPAN_1900, SPAN_1904, ISO_DATE, ISO_SPAN, ERROR = range(12)
NOT_AVAILABLE = 1


class Sheet:
    """Cells in nine bytes each, and the one text that they refer to."""

    def __init__(self):
        self.cells = []
        self.text = b''

    def put(self, kind, eight):
        self.cells.append(bytes([kind]) + eight)

    def put_text(self, text):
        data = text.encode('utf-8')
        self.put(TEXT, struct.pack('<II', len(self.text), len(data)))
        self.text += data

    def put_star(self, name, ra, dec, mag, variable, note, number):
        self.put_text(name)
        self.put(FLOAT, struct.pack('<d', ra))
        self.put(FLOAT, struct.pack('<d', dec))
        if mag is None:
            self.put(ERROR, struct.pack('<Q', NOT_AVAILABLE))
        else:
            self.put(FLOAT, struct.pack('<d', mag))
        self.put(MOMENT_1900, struct.pack('<d', J2000))
        self.put(YES_NO, struct.pack('<Q', int(variable)))
        if note is None:
            self.put(EMPTY, bytes(8))
        else:
            self.put_text(note)
        self.put(WHOLE, struct.pack('<q', number))

    def file(self, rows, columns):
        corners = (FIRST_ROW, FIRST_COLUMN, FIRST_ROW + rows - 1, FIRST_COLUMN + columns - 1)
        return sheet_file(struct.pack('<IIII', *corners), b''.join(self.cells), self.text)


def sheet_file(shape, cells, text):
    """The three parts behind their table of contents."""
    place, contents = 24, b''
    for part in (shape, cells, text):
        contents += struct.pack('<II', place, len(part))
        place += len(part)
    return contents + shape + cells + text


def catalogue():
    sheet = Sheet()
    for header in HEADERS:
        sheet.put_text(header)
    for star in STARS:
        sheet.put_star(*star)
    return sheet.file(1 + len(STARS), len(HEADERS))


def every_kind():
    """One row with a cell of every kind, a text with bytes to escape, and a part that leaves the text."""
    sheet = Sheet()
    sheet.put(EMPTY, bytes(8))
    sheet.put(WHOLE, struct.pack('<q', -9223372036854775808))
    sheet.put(FLOAT, struct.pack('<d', -0.0))
    sheet.put_text('say "hi"\\\t')
    for value in (0, 1):
        sheet.put(YES_NO, struct.pack('<Q', value))
    for kind in (MOMENT_1900, MOMENT_1904, SPAN_1900, SPAN_1904):
        sheet.put(kind, struct.pack('<d', 1.25))
    for kind in (ISO_DATE, ISO_SPAN):
        sheet.put(kind, struct.pack('<II', 0, 3))
    for error in range(8):
        sheet.put(ERROR, struct.pack('<Q', error))
    sheet.put(TEXT, struct.pack('<II', len(sheet.text), 1))
    return sheet.file(1, len(sheet.cells))


def small(corners=(0, 0, 0, 1), cells=None):
    """Two cells in one row, empty unless others are given."""
    return sheet_file(struct.pack('<IIII', *corners), bytes(18) if cells is None else cells, b'')


def gap():
    """The cells a byte too far."""
    whole = bytearray(small())
    whole[8:12] = struct.pack('<I', 41)
    return bytes(whole)


FILES = {
    'bright_stars.sheet': catalogue,
    'every_kind.sheet': every_kind,
    'empty.sheet': lambda: sheet_file(b'', b'', b''),
    'contents_with_a_gap.sheet': gap,
    'first_row_past_last.sheet': lambda: small((1, 0, 0, 1)),
    'past_the_limits.sheet': lambda: small((0, 0, 1048576, 0)),
    'one_cell_missing.sheet': lambda: small(cells=bytes(9)),
    'kind_not_listed.sheet': lambda: small(cells=bytes(9) + bytes([12]) + bytes(8)),
}


def main():
    folder = Path(sys.argv[1]) if len(sys.argv) > 1 else FOLDER
    folder.mkdir(parents=True, exist_ok=True)
    for name, make in FILES.items():
        (folder / name).write_bytes(make())
        print(folder / name)


if __name__ == '__main__':
    main()
