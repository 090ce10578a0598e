"""NEC-2: a deck of wires, its run by nec2c, and what the output says. Lengths are in metres; x points to azimuth 0, y to azimuth
90.

nec2c is needed to run a deck: on Debian, apt-get install nec2c."""
import math
import os
import subprocess
import tempfile

LIGHT = 299.792458  # metres × MHz
SILENT = -200.0     # in place of NEC's -999.99, no field at all


class Deck:
    """Wires above a ground at one frequency. `ground` is None for a perfect one, else its dielectric constant and
    conductivity."""

    def __init__(self, mhz, ground):
        self.mhz, self.ground, self.wavelength = mhz, ground, LIGHT / mhz
        self.sommerfeld = True  # else the ground acts on the wires by reflection coefficients alone
        self.wires, self.joins = [], []

    def wire(self, start, end, radius, segments=None):
        """Adds a straight wire and answers its tag. Where no number of segments is given: an odd one, each a twentieth of a wave
        or less."""
        if segments is None:
            segments = 2 * math.ceil(math.dist(start, end) / self.wavelength * 10) + 1
        self.wires.append((segments, start, end, radius))
        return len(self.wires)

    def middle(self, tag):
        """The place of a wire's middle: its tag and segment."""
        return tag, self.wires[tag - 1][0] // 2 + 1

    def load(self, place, ohms):
        """A resistance, or an imaginary reactance, in a segment."""
        self.joins.append("LD 4 %d %d %d %.6g %.6g" % (place[0], place[1], place[1], ohms.real, ohms.imag))

    def crossed_line(self, place, other, ohms, length):
        """A transmission line between two segments, its wires crossing over."""
        self.joins.append("TL %d %d %d %d %.6g %.6g" % (*place, *other, -ohms, length))

    def head(self, title):
        cards = ["CM " + title, "CE"]
        for tag, (segments, start, end, radius) in enumerate(self.wires, 1):
            cards.append("GW %d %d %s %.6g" % (tag, segments, " ".join("%.5f" % x for x in (*start, *end)), radius))
        ground = "GN 1" if self.ground is None else "GN %d 0 0 0 %.6g %.6g" % (2 if self.sommerfeld else 0, *self.ground)
        return cards + ["GE -1", ground, "FR 0 1 0 0 %.6g 0" % self.mhz] + self.joins


def driven(volts):
    """The cards that drive a deck by {place: volts}."""
    return ["EX 0 %d %d 0 %.8g %.8g" % (*place, v.real, v.imag) for place, v in volts.items()]


DOME = [(elevation, azimuth) for azimuth in range(0, 360, 15) for elevation in range(80, 0, -10)]


def asked(elevation, azimuth):
    """The cards that ask the gain at azimuths 0 to 359 of an elevation (a row), at elevations 90 to 1 of an azimuth (a cut), and
    in the directions of DOME."""
    row, cut = "RP 0 1 360 1000 %g 0 0 1" % (90 - elevation), "RP 0 90 1 1000 0 %g 1 0" % azimuth
    return ["PT -1", row, cut, "RP 0 8 24 1000 10 0 10 15"]


def run(cards):
    """nec2c's output for these cards."""
    with tempfile.TemporaryDirectory() as room:
        deck, output = os.path.join(room, "deck.nec"), os.path.join(room, "deck.out")
        with open(deck, "w") as file:
            file.write("\n".join(cards + ["EN"]) + "\n")
        try:
            subprocess.run(["nec2c", "-i" + deck, "-o" + output], check=True, stdout=subprocess.DEVNULL)
        except FileNotFoundError:
            raise SystemExit("there is no nec2c (on Debian: apt-get install nec2c)") from None
        with open(output) as file:
            return file.read()


def tables(text, title, width):
    """The rows of numbers, each of `width` words or more, below each line that has the title."""
    found, inside = [], False
    for line in text.splitlines():
        words = line.split()
        if title in line:
            found.append([])
            inside = True
        elif inside and len(words) >= width and words[0].replace(".", "").isdigit():
            found[-1].append(words)
        elif not words and found and found[-1]:
            inside = False
    return found


def currents(text):
    """For each time that the deck was driven {place: current}."""
    found = []
    for table in tables(text, "CURRENTS AND LOCATION", 10):
        tags = [int(words[1]) for words in table]
        places = [(tag, k + 1 - tags.index(tag)) for k, tag in enumerate(tags)]
        found.append({place: complex(float(words[6]), float(words[7])) for place, words in zip(places, table)})
    return found


def patterns(text):
    """For each pattern that was asked the gains (dBi)."""
    return [[max(float(words[4]), SILENT) for words in table] for table in tables(text, "RADIATION PATTERNS", 8)]


def solved(matrix, wanted):
    """x with matrix · x = wanted, by elimination."""
    rows = [[*line, value] for line, value in zip(matrix, wanted)]
    for k in range(len(rows)):
        best = max(range(k, len(rows)), key=lambda i: abs(rows[i][k]))
        rows[k], rows[best] = rows[best], rows[k]
        for i in range(len(rows)):
            if i != k:
                share = rows[i][k] / rows[k][k]
                rows[i] = [a - share * b for a, b in zip(rows[i], rows[k])]
    return [row[-1] / row[k] for k, row in enumerate(rows)]
