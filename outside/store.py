"""The antennas of the cases, and NEC's stored answers."""
import os

import cases
import plates

ROOT = os.path.join(os.path.dirname(os.path.abspath(__file__)), "..")


def mast(hf, path):
    with open(path, "rb") as file:
        return plates.mast_of(hf, file.read())


def antenna(hf, case):
    """The case's antenna, as our library answers it."""
    if case.station == "curtain":
        return plates.Curtain(hf, cases.CURTAIN, cases.CURTAIN_ELEVATION)
    return mast(hf, os.path.join(ROOT, "examples", case.station + ".station"))


def path(case):
    return os.path.join(ROOT, "outside", "tables", case.name + ".txt")


def lines(gains):
    """Fifteen numbers a line."""
    return "".join(" ".join("%.2f" % gain for gain in gains[k:k + 15]) + "\n" for k in range(0, len(gains), 15))


def write(case, elevation, patterns, departures):
    row, cut, dome = patterns
    with open(path(case), "w") as file:
        file.write("# %s, %s: NEC-2's gain in dBi\n" % (case.name, case.says))
        if departures:
            file.write("# how far its currents depart from the plate's, in total and in shape\n")
            file.write("departures\n%.4f %.4f\n" % departures)
        file.write("# azimuths 0 to 359 at elevation %g\nrow\n%s" % (elevation, lines(row)))
        file.write("# elevations 1 to 90 at azimuth %g\ncut\n%s" % (case.azimuth, lines(cut)))
        file.write("# azimuths 0, 15 .. 345, at each the elevations 80, 70 .. 10\ndome\n%s" % lines(dome))


def read(case):
    """NEC's row, cut and dome, and its currents' departures, if they are the plate's."""
    parts = {}
    with open(path(case)) as file:
        for line in file:
            words = line.split()
            if words[0].isalpha():
                part = parts[words[0]] = []
            elif words[0] != "#":
                part += map(float, words)
    return [parts[name] for name in ("row", "cut", "dome")], parts.get("departures")
