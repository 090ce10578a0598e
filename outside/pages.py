"""What docs/SECOND_OPINION.md shows: its tables and pictures, made from our numbers and NEC's stored ones; and the tests that it
does."""
import dataclasses
import os

import cases
import compare
import measures
import nec
import picture
import store

DOCUMENT = os.path.join(store.ROOT, "docs", "SECOND_OPINION.md")
PICTURES = os.path.join(store.ROOT, "docs", "second-opinion")


def beside(ours, theirs):
    """Our number and NEC's; a small negative one is 0.0."""
    return " / ".join("–" if x is None else "%.1f" % (round(x, 1) + 0.0) for x in (ours, theirs))


def nulls(pattern, ring):
    """The first nulls beside the main lobe: azimuths of a row, elevations of a cut."""
    places = [measures.null_place(pattern, step, ring) for step in (-1, 1)]
    return " ".join("%d" % (place if ring else place + 1) for place in places if place is not None) or "–"


def line(*columns):
    return "| %s |" % " | ".join(columns)


def gain(case, antenna, cut):
    """The greatest gain of the cut, ours and NEC's."""
    return beside(max(antenna.gain(elevation, case.azimuth) for elevation in range(1, 91)), max(cut))


def numbers(case, antenna, answers):
    """The patterns' own numbers, ours and NEC's: the strongest side lobe, front-to-back, the first nulls, the greatest gain."""
    row, cut, _ = compare.pairs(case, antenna, answers, False)
    (whole, upright, _), _ = answers
    sides = beside(*(measures.side_lobe(pattern, True) for pattern in (row.ours, row.theirs)))
    backs = "–" if case.front else beside(*(measures.front_to_back(pattern) for pattern in (row.ours, whole)))
    places = ["%s / %s" % (nulls(one.ours, one.ring), nulls(one.theirs, one.ring)) for one in (row, cut)]
    return [sides, backs, *places, gain(case, antenna, upright)]


def lobes(case, antenna, answers):
    """The greatest difference in the main lobe (dB), in the row and in the cut; where the source departs from its currents, then
    without that."""
    plain, mended = ([one.lobe for one in compare.pairs(case, antenna, answers, way)[:2]] for way in (False, True))
    return ["%.2f, mended %.2f" % pair if plain != mended else "%.2f" % pair[0] for pair in zip(plain, mended)]


def fields(case, antenna, answers):
    """How far the fields differ, and may."""
    return ["%.3f of %.3f" % one.worst for one in compare.pairs(case, antenna, answers)]


def largest(case, antenna, directions):
    """The source's greatest departure from the field of its own currents (dB), and where, of directions in which the gain is
    within 10 dB of the greatest."""
    found = []
    for direction in directions:
        as_source, as_field = (case.departure(antenna.parm, *direction, way) for way in (True, False))
        gain = antenna.gain(*direction)
        if gain > antenna.limit + 0.01 and max(gain, gain + as_field - as_source) > antenna.maximum + measures.MAIN:
            found.append((as_source - as_field, *direction))
    return max(found, key=lambda one: abs(one[0]))


def departing(case, antenna):
    """The line of the row's and of the dome's, or none where the station has no such departure."""
    rows = [(antenna.elevation, azimuth) for azimuth in range(360)]
    both = [largest(case, antenna, directions) for directions in (rows, nec.DOME)] if case.departure else [(0,)]
    return [line(case.name, *("%+.1f at elevation %g, azimuth %g" % one for one in both))] if any(one[0] for one in both) else []


def lines(hf):
    """The lines of the document's tables, one after the other."""
    held = [(case, store.antenna(hf, case), store.read(case)) for case in cases.HELD]
    built = [(case, store.antenna(hf, case), store.read(case)) for case in cases.BUILT]
    first = [line(one[0].name, one[0].says, *lobes(*one), *fields(*one)) for one in held]
    second = [line(one[0].name, *numbers(*one)) for one in held]
    third = [line(one[0].name, one[0].says, *lobes(*one), *numbers(*one)) for one in built]
    return first + second + third + [last for case, antenna, _ in held for last in departing(case, antenna)]


def curve(pattern, ring, front):
    """The points of a pattern: azimuths from -180 to 180, or elevations."""
    if not ring:
        return [(place + 1, level) for place, level in enumerate(pattern)]
    ends = (-90, 90) if front else (-180, 180)
    return [(azimuth, pattern[azimuth % 360]) for azimuth in range(ends[0], ends[1] + 1)]


def drawing(hf, case, built):
    """The plate, NEC fed as the plate has it, and NEC as built where there is that."""
    antenna = store.antenna(hf, case)
    whole = compare.pairs(dataclasses.replace(case, front=False), antenna, store.read(case), False)
    names, panels = [("plate", "solid"), ("NEC-2, " + case.says, "dashed")], ([], [])
    for panel, one in zip(panels, whole):
        panel.append((curve(one.ours, one.ring, False), "solid"))
        panel.append((curve(one.theirs, one.ring, case.front), "dashed"))
    for other in built:
        names.append(("NEC-2, " + other.says, "dotted"))
        for panel, one in zip(panels, compare.pairs(other, antenna, store.read(other), False)):
            panel.append((curve(one.theirs, one.ring, False), "dotted"))
    captions = "dB below the peak, by azimuth, at elevation %g" % antenna.elevation, "by elevation, at azimuth %d" % case.azimuth
    return picture.picture("The %s beside NEC-2" % case.name, *panels, names, captions)


def pictures(hf):
    """(path, text) of each picture."""
    found = []
    for case in cases.HELD:
        built = [other for other in cases.BUILT if other.station == case.station]
        found.append((os.path.join(PICTURES, case.name + ".svg"), drawing(hf, case, built)))
    return found


def text_of(path):
    try:
        with open(path) as file:
            return file.read()
    except FileNotFoundError:
        return ""


def tests(hf):
    """The document has the tables' lines, and the pictures are those of today's numbers."""
    document = text_of(DOCUMENT)
    results = [(line in document, "docs/SECOND_OPINION.md has the line of %s" % line.split()[1]) for line in lines(hf)]
    return results + [(text_of(path) == text, os.path.relpath(path, store.ROOT)) for path, text in pictures(hf)]
