"""Our patterns beside NEC's: what is held, and the tests that hold it."""
import dataclasses

import cases
import currents
import measures
import nec
import store

BEHIND = range(90, 271)
# Degrees. A null is where fields cancel: one that departs by 0.03, where the field rises by 0.03 a degree, moves it by a degree;
# one more goes by looking at whole degrees.
NULLS = 2
HIGHER = 1.2  # a station hung this much higher must be noticed


@dataclasses.dataclass
class Pair:
    """Our pattern and NEC's, each below its own peak and cut at our limit, and how far the fields may differ. A row is a ring;
    the directions of a dome aren't neighbours, so it has no lobes and nulls."""

    kind: str
    ours: list
    theirs: list
    allowed: list

    @property
    def ring(self):
        return self.kind == "row"

    @property
    def lobe(self):
        return measures.lobe_difference(self.ours, self.theirs, self.ring)

    @property
    def worst(self):
        return measures.worst(self.ours, self.theirs, self.allowed)

    @property
    def nulls(self):
        return 0 if self.kind == "dome" else measures.null_difference(self.ours, self.theirs, self.ring)

    @property
    def holds(self):
        difference, most = self.worst
        return difference <= most and self.nulls <= NULLS


def level(case, antenna, elevation, azimuth, mended):
    """Our gain; mended: without the source's departure from the field of its own currents. None where it is at the limit and
    mending would lift it: from where, the plate doesn't say."""
    gain = antenna.gain(elevation, azimuth)
    if not mended or not case.departure:
        return gain
    as_source, as_field = (case.departure(antenna.parm, elevation, azimuth, way) for way in (True, False))
    if gain < antenna.limit + 0.01:
        return None if as_field > as_source else gain
    return gain + (as_field - as_source)


def pairs(case, antenna, answers, mended=True):
    """The row, the cut and the dome. Answers: NEC's patterns and its currents' departures."""
    patterns, departures = answers
    allowed = currents.allowance(case.model(antenna.parm), *departures) if departures else lambda elevation, azimuth: 1
    rows = [(antenna.elevation, azimuth) for azimuth in range(360)]
    cuts = [(elevation, case.azimuth) for elevation in range(1, 91)]
    found = []
    for kind, directions, theirs in zip(("row", "cut", "dome"), (rows, cuts, nec.DOME), patterns):
        known = [level(case, antenna, *direction, mended) for direction in directions]
        ours = [antenna.limit if x is None else x for x in known]
        limit = antenna.limit - max(ours)
        seen = [x is not None and not (case.front and azimuth in BEHIND) for x, (_, azimuth) in zip(known, directions)]
        both = [measures.relative(pattern, limit) for pattern in (ours, theirs)]
        both = [[x if sight else limit for x, sight in zip(pattern, seen)] for pattern in both]
        found.append(Pair(kind, *both, [allowed(*direction) for direction in directions]))
    return found


def higher(case, antenna):
    """The antenna, hung higher."""
    return antenna.changed([x * HIGHER if slot in case.height else x for slot, x in enumerate(antenna.parm)])


def gain_test(case, antenna, answers):
    """The curtain's gain isn't its card's but worked out: it may differ from NEC's by what the currents do."""
    (row, _, _), (moments, shape) = answers
    difference = abs(antenna.gain(antenna.elevation, 0) - max(row))
    most = -measures.decibels(1 - moments - shape)
    return difference <= most, "%s: the gain itself differs by %.2f dB, of %.2f" % (case.name, difference, most)


def tests(hf):
    """(passed, what was tried) of each test."""
    results = []
    for case in cases.HELD:
        antenna, answers = store.antenna(hf, case), store.read(case)
        for one in pairs(case, antenna, answers):
            difference, most = one.worst
            says = "%s, %s: fields differ by %.3f, of %.3f" % (case.name, one.kind, difference, most)
            results.append((difference <= most, says))
            if one.kind != "dome":
                says = "%s, %s: first nulls %d degrees apart, of %d" % (case.name, one.kind, one.nulls, NULLS)
                results.append((one.nulls <= NULLS, says))
        noticed = not all(one.holds for one in pairs(case, higher(case, antenna), answers))
        results.append((noticed, "%s hung a fifth higher is noticed" % case.name))
    return results + [gain_test(case, antenna, answers)]
