"""How far NEC's currents depart from the plate's, and what that allows the field. The plate takes a sine for the current along a
dipole, and for each dipole the size that the feed is meant to give it; NEC works the currents out."""
import math

# NEC's tables have hundredths of a decibel (0.001 of the field), and the source doctored entries (the cosine of 90 degrees is
# -0.002).
ROUNDING = 0.005


def lengths(model, tag):
    """A wire's direction, and the length of a segment."""
    segments, start, end, _ = model.deck.wires[tag - 1]
    length = math.dist(start, end)
    return [(b - a) / length for a, b in zip(start, end)], length / segments


def departures(model, by_wire):
    """The departure of the wires' totals, and of the shape along each wire, as shares of all current. Not by wire (a wave travels
    along it): of each segment, and none of shape."""
    theirs, groups = model.currents(), []
    for tag, plate in model.plate.items():
        step = lengths(model, tag)[1]
        pairs = [(i * step, p * step) for i, p in zip(theirs[tag], plate)]
        groups += [pairs] if by_wire else [[pair] for pair in pairs]
    totals = [(sum(i for i, _ in pairs), sum(p for _, p in pairs)) for pairs in groups]
    whole = sum(abs(p) for _, p in totals)
    scale = sum(i * p.conjugate() / abs(p) for i, p in totals) / whole
    moments = sum(abs(i / scale - p) for i, p in totals) / whole
    shape = sum(abs(i - p * total / plate) for pairs, (total, plate) in zip(groups, totals) for i, p in pairs)
    return moments, shape / abs(scale) / sum(abs(p) for pairs in groups for _, p in pairs)


def allowance(model, moments, shape):
    """By elevation and azimuth, how far the field may depart, as a share of the peak's: no further than its currents, as if all
    of them added up at the peak (they don't quite, so this is strict). A departure of shape leaves a wire's total alone, so it
    doesn't show broadside to the wire; off that the field of a wire's ends differs in phase from its middle's by k l cos(angle to
    the wire), l half of its length, and so by 2 sin(half of that)."""
    wave, wires = 2 * math.pi / model.deck.wavelength, set()
    for tag, plate in model.plate.items():
        direction, step = lengths(model, tag)
        wires.add((tuple(round(abs(x) if direction.count(0) == 2 else x, 6) for x in direction), round(step * len(plate) / 2, 3)))

    def allowed(elevation, azimuth):
        u, v = math.radians(elevation), math.radians(azimuth)
        ray = math.cos(u) * math.cos(v), math.cos(u) * math.sin(v), math.sin(u)
        phases = [wave * half * abs(sum(a * b for a, b in zip(ray, direction))) for direction, half in wires]
        return moments + shape * 2 * math.sin(min(max(phases), math.pi) / 2) + ROUNDING

    return allowed
