"""What is compared of two patterns: lists of levels in dB, by whole degrees. All is relative to each pattern's own peak."""

import math

MAIN = -10.0  # dB: how far down the main lobe goes


def relative(pattern, limit):
    """Below the pattern's own peak, cut at the limit."""
    peak = max(pattern)
    return [max(level - peak, limit) for level in pattern]


def walk(pattern, start, step, ring):
    """The places from start on, one way: round a ring to the far side, or to the end of a list."""
    count = len(pattern)
    if ring:
        return [(start + step * k) % count for k in range(count // 2 + 1)]
    return list(range(start, count if step > 0 else -1, step))


def main_lobe(pattern, ring):
    """The places about the peak that are above MAIN."""
    peak, lobe = pattern.index(max(pattern)), []
    for step in (1, -1):
        for place in walk(pattern, peak, step, ring):
            if pattern[place] < MAIN:
                break
            lobe.append(place)
    return lobe


def first_null(pattern, step, ring):
    """Where the first null lies beside the main lobe, one way, as how far along the walk: the lowest before the level rises by a
    decibel, the middle one of equal ones. None where it doesn't fall below MAIN before that, or doesn't rise."""
    levels = [pattern[place] for place in walk(pattern, pattern.index(max(pattern)), step, ring)]
    lowest = 0.0
    for far, level in enumerate(levels):
        lowest = min(lowest, level)
        if level > lowest + 1:
            lows = [k for k in range(far) if levels[k] == lowest]
            return lows[(len(lows) - 1) // 2] if lowest < MAIN else None
    return None


def null_place(pattern, step, ring):
    """The same as a place: degrees from the pattern's start, below 0 where a ring goes on backwards."""
    far = first_null(pattern, step, ring)
    return None if far is None else pattern.index(max(pattern)) + step * far


def side_lobe(pattern, ring):
    """The strongest level beyond the first nulls, or None."""
    beyond = []
    for step in (1, -1):
        null = first_null(pattern, step, ring)
        places = walk(pattern, pattern.index(max(pattern)), step, ring)
        beyond += [pattern[place] for place in places[null:]] if null else []
    return max(beyond) if beyond else None


def front_to_back(row):
    """The level at 0 less the greatest at 90 to 270."""
    return row[0] - max(row[90:271])


def lobe_difference(ours, theirs, ring):
    """The greatest difference in their main lobe (dB)."""
    return max(abs(ours[place] - theirs[place]) for place in main_lobe(theirs, ring))


def decibels(share):
    return 20 * math.log10(share)


def field(level):
    """As a share of the peak's."""
    return 10 ** (level / 20)


def worst(ours, theirs, allowed):
    """The difference of the fields and what is allowed there, where the one is the greatest part of the other."""
    pairs = [(abs(field(a) - field(b)), most) for a, b, most in zip(ours, theirs, allowed)]
    return max(pairs, key=lambda pair: pair[0] / pair[1])


def null_difference(ours, theirs, ring):
    """How many degrees the first nulls beside the main lobe lie apart at most, 0 where theirs has none; a whole turn where ours
    lacks one."""
    nulls = [(null_place(theirs, step, ring), null_place(ours, step, ring)) for step in (1, -1)]
    return max(0 if there is None else 360 if here is None else abs(here - there) for there, here in nulls)
