"""Parts of the source's formulas, written again in plain terms: the currents that it gives a log-periodic's elements, and the
four places where its field isn't that of its currents (a slew; type 5; type 6; types 8 and 9). Angles are in degrees, slots by
docs/STATION.md."""
import cmath
import math

SOURCE_LIGHT = 299.8  # the source's speed of light, metres × MHz


def reflection(elevation, dielectric, conductivity, mhz):
    """The ground's reflection coefficients, of the vertical and of the horizontal field."""
    sine, cosine = math.sin(math.radians(elevation)), math.cos(math.radians(elevation))
    square = complex(dielectric, -18000 * conductivity / mhz)
    root = cmath.sqrt(square - cosine * cosine)
    return (square * sine - root) / (square * sine + root), (sine - root) / (sine + root)


def decibels(field):
    return 20 * math.log10(max(abs(field), 1e-9))


def boom(parm):
    """The elements of types 5 and 6, the shortest first: half of the length, and how far behind the shortest, along the boom."""
    count, shortest, longest = int(parm[5]), parm[6] / 2, parm[7] / 2
    step = (longest / shortest) ** (1 / (count - 1))
    halves = [shortest * step**i for i in range(count)]
    return [(half, parm[8] * (half - shortest) / (longest - shortest)) for half in halves]


def through(points, x):
    """The parabola through three points, at x."""
    (x1, y1), (x2, y2), (x3, y3) = points
    slope, other = (y2 - y1) / (x2 - x1), (y3 - y2) / (x3 - x2)
    return y1 + slope * (x - x1) + (other - slope) / (x3 - x1) * (x - x1) * (x - x2)


def active(parm):
    """{place in `boom`: current at the element's centre} of the elements that the source takes as active: `logparm` and `curcal`.
    An element with less than 0.316 of the greatest current counts as none."""
    halves = [half for half, _ in boom(parm)]
    ratio = halves[0] / halves[1]
    sigma = (1 - ratio) * parm[8] / (4 * (halves[-1] - halves[0]))
    z = parm[11] / 1000
    shape = 1.098790227 - 1.055146365 * z + 3.208544524 * z**2 - 5.766460847 * z**3 + 4.054233788 * z**4
    centre = SOURCE_LIGHT / parm[4] * shape / 4
    low, high = centre / (1.1 + 30.7 * sigma * (1 - ratio)), 1.1 * centre
    top = low + 0.7166 * (centre - low)
    part, rest, beyond = (top - low) / 4, (centre - top) / 2, (high - centre) / 2
    curves = [
        (low + 2 * part, [(low, 0.316), (low + part, 0.676), (low + 2 * part, 0.876)]),
        (low + 3 * part, [(low + 2 * part, 0.876), (low + 3 * part, 0.976), (top, 1)]),
        (top, [(low + 3 * part, 0.976), (top, 1), (top + part, 0.976)]),
        (centre, [(top, 1), (top + rest, 0.922), (centre, 0.707)]),
        (high, [(centre, 0.707), (centre + beyond, 0.501), (high, 0.316)]),
    ]
    found = {}
    for place, half in enumerate(halves):
        if low <= half <= high:
            size = next(through(points, half) for end, points in curves if half <= end)
            degrees = (half - top) * (150 / (top - low) if half <= top else 142 / (high - top))
            found[place] = cmath.rect(size, math.radians(degrees))
    return found


def slewed(parm, elevation, azimuth, as_source):
    """The part of types 1 to 4's level that a slew turns: the dipoles of a row, side by side. The source's phases between them
    shrink with the cosine of the elevation, which keeps the beam on one azimuth; a feeder's stay."""
    cosine, slew = math.cos(math.radians(elevation)), math.sin(math.radians(int(parm[9])))
    group = 2 if parm[1] == 3 else 1
    step = group * math.pi * parm[4] / parm[7] * (cosine * math.sin(math.radians(azimuth)) - slew * (cosine if as_source else 1))
    return decibels(sum(cmath.exp(1j * step * i) for i in range(int(parm[5] / group))))


def horizontal(parm, elevation, azimuth, as_source):
    """Type 5's level. In the vertical plane's field the source takes each element's phase with the other sign, but not the
    reflected ray's delay: at the zenith its level then hangs on the azimuth."""
    sine, cosine = math.sin(math.radians(elevation)), math.cos(math.radians(elevation))
    ahead, aside = math.cos(math.radians(azimuth)), math.sin(math.radians(azimuth))
    wave = 2 * math.pi * parm[4] / SOURCE_LIGHT
    slope = (parm[10] - parm[9]) / parm[8]
    rv, rh = reflection(elevation, parm[2], parm[3], parm[4])
    elements, upright, level = boom(parm), 0, 0
    for place, current in active(parm).items():
        half, along = elements[place]
        across = wave * half
        shape = (math.cos(across * cosine * aside) - math.cos(across)) / math.sin(across) / (1 - (cosine * aside) ** 2)
        phase = wave * along * (slope * sine - math.sqrt(1 - slope * slope) * cosine * ahead)
        ray, delay = current * cmath.exp(1j * phase), cmath.exp(-2j * wave * (parm[9] + along * slope) * sine)
        upright += shape * (ray.conjugate() if as_source else ray) * (1 - rv * delay)
        level += shape * ray * (1 + rh * delay)
    return decibels(math.hypot(abs(upright) * sine * aside, abs(level) * ahead))


def vertical(parm, elevation, azimuth, as_source):
    """Type 6's level. The source counts each element's height twice in the direct ray and not at all in the reflected one: in the
    step along the boom, and again in the height's own phase."""
    sine, cosine = math.sin(math.radians(elevation)), math.cos(math.radians(elevation))
    wave = 2 * math.pi * parm[4] / SOURCE_LIGHT
    slope = (parm[10] - parm[9]) / parm[8]
    rv, _ = reflection(elevation, parm[2], parm[3], parm[4])
    elements, field = boom(parm), 0
    for place, current in active(parm).items():
        half, along = elements[place]
        back, height = along * math.sqrt(1 - slope * slope), parm[9] + along * slope
        shape = (math.cos(wave * half * sine) - math.cos(wave * half)) / math.sin(wave * half) / cosine
        phase = -wave * back * cosine * math.cos(math.radians(azimuth)) + (wave * along * slope * sine if as_source else 0)
        rays = cmath.exp(1j * wave * height * sine) + rv * cmath.exp(-1j * wave * height * sine)
        field += current * shape * cmath.exp(1j * phase) * rays
    return decibels(field)


def right_angled(parm, elevation, azimuth, as_source):
    """The level of types 8 and 9. The field in the vertical plane has a horizontal and a vertical part. Far away the direct and
    the reflected ray run side by side, so the two parts have one and the same sum of rays; the source gives the vertical part the
    reflected ray with the other sign."""
    sine, cosine = math.sin(math.radians(elevation)), math.cos(math.radians(elevation))
    ratio = parm[4] / parm[5]
    quarter = math.pi / 2 * ratio
    along, across = (math.cos(math.radians(azimuth + turn)) for turn in (45, -45))
    one, two = ((math.cos(quarter * x * cosine) - math.cos(quarter)) / (1 - (x * cosine) ** 2) for x in (along, across))
    if parm[1] == 8:
        two = two * cmath.exp(1j * quarter * (across - along) * cosine)
    rv, rh = reflection(elevation, parm[2], parm[3], parm[4])
    ray = cmath.exp(2j * math.pi * ratio * parm[6] * sine)
    upright = (along * one - across * two) * sine
    sum_of_rays, other_sign = abs(ray - rv / ray), abs(ray + rv / ray)
    square = (sine * sum_of_rays) ** 2 + (cosine * other_sign) ** 2 if as_source else sum_of_rays**2
    level = abs(across * one + along * two) * abs(ray + rh / ray)
    return decibels(math.sqrt(abs(upright) ** 2 * square + level**2))
