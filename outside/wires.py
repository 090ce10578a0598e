"""Wire models of the antennas, each made from its own station's slots (docs/STATION.md). Where a model is "fed as the plate has
it", the currents are the plate's, forced by a source in each dipole; where it is "as built", it has the feed that is hung in a
field."""
import cmath
import math

import formulas
import nec

RADIUS = 0.002  # wires of 4 mm
SLIMNESS = 500  # a log-periodic's elements: how many times as long as thick, the source's number
SHORT = 0.97    # a dipole's length as a share of the room that the plate gives it: the tips of neighbours mustn't touch
OHMS = 800      # at a rhombus's far end
GAP = 0.3       # from a corner to where its wires begin
HALF_SPACE = 10 * math.log10(2)


class Model:
    """A deck, and what drives it: volts, or ports with the currents that they are to cause."""

    def __init__(self, parm, ground=()):
        self.deck = nec.Deck(parm[4], (parm[2], parm[3]) if ground == () else ground)
        self.volts, self.ports = {}, []
        self.mirrored = False  # the screen is stood in for by images, so half of the power is theirs
        self.plate = {}  # the plate's currents, {wire: [of each segment]}, where they are known

    def port(self, drives, wanted, half):
        """Drives the wires' middles {place: share} alike, so that the first has the wanted current there. The plate's current
        falls as a sine from there to the ends of a dipole of this half length."""
        self.ports.append((drives, wanted))
        wave = 2 * math.pi / self.deck.wavelength
        for (tag, _), share in drives.items():
            segments, start, end, _ = self.deck.wires[tag - 1]
            away = [abs((k + 0.5) / segments - 0.5) * math.dist(start, end) for k in range(segments)]
            self.plate[tag] = [wanted * share * math.sin(wave * (half - s)) / math.sin(wave * half) for s in away]

    def settle(self):
        """Finds the ports' volts: the current that each causes alone, then a system of equations."""
        if self.volts:
            return
        cards = self.deck.head("each port alone")
        for drives, _ in self.ports:
            cards += nec.driven(drives) + ["XQ"]
        runs = nec.currents(nec.run(cards))
        firsts = [next(iter(drives)) for drives, _ in self.ports]
        found = nec.solved([[run[first] for run in runs] for first in firsts], [wanted for _, wanted in self.ports])
        for (drives, _), v in zip(self.ports, found):
            self.volts.update({place: share * v for place, share in drives.items()})

    def currents(self):
        """NEC's currents, {wire: [of each segment]}."""
        self.settle()
        found = nec.currents(nec.run(self.deck.head("currents") + nec.driven(self.volts) + ["XQ"]))[0]
        return {tag: [found[tag, k + 1] for k in range(wire[0])] for tag, wire in enumerate(self.deck.wires, 1)}

    def cards(self, title, elevation, azimuth):
        self.settle()
        return self.deck.head(title) + nec.driven(self.volts) + nec.asked(elevation, azimuth)

    def gains(self, title, elevation, azimuth):
        """The row, the cut (elevations 1 to 90) and the dome, in dBi."""
        row, cut, dome = nec.patterns(nec.run(self.cards(title, elevation, azimuth)))
        more = HALF_SPACE if self.mirrored else 0
        return [[gain + more for gain in pattern] for pattern in (row, cut[::-1], dome)]

    def dipole(self, x, y, z, length):
        """A dipole across the beam; its middle."""
        return self.deck.middle(self.deck.wire((x, y - length / 2, z), (x, y + length / 2, z), RADIUS))


def array(parm):
    """The dipoles of types 1 to 3: place across the beam, height and current, and half a wave at the design frequency. Type 3 has
    the two halves of each pair as dipoles of their own."""
    half = nec.LIGHT / parm[7] / 2
    group = 2 if parm[1] == 3 else 1
    count, rows = group * int(parm[5] / group), int(parm[6] + 0.5)
    step = -math.pi * parm[4] / parm[7] * math.sin(math.radians(int(parm[9]))) * group
    dipoles = []
    for j in range(rows):
        for i in range(count):
            dipoles.append(((i - (count - 1) / 2) * half, 2 * half * parm[8] + j * half, cmath.rect(1, step * (i // group))))
    return half, dipoles


def before_mirror(parm):
    """Type 1, fed as the plate has it, before an endless screen that lets nothing by: images, fed in opposition."""
    model = Model(parm)
    model.mirrored = True
    half, dipoles = array(parm)
    for y, z, current in dipoles:
        here, image = (model.dipole(x, y, z, half * SHORT) for x in (0, -4 * half * parm[10]))
        model.port({here: 1, image: -1}, current, half / 2)
    return model


def hang_screen(model, x, y, z, over, waves=1 / 16):
    """A screen of wires across y[0]..y[1] and z[0]..z[1] and `over` more on each side. Its wires are so thick (spacing / 2π) that
    it acts as a sheet: a real one's are thin and a few centimetres apart, too many for NEC."""
    low, high, left, right = z[0] - over, z[1] + over, y[0] - over, y[1] + over
    steps = round((high - low) / (waves * model.deck.wavelength))
    for k in range(steps + 1):
        height = low + (high - low) * k / steps
        segments = round((right - left) / model.deck.wavelength * 10)
        model.deck.wire((x, left, height), (x, right, height), (high - low) / steps / (2 * math.pi), segments)


def before_screen(parm):
    """Type 1, fed as the plate has it, before a screen that ends a quarter of a wave beyond the dipoles."""
    model = Model(parm)
    half, dipoles = array(parm)
    for y, z, current in dipoles:
        model.port({model.dipole(0, y, z, half * SHORT): 1}, current, half / 2)
    ys, zs = [y for y, _, _ in dipoles], [z for _, z, _ in dipoles]
    hang_screen(model, -2 * half * parm[10], (min(ys) - half / 2, max(ys) + half / 2), (min(zs), max(zs)), half / 2)
    return model


def before_reflectors(parm):
    """Types 2 and 3, dipoles and reflectors fed as the plate has it."""
    model = Model(parm)
    half, dipoles = array(parm)
    behind = cmath.rect(parm[10], math.pi / 2 * parm[4] / parm[7])
    for y, z, current in dipoles:
        model.port({model.dipole(0, y, z, half * SHORT): 1}, current, half / 2)
        model.port({model.dipole(-half / 2, y, z, half * SHORT): 1}, current * behind, half / 2)
    return model


def before_tuned(parm, reactance):
    """Type 2 as built: the dipoles' currents are the plate's, the reflectors hang free, tuned by a reactance (ohms)."""
    model = Model(parm)
    half, dipoles = array(parm)
    for y, z, current in dipoles:
        model.port({model.dipole(0, y, z, half * SHORT): 1}, current, half / 2)
        model.deck.load(model.dipole(-half / 2, y, z, half * SHORT), complex(0, reactance))
    return model


def end_fed(parm, reactance):
    """Type 3 as built: each pair is one wire fed in its middle, all by the same volts; the reflectors hang free, tuned."""
    model = Model(parm)
    half, dipoles = array(parm)
    for (y, z, current), (other, _, _) in zip(dipoles[::2], dipoles[1::2]):
        model.volts[model.dipole(0, (y + other) / 2, z, 2 * half * SHORT)] = current
        model.deck.load(model.dipole(-half / 2, (y + other) / 2, z, 2 * half * SHORT), complex(0, reactance))
    return model


def tropical(parm):
    """Type 4, fed as the plate has it."""
    model = Model(parm)
    half = nec.LIGHT / parm[7] / 2
    slew = -math.pi * parm[4] / parm[7] * math.sin(math.radians(int(parm[9])))
    for j in range(int(parm[6])):
        for i in range(int(parm[5])):
            middle = model.dipole(j * half, i * half, 2 * half * parm[8], half * SHORT)
            model.port({middle: 1}, cmath.rect(1, slew * i), half / 2)
    return model


def log_periodic(parm, elements):
    """The elements of types 5 and 6 that are in `elements`: the model, and {place in the boom: the element's middle}."""
    model, slope, middles = Model(parm), (parm[10] - parm[9]) / parm[8], {}
    for place, (half, along) in enumerate(formulas.boom(parm)):
        if place in elements:
            x, z = -along * math.sqrt(1 - slope * slope), parm[9] + along * slope
            ends = [(x, side, z) if parm[1] == 5 else (x, 0, z + side) for side in (-half, half)]
            middles[place] = model.deck.middle(model.deck.wire(*ends, half / SLIMNESS))
    # Over sea, with wires that end a metre above it, nec2c's Sommerfeld tables give a negative power. The sea is nearly a perfect
    # ground, where reflection coefficients do: by them and by a perfect ground the input differs by less than an ohm.
    model.deck.sommerfeld = parm[1] == 5
    return model, middles


def active_elements(parm):
    """Types 5 and 6, the active elements alone, fed as the plate has it."""
    currents, elements = formulas.active(parm), formulas.boom(parm)
    model, middles = log_periodic(parm, currents)
    for place, current in currents.items():
        model.port({middles[place]: 1}, current, elements[place][0])
    return model


def on_feeder(parm):
    """Types 5 and 6 as built: all elements on a feeder that crosses over from each to the next, fed at the shortest."""
    elements = formulas.boom(parm)
    model, middles = log_periodic(parm, range(len(elements)))
    for place in range(1, len(elements)):
        model.deck.crossed_line(middles[place - 1], middles[place], parm[11], elements[place][1] - elements[place - 1][1])
    model.volts[middles[0]] = 1
    return model


def rhombic(parm):
    """Type 7 as built: fed at one end, a resistance at the other."""
    model, angle = Model(parm), math.radians(parm[7])
    length, side, height = parm[5] * math.sin(angle), parm[5] * math.cos(angle), parm[6]
    feed, end = (model.deck.wire((x, -GAP, height), (x, GAP, height), RADIUS, 1) for x in (0, 2 * length))
    for hand in (-1, 1):
        corner = (length, hand * side, height)
        near = model.deck.wire((0, hand * GAP, height), corner, RADIUS)
        far = model.deck.wire(corner, (2 * length, hand * GAP, height), RADIUS)
        for tag, before in ((near, 0), (far, parm[5])):
            segments = model.deck.wires[tag - 1][0]
            way = [before + (k + 0.5) / segments * parm[5] for k in range(segments)]
            model.plate[tag] = [cmath.rect(hand, -2 * math.pi / model.deck.wavelength * s) for s in way]
    model.deck.load((end, 1), OHMS)
    model.volts[feed, 1] = 1
    return model


def diagonal(angle, distance, height):
    """The point at this azimuth and distance from the mast."""
    return distance * math.cos(math.radians(angle)), distance * math.sin(math.radians(angle)), height


def quadrant(parm):
    """Type 8, two dipoles that meet in a corner, each fed in its middle as the plate has it."""
    model, half = Model(parm), nec.LIGHT / parm[5] / 2
    height = 2 * half * parm[6]
    ends = [[diagonal(angle, half / 2 * (1 + side * SHORT), height) for side in (-1, 1)] for angle in (45, -45)]
    for start, end in (reversed(ends[0]), ends[1]):
        model.port({model.deck.middle(model.deck.wire(start, end, RADIUS)): 1}, 1, half / 2)
    return model


def corner_fed(parm):
    """Type 8 as built: fed in the corner."""
    model, half = Model(parm), nec.LIGHT / parm[5] / 2
    height = 2 * half * parm[6]
    near, far = [[diagonal(angle, distance, height) for angle in (45, -45)] for distance in (GAP, half * SHORT)]
    model.deck.wire(far[0], near[0], RADIUS)
    model.deck.wire(near[1], far[1], RADIUS)
    model.volts[model.deck.wire(*near, RADIUS, 1), 1] = 1
    return model


def crossed(parm, second=1):
    """Type 9, one dipole 10 cm above the other, fed as one as the plate has it, or the second with another current."""
    model, half = Model(parm), nec.LIGHT / parm[5] / 2
    for angle, shift, current in ((-135, 0.05, 1), (-45, -0.05, second)):
        height = 2 * half * parm[6] + shift
        ends = diagonal(angle + 180, half / 2 * SHORT, height), diagonal(angle, half / 2 * SHORT, height)
        model.port({model.deck.middle(model.deck.wire(*ends, RADIUS)): 1}, current, half / 2)
    return model


def bays(parm):
    """A curtain's dipoles: place across the beam and height, in metres; the length of each, and the screen's distance. All stacks
    are fed alike and unslewed: the excitations "+" of docs/STATION.md."""
    wave = nec.LIGHT / parm[7]
    length, low, across, up, screen = (-x * wave if x < 0 else x for x in parm[8:13])
    return [(i * across, low + j * up) for j in range(round(parm[6])) for i in range(abs(round(parm[5])))], length, screen


def curtain(parm):
    """The curtain as the plate has it: equal currents, a perfect ground, an endless screen by images."""
    model = Model(parm, ground=None)
    model.mirrored = True
    dipoles, length, screen = bays(parm)
    for y, z in dipoles:
        here, image = (model.dipole(x, y, z, length * SHORT) for x in (0, -2 * screen))
        model.port({here: 1, image: -1}, 1, length / 2)
    return model


def curtain_built(parm):
    """The curtain as built: equal volts, a ground of 10 and 0.01 S/m, a screen a quarter of a wave wider than the dipoles."""
    model = Model(parm, ground=(10, 0.01))
    dipoles, length, screen = bays(parm)
    for y, z in dipoles:
        model.volts[model.dipole(0, y, z, length * SHORT)] = 1
    ys, zs = [y for y, _ in dipoles], [z for _, z in dipoles]
    hang_screen(model, -screen, (min(ys) - length / 2, max(ys) + length / 2), (min(zs), max(zs)), nec.LIGHT / parm[7] / 4)
    return model


def tuned(model, reactances):
    """The model with that reactance of these which puts the peak furthest above the gains at 90 to 270, at elevation 10."""
    def best(parm):
        def behind(reactance):
            row = model(parm, reactance).gains("tuning", 10, 0)[0]
            return max(row[90:271]) - max(row)

        return model(parm, min(reactances, key=behind))

    return best


def quadrature(parm):
    """Type 9 as it is fed for all directions alike."""
    return crossed(parm, 1j)
