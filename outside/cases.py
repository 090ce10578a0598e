"""The stations that NEC-2 is asked about, and the wire models."""
import dataclasses

import formulas
import wires

# A curtain has no plate: this one is that of examples/library/curtain.c and examples/curtain.card.
CURTAIN = [0, 0, 0, 0, 9.6, 4, 4, 9.5, -0.5, -0.5, -0.5, -0.5, -0.25, 4, 0]
CURTAIN_ELEVATION = 9


@dataclasses.dataclass(frozen=True)
class Case:
    """A station, a wire model of it, and what to know when the two are compared."""

    name: str
    says: str  # the model in a few words
    model: object
    height: tuple = ()  # the slots that say how high the antenna hangs
    azimuth: int = 0  # of the cut through the elevations
    front: bool = False  # NEC's screen is endless, so nothing is said of what lies behind it
    waves: bool = False  # a wave travels along the wires: no dipoles
    departure: object = None  # the level as the source has it, or as the field of its currents is, where the two differ

    @property
    def station(self):
        """The station's name, without the model's."""
        return self.name[:6] if self.name.startswith("type") else "curtain"

    @property
    def held(self):
        """Whether the plate is held to it: a case of HELD has no name but its station's."""
        return self.name == self.station


# Fed as the plate has it (type 7 as built: nothing else can be forced on it). The plate is held to these.
HELD = [
    Case("type-1", "dipoles before an endless screen", wires.before_mirror, (8,), front=True, departure=formulas.slewed),
    Case("type-2", "dipoles and fed reflectors", wires.before_reflectors, (8,), azimuth=13, departure=formulas.slewed),
    Case("type-3", "dipoles and fed reflectors", wires.before_reflectors, (8,), departure=formulas.slewed),
    Case("type-4", "dipoles", wires.tropical, (8,), departure=formulas.slewed),
    Case("type-5", "the active elements", wires.active_elements, (9, 10), departure=formulas.horizontal),
    Case("type-6", "the active elements", wires.active_elements, (9, 10), departure=formulas.vertical),
    Case("type-7", "the rhombus and 800 ohms at its end", wires.rhombic, (6,), waves=True),
    Case("type-8", "two dipoles that meet in a corner", wires.quadrant, (6,), departure=formulas.right_angled),
    Case("type-9", "two dipoles that cross, fed as one", wires.crossed, (6,), departure=formulas.right_angled),
    Case("curtain", "dipoles before an endless screen, perfect ground", wires.curtain, (9,), front=True),
]

# As built. The plate isn't held to these: they show what it leaves out.
BUILT = [
    Case("type-1-screen", "a screen that ends a quarter of a wave beyond the dipoles", wires.before_screen),
    Case("type-2-tuned", "reflectors that hang free, tuned", wires.tuned(wires.before_tuned, range(-120, 1, 10)), azimuth=13),
    Case("type-3-ends", "pairs fed alike at the ends, tuned reflectors", wires.tuned(wires.end_fed, range(-10000, -2000, 1000))),
    Case("type-5-feeder", "all elements on their feeder", wires.on_feeder),
    Case("type-6-feeder", "all elements on their feeder", wires.on_feeder),
    Case("type-8-corner", "fed in the corner", wires.corner_fed),
    Case("type-9-quadrature", "fed a quarter of a period apart", wires.quadrature),
    Case("curtain-built", "equal volts, a screen that ends, ground 10 and 0.01 S/m", wires.curtain_built),
]

# Further stations, each one of HELD with other slots and perhaps another elevation: the tolerance wasn't thought out on these.
FURTHER = [
    ("type-1", {4: 9}, None),
    ("type-1", {4: 12, 8: 0.75}, None),
    ("type-1", {9: 20}, None),
    ("type-2", {4: 11, 9: -10}, None),
    ("type-2", {5: 2, 6: 2, 9: 0, 10: 0.9}, None),
    ("type-3", {4: 10.4}, None),
    ("type-3", {6: 4, 8: 1}, None),
    ("type-3", {9: 10}, None),
    ("type-3", {6: 4, 9: -15}, None),
    ("type-4", {4: 5.5, 5: 4, 6: 1}, 45),
    ("type-4", {5: 4, 6: 2, 9: 20}, 45),
    ("type-4", {5: 2, 6: 4, 9: -15}, 30),
    ("type-5", {4: 20}, None),
    ("type-5", {4: 8}, 60),
    ("type-6", {4: 18}, None),
    ("type-6", {2: 10, 3: 0.01}, 30),
    ("type-7", {4: 10}, None),
    ("type-7", {4: 20, 6: 15}, None),
    ("type-8", {6: 0.25}, 50),
    ("type-8", {2: 4, 3: 0.001, 4: 6.2}, 20),
    ("type-9", {6: 0.5}, 30),
    ("type-9", {2: 80, 3: 5}, 40),
    ("curtain", {4: 7.5}, None),
    ("curtain", {4: 9.5, 5: 2, 6: 2, 9: -1}, None),
]
