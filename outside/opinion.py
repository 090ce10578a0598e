#!/usr/bin/env python3
"""A second opinion on the plates: NEC-2 beside them. From the repository's root, LIBRARY being PREFIX/lib/libservice.so after
./install PREFIX:

    python3 outside/opinion.py check LIBRARY              our numbers against NEC's stored ones; at last 'N passed, M failed'
    python3 outside/opinion.py table LIBRARY              prints the tables of docs/SECOND_OPINION.md
    python3 outside/opinion.py draw LIBRARY               writes the pictures of docs/second-opinion

and with nec2c (on Debian: apt-get install nec2c):

    python3 outside/opinion.py run LIBRARY [CASE..]       runs NEC-2 and writes its tables, outside/tables
    python3 outside/opinion.py further LIBRARY            runs NEC-2 for the further stations of outside/cases.py
    python3 outside/opinion.py ask LIBRARY CASE FILE      compares a station file of your own with NEC-2, by this case's wires
    python3 outside/opinion.py deck LIBRARY CASE [FILE]   prints the deck, for any NEC program
    python3 outside/opinion.py amperes LIBRARY CASE       prints the wires' currents"""
import dataclasses
import os
import sys

sys.dont_write_bytecode = True
import cases
import compare
import currents
import pages
import plates
import store


def named(names):
    """The cases of these names."""
    known = {case.name: case for case in cases.HELD + cases.BUILT}
    for name in names:
        if name not in known:
            raise SystemExit("there is no case %s, but %s" % (name, ", ".join(known)))
    return [known[name] for name in names]


def one(words, least):
    """The case that the first of the words names; there must be so many at least."""
    if len(words) < least:
        raise SystemExit(__doc__)
    return named(words[:1])[0]


def answers(case, antenna):
    """NEC-2's, by a run: the patterns, and how far its currents depart from the plate's if it is fed so."""
    model = case.model(antenna.parm)
    gains = model.gains(case.name, antenna.elevation, case.azimuth)
    return gains, currents.departures(model, not case.waves) if case.held else None


def run(hf, names):
    """Runs NEC-2 for these cases, or for all."""
    for case in named(names) or cases.HELD + cases.BUILT:
        antenna = store.antenna(hf, case)
        store.write(case, antenna.elevation, *answers(case, antenna))
        print(case.name, flush=True)


def further(hf, _):
    """Runs NEC-2 for the further stations, each in a cut through its own beam, and says which are within their tolerances."""
    outside = 0
    for name, slots, elevation in cases.FURTHER:
        (case,) = named([name])
        own = store.antenna(hf, case)
        antenna = own.changed([slots.get(slot, x) for slot, x in enumerate(own.parm)], elevation)
        row = [antenna.gain(antenna.elevation, azimuth) for azimuth in range(360)]
        aimed = dataclasses.replace(case, azimuth=row.index(max(row)))
        pairs = compare.pairs(aimed, antenna, answers(aimed, antenna))
        outside += not all(one.holds for one in pairs)
        print(name, slots, "; ".join("%s %.3f of %.3f" % (one.kind, *one.worst) for one in pairs), flush=True)
    print("%d stations, %d outside" % (len(cases.FURTHER), outside))


def ask(hf, words):
    """Runs NEC-2 with a case's wires for another station of its type, and prints what the tables have."""
    case, antenna = one(words, 2), store.mast(hf, words[1])
    if "type-%d" % round(antenna.parm[1]) != case.station:
        raise SystemExit("%s is a station of type %g" % (words[1], antenna.parm[1]))
    found = answers(case, antenna)
    print("main lobe (dB), row and cut: %s" % "; ".join(pages.lobes(case, antenna, found)))
    if case.held:
        print("fields, row, cut and dome: %s" % "; ".join(pages.fields(case, antenna, found)))
    names = ["side lobe", "front-to-back", "first nulls, azimuth", "first null, elevation", "greatest gain"]
    for name, column in zip(names, pages.numbers(case, antenna, found)):
        print("%s, plate / NEC: %s" % (name, column))


def deck(hf, words):
    """The cards of a case, or of another station with its wires."""
    case = one(words, 1)
    antenna = store.mast(hf, words[1]) if words[1:] else store.antenna(hf, case)
    title = "%s: %s" % (case.name, case.says)
    print("\n".join(case.model(antenna.parm).cards(title, antenna.elevation, case.azimuth) + ["EN"]))


def amperes(hf, words):
    """Each wire's middle, and the size of its current a quarter, half and three quarters along it, as a share of the greatest:
    NEC's, then the plate's where it has one."""
    case = one(words, 1)
    model = case.model(store.antenna(hf, case).parm)
    sizes = [{tag: [abs(x) for x in wire] for tag, wire in found.items()} for found in (model.currents(), model.plate)]
    for tag, (segments, start, end, _) in enumerate(model.deck.wires, 1):
        middle = " ".join("%7.2f" % ((a + b) / 2) for a, b in zip(start, end))
        both = [(found[tag], max(map(max, found.values()))) for found in sizes if tag in found]
        shares = ["%.2f" % (wire[segments * k // 4] / most) for wire, most in both for k in (1, 2, 3)]
        print("%4d %s  %s" % (tag, middle, " ".join(shares)))


def check(hf, _):
    """Each test on a line, and the counts on the last."""
    results = compare.tests(hf) + pages.tests(hf)
    for passed, says in results:
        print("%s %s" % ("ok  " if passed else "FAIL", says))
    failed = sum(not passed for passed, _ in results)
    print("%d passed, %d failed" % (len(results) - failed, failed))
    return failed == 0


def table(hf, _):
    print("\n".join(pages.lines(hf)))


def draw(hf, _):
    for path, text in pages.pictures(hf):
        os.makedirs(os.path.dirname(path), exist_ok=True)
        with open(path, "w") as file:
            file.write(text)


COMMANDS = {function.__name__: function for function in (run, further, ask, deck, amperes, check, table, draw)}


def main(words):
    if len(words) < 2 or words[0] not in COMMANDS or not os.path.exists(words[1]):
        print(__doc__, file=sys.stderr)
        return 2
    return 1 if COMMANDS[words[0]](plates.library(words[1]), words[2:]) is False else 0


if __name__ == "__main__":
    sys.exit(main(sys.argv[1:]))
