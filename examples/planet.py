#!/usr/bin/env python3
"""Loads MSI Planet pattern text, such as ./planet prints, and says what is in it.
usage: planet.py FILE ..     - is standard input"""
import sys

PARTS = ("HORIZONTAL", "VERTICAL")


def load(lines):
    """The head, each word with what stands behind it, and the losses of each part by angle."""
    head, parts = {}, {}
    lines = iter(lines)
    for line in lines:
        word, rest = line.split(maxsplit=1)
        if word in PARTS:
            pairs = [next(lines).split() for _ in range(int(rest))]
            if [int(angle) for angle, _ in pairs] != list(range(360)):
                raise ValueError(f"{word} hasn't the angles 0 to 359")
            parts[word] = [float(loss) for _, loss in pairs]
        else:
            head[word] = rest.strip()
    return head, parts


def summary(head, parts):
    """Where the pattern is strongest, around and up, how wide its beam is and how much is lost behind."""
    if "refused" in head:
        return f"refused {head['refused']}"
    around, up = (parts[part] for part in PARTS)
    ahead = around.index(0.0)
    wide = sum(loss <= 3.0 for loss in around)
    return (
        f"{head['NAME']}, {head['FREQUENCY']} MHz, {head['GAIN']} at azimuth {ahead}, {wide} azimuths within 3 dB, "
        f"{around[ahead - 180]:.2f} dB less behind, the most at elevation {up.index(0.0)}"
    )


def main(names):
    for name in names:
        with sys.stdin if name == "-" else open(name) as file:
            print(f"{name}: {summary(*load(file))}")


if __name__ == "__main__":
    if len(sys.argv) < 2:
        sys.exit(__doc__)
    main(sys.argv[1:])
