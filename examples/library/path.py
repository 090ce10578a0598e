#!/usr/bin/env python3
"""The path of path.c, traced from Python by ctypes: python3 path.py LIBRARY, where ./install PREFIX put PREFIX/lib/libservice.so."""
import ctypes
import math
import struct
import sys
from ctypes import c_float, c_size_t, c_uint32, c_uint64

PARM, TABLE, ROW, ANTENNA, FOUND = 20, 11284, 360, 998, 4  # the sizes of hf.h
LEVEL, FLOOR, SILENCE, REFUSED, REFUSED_AT = range(5)
KINDS = ["level", "floor", "silence"]
FLOATS, WORDS = (ctypes.POINTER(c_float), c_size_t), (ctypes.POINTER(c_uint32), c_size_t)

EARTH, LAYER, DISTANCE, BEARING, POINTING, GISO = 6371, 300, 3200, 50, 60, 21.36


def library(path):
    """The calls used here. The types matter: without them ctypes hands on every number as an int."""
    hf = ctypes.CDLL(path)
    hf.hf_setup.argtypes, hf.hf_setup.restype = [*FLOATS, *FLOATS, *WORDS, *WORDS], c_uint32
    hf.hf_gain.argtypes, hf.hf_gain.restype = [*WORDS, *FLOATS, c_float, c_float, c_float], c_uint64
    hf.hf_plate_row.argtypes, hf.hf_plate_row.restype = [*WORDS, *FLOATS, c_float, c_float, *FLOATS], c_uint64
    hf.hf_why.argtypes, hf.hf_why.restype = [*FLOATS], c_uint64
    return hf


def lent(array):
    """An array as a pointer and a length."""
    return array, len(array)


def of_bits(word):
    return struct.unpack("<f", struct.pack("<I", word))[0]


class Refused(Exception):
    def __init__(self, number):
        super().__init__(f"refused {number}")


class Mast:
    """An antenna, set up once."""

    def __init__(self, hf, parm):
        self.hf, self.table, self.antenna = hf, (c_float * TABLE)(), (c_uint32 * ANTENNA)()
        found = (c_uint32 * FOUND)()
        refused = hf.hf_setup(*lent((c_float * PARM)(*parm)), *lent(self.table), *lent(self.antenna), *lent(found))
        if refused:
            raise Refused(refused)
        self.readings, self.elevation, self.azimuth = found[0], of_bits(found[2]), of_bits(found[3])

    def gain(self, elevation, azimuth):
        answer = self.hf.hf_gain(*lent(self.antenna), *lent(self.table), elevation, azimuth, GISO)
        kind, word = answer >> 32, answer & 0xFFFFFFFF
        return f"refused {word}" if kind == REFUSED else f"{KINDS[kind]} {of_bits(word):.2f} dBi"

    def row(self, elevation):
        row = (c_float * ROW)()
        answer = self.hf.hf_plate_row(*lent(self.antenna), *lent(self.table), elevation, GISO, *lent(row))
        if answer >> 32 == REFUSED:
            raise Refused(answer & 0xFFFFFFFF)
        return list(row), of_bits(answer & 0xFFFFFFFF)


def take_off(hops):
    """The elevation at which a path of so many hops leaves the ground."""
    half = DISTANCE / hops / 2 / EARTH
    return math.degrees(math.atan((math.cos(half) - EARTH / (EARTH + LAYER)) / math.sin(half)))


def main():
    hf = library(sys.argv[1])
    parm = [0, 1, 10, 0.01, 15, 4, 4, 12, 0.5, 0, 0.25, 0.05, 2, 7]
    mast = Mast(hf, parm)
    print(f"peak at elevation {mast.elevation:.0f}, azimuth {mast.azimuth:.0f}, found in {mast.readings} readings")
    azimuth = (BEARING - POINTING) % 360  # the library doesn't take a negative azimuth round
    for hops in range(1, 5):
        print(f"hops {hops}, elevation {take_off(hops):.1f}, azimuth {azimuth}: {mast.gain(take_off(hops), azimuth)}")
    row, front_to_back = mast.row(8)
    best = max(range(ROW), key=lambda v: row[v])
    print(f"plate at elevation 8: {row[best]:.2f} dBi at azimuth {best}, front-to-back {front_to_back:.2f} dB, floors {row.count(-30)}")
    parm[5] = 65
    why = hf.hf_why(*lent((c_float * PARM)(*parm)))
    if why >> 32 == REFUSED_AT:
        print(f"65 dipoles: refused {why >> 16 & 0xFFFF}, slot {why & 0xFFFF}")


main()
