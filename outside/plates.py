"""Our numbers, from the proved library by ctypes: `./install PREFIX` leaves it as PREFIX/lib/libservice.so."""
import ctypes
import struct
from ctypes import c_float, c_size_t, c_uint8, c_uint32, c_uint64

PARM, TABLE, ROW, ANTENNA, FOUND, RECORD, STATION, MAXGAIN_OUT = 20, 11284, 360, 998, 4, 225, 57, 21  # the sizes of hf.h
REFUSED = 3
BYTES, FLOATS, WORDS = ((ctypes.POINTER(kind), c_size_t) for kind in (c_uint8, c_float, c_uint32))


def library(path):
    """The calls used here. The types matter: without them ctypes hands on every number as an int."""
    hf = ctypes.CDLL(path)
    hf.hf_read.argtypes, hf.hf_read.restype = [*BYTES, *WORDS], c_uint32
    hf.hf_maxgain.argtypes, hf.hf_maxgain.restype = [c_uint32, *FLOATS, *WORDS], c_uint32
    hf.hf_setup.argtypes, hf.hf_setup.restype = [*FLOATS, *FLOATS, *WORDS, *WORDS], c_uint32
    hf.hf_gain.argtypes, hf.hf_gain.restype = [*WORDS, *FLOATS, c_float, c_float, c_float], c_uint64
    hf.hf_curtain.argtypes, hf.hf_curtain.restype = [*FLOATS, c_float, c_float, c_float], c_uint64
    hf.hf_curtain_factor.argtypes, hf.hf_curtain_factor.restype = [*FLOATS], c_uint64
    return hf


def lent(kind, items):
    """Items as a pointer and a length."""
    return (kind * len(items))(*items), len(items)


def of_bits(word):
    return struct.unpack("<f", struct.pack("<I", word))[0]


def accepted(number):
    if number:
        raise ValueError("refused %d" % number)


def level(answer):
    """The number of an answer of 64 bits."""
    accepted(answer & 0xFFFFFFFF if answer >> 32 == REFUSED else 0)
    return of_bits(answer & 0xFFFFFFFF)


class Mast:
    """An antenna of types 1 to 9, set up once: `parm` as set-up is given it, `maximum` its greatest gain (dBi), `elevation` that
    of its plate, `limit` the lowest number of its pattern."""

    def __init__(self, hf, parm, maximum, elevation):
        self.hf, self.parm, self.maximum, self.elevation = hf, parm, maximum, elevation
        self.limit = maximum - 30
        self.table, self.antenna, found = (c_float * TABLE)(), (c_uint32 * ANTENNA)(), (c_uint32 * FOUND)()
        accepted(hf.hf_setup(*lent(c_float, parm), self.table, TABLE, self.antenna, ANTENNA, found, FOUND))

    def gain(self, elevation, azimuth):
        return level(self.hf.hf_gain(self.antenna, ANTENNA, self.table, TABLE, elevation, azimuth, self.maximum))

    def changed(self, parm, elevation=None):
        return Mast(self.hf, parm, self.maximum, elevation or self.elevation)


def mast_of(hf, station):
    """The antenna of a station file's 237 bytes."""
    words, out = (c_uint32 * STATION)(), (c_uint32 * MAXGAIN_OUT)()
    accepted(hf.hf_read(*lent(c_uint8, station[:RECORD]), words, STATION))
    mhz, design, elevation = struct.unpack(">3f", station[RECORD:])
    floats = [of_bits(word) for word in words[1:]] + [mhz, design]
    accepted(hf.hf_maxgain(words[0], *lent(c_float, floats), out, MAXGAIN_OUT))
    maximum, *parm = (of_bits(word) for word in out)
    return Mast(hf, parm, maximum, elevation)


class Curtain:
    """A curtain, its factor found once. Its numbers have no limit; 40 dB below its peak is enough here."""

    def __init__(self, hf, parm, elevation):
        self.hf, self.parm, self.elevation = hf, parm + [0] * (PARM - len(parm)), elevation
        self.factor = level(hf.hf_curtain_factor(*lent(c_float, self.parm)))
        self.limit = self.gain(elevation, 0) - 40

    def gain(self, elevation, azimuth):
        return level(self.hf.hf_curtain(*lent(c_float, self.parm), azimuth, elevation, self.factor))

    def changed(self, parm, elevation=None):
        return Curtain(self.hf, parm, elevation or self.elevation)
