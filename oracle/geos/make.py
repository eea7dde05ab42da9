#!/usr/bin/env python3
"""Writes polygons.txt anew: polygons as GEOS writes them, in both byte orders. Needs libgeos (Debian: libgeos-c1v5).

    python3 oracle/geos/make.py >oracle/geos/polygons.txt
"""
import ctypes

g = ctypes.CDLL("libgeos_c.so.1")
P, S = ctypes.c_void_p, ctypes.c_char_p
for name, result, given in [
    ("GEOS_init_r", P, []), ("GEOSversion", S, []),
    ("GEOSWKTReader_create_r", P, [P]), ("GEOSWKTReader_read_r", P, [P, P, S]),
    ("GEOSBuffer_r", P, [P, P, ctypes.c_double, ctypes.c_int]), ("GEOSDifference_r", P, [P, P, P]),
    ("GEOSWKTWriter_create_r", P, [P]), ("GEOSWKTWriter_setTrim_r", None, [P, P, ctypes.c_char]),
    ("GEOSWKTWriter_setRoundingPrecision_r", None, [P, P, ctypes.c_int]), ("GEOSWKTWriter_write_r", P, [P, P, P]),
    ("GEOSWKBWriter_create_r", P, [P]), ("GEOSWKBWriter_setByteOrder_r", None, [P, P, ctypes.c_int]),
    ("GEOSWKBWriter_writeHEX_r", P, [P, P, P, ctypes.POINTER(ctypes.c_size_t)]),
]:
    f = getattr(g, name)
    f.restype, f.argtypes = result, given
h = g.GEOS_init_r()
reader, text, binary = g.GEOSWKTReader_create_r(h), g.GEOSWKTWriter_create_r(h), g.GEOSWKBWriter_create_r(h)
g.GEOSWKTWriter_setTrim_r(h, text, b"\x01")
g.GEOSWKTWriter_setRoundingPrecision_r(h, text, 17)


def read(wkt):
    return g.GEOSWKTReader_read_r(h, reader, wkt.encode())


def wkt(geometry):
    return ctypes.string_at(g.GEOSWKTWriter_write_r(h, text, geometry)).decode()


def hexadecimal(geometry, order):
    g.GEOSWKBWriter_setByteOrder_r(h, binary, order)
    n = ctypes.c_size_t()
    return ctypes.string_at(g.GEOSWKBWriter_writeHEX_r(h, binary, geometry, ctypes.byref(n)), n.value).decode()


square = read("POLYGON((0 0,10 0,10 10,0 10,0 0))")
disc = g.GEOSBuffer_r(h, read("POINT(1234.5 -77.25)"), 40.0, 16)
SHAPES = [
    ("S", square),
    ("H", read("POLYGON((0 0,10 0,10 10,0 10,0 0),(2 2,8 2,8 8,2 8,2 2))")),
    ("two holes", read("POLYGON((-50 -50,50 -50,50 50,-50 50,-50 -50),(-40 -40,-40 -20,-20 -20,-20 -40,-40 -40),(20 20,20 40.5,40.5 40.5,40.5 20,20 20))")),
    ("halves", read("POLYGON((0.5 0.5,2.5 0.5,2.5 -2.5,-0.5 -1.5,0.5 0.5))")),
    ("tenths", read("POLYGON((0.1 0.2,1234567.8 0.3,99.9 1e5,0.1 0.2))")),
    ("disc", disc),
    ("ring", g.GEOSDifference_r(h, disc, g.GEOSBuffer_r(h, read("POINT(1234.5 -77.25)"), 25.5, 16))),
    ("plate with a bite", g.GEOSDifference_r(h, read("POLYGON((1200 -100,1300 -100,1300 0,1200 0,1200 -100))"), g.GEOSBuffer_r(h, read("POINT(1290 -50)"), 7.0, 8))),
]
print("# Polygons as GEOS", g.GEOSversion().decode(), "writes them: name | well-known text | well-known binary in hexadecimal.")
print("# Made by: python3 oracle/geos/make.py >oracle/geos/polygons.txt")
for name, geometry in SHAPES:
    for order, word in ((1, "little endian"), (0, "big endian")):
        print(f"{name}, {word} | {wkt(geometry)} | {hexadecimal(geometry, order)}")
