"""Pictures as maps: points of PNGs of every type, and the cells that classes can walk on."""
import os
import random
import struct
import tempfile
import unittest
import zlib

from places import tool
import mapscript
import raster

CHANNELS = {0: 1, 2: 3, 3: 1, 4: 2, 6: 4}
PALETTE = [(it * 37 % 256, it * 101 % 256, it * 11 % 256) for it in range(256)]
INK, PAPER, SEA = b"\x10\x08\x18", b"\xf0\xff\xff", b"\x38\x50\xc8"  # near to black, to white and to 3060c0


def filtered(kind, row, above, step):
    """A row by a PNG's filter, as its rule has it."""
    out = bytearray([kind])
    for n, byte in enumerate(row):
        a, b, c = row[n - step] if n >= step else 0, above[n], above[n - step] if n >= step else 0
        p = a + b - c
        paeth = min((abs(p - it), at, it) for at, it in enumerate((a, b, c)))[2]
        out.append(byte - (0, a, b, (a + b) // 2, paeth)[kind] & 255)
    return bytes(out)


def packed(row, depth):
    """The bytes of a row of samples."""
    if depth == 16:
        return b"".join(struct.pack(">H", it) for it in row)
    bits = "".join(f"{it:0{depth}b}" for it in row)
    bits += "0" * (-len(bits) % 8)
    return bytes(int(bits[at:at + 8], 2) for at in range(0, len(bits), 8))


def scans(points, is_interlaced):
    """The rows of points in the order in which a PNG has them, each with whether it is the first of a picture."""
    if not is_interlaced:
        return [(n == 0, row) for n, row in enumerate(points)]
    found = []
    for x, y, dx, dy in [(0, 0, 8, 8), (4, 0, 8, 8), (0, 4, 4, 8), (2, 0, 4, 4), (0, 2, 2, 4), (1, 0, 2, 2), (0, 1, 1, 2)]:
        rows = [row[x::dx] for row in points[y::dy]]
        found += [(n == 0, row) for n, row in enumerate(rows) if row]
    return found


def png(points, kind, depth, is_interlaced=False, draw=random.Random(1)):
    """A PNG of points, each a tuple of samples, with filters by chance."""
    step, body, above = max(1, CHANNELS[kind] * depth // 8), b"", b""
    for is_first, row in scans(points, is_interlaced):
        line = packed([it for point in row for it in point], depth)
        body += filtered(draw.randrange(5), line, bytes(len(line)) if is_first else above, step)
        above = line
    head = struct.pack(">IIBBBBB", len(points[0]), len(points), depth, kind, 0, 0, is_interlaced)
    pieces = [(b"IHDR", head)] + ([(b"PLTE", bytes(it for colour in PALETTE[:1 << depth] for it in colour))] if kind == 3 else [])
    pieces += [(b"IDAT", zlib.compress(body)), (b"IEND", b"")]
    return b"\x89PNG\r\n\x1a\n" + b"".join(struct.pack(">I", len(it)) + name + it + struct.pack(">I", zlib.crc32(name + it)) for name, it in pieces)


def colour_of(point, kind, depth):
    """The colour of a point over white."""
    if kind == 3:
        return bytes(PALETTE[point[0]])
    samples = [it * 255 // ((1 << depth) - 1) if depth < 8 else it >> depth - 8 for it in point]
    opacity = samples.pop() if kind in (4, 6) else 255
    return bytes(255 - (255 - it) * opacity // 255 for it in (samples * 3 if len(samples) == 1 else samples))


class Points(unittest.TestCase):
    def test_every_type_is_read(self):
        draw = random.Random(7)
        for kind, depths in ((0, (1, 2, 4, 8, 16)), (2, (8, 16)), (3, (1, 2, 4, 8)), (4, (8, 16)), (6, (8, 16))):
            for depth in depths:
                for w, h, is_interlaced in ((13, 11, False), (13, 11, True), (1, 1, True), (3, 2, True)):
                    points = [[tuple(draw.randrange(1 << depth) for _ in range(CHANNELS[kind])) for _ in range(w)] for _ in range(h)]
                    wanted = [[colour_of(it, kind, depth) for it in row] for row in points]
                    self.assertEqual(raster.points_of(png(points, kind, depth, is_interlaced)), wanted, (kind, depth, w, is_interlaced))

    def test_damaged_ones_are_refused(self):
        whole = png([[(n * n % 256, n, 3) for n in range(40)]] * 3, 2, 8)
        for data in (whole[:20], whole[:60], whole.replace(b"IDAT", b"ITAD"), whole[:25] + b"\x05" + whole[26:]):
            with self.assertRaisesRegex(raster.NoPicture, "damaged"):
                raster.points_of(data)
        with self.assertRaisesRegex(raster.NoPicture, "it has 4294967295 by 3 points"):
            raster.points_of(whole[:16] + b"\xff" * 4 + whole[20:])


class Maps(unittest.TestCase):
    def setUp(self):
        made = tempfile.TemporaryDirectory()
        self.addCleanup(made.cleanup)
        self.picture = os.path.join(made.name, "island.png")
        # sea in the west, and a wall of one cell in the east
        self.draw([[SEA, SEA, PAPER, PAPER, PAPER, INK, PAPER], [SEA, PAPER, PAPER, PAPER, PAPER, PAPER, PAPER]])

    def draw(self, rows):
        with open(self.picture, "wb") as file:
            file.write(png([[tuple(it) for it in row] for row in rows], 2, 8))

    def cells(self, *words):
        """The rows from the south of each class, `1` where it is blocked, and the script."""
        out, status, told = tool("tools/from_picture.py", *words, self.picture)
        self.assertEqual(status, 0, told)
        script = mapscript.Script(out)
        self.assertEqual(script.bad, 0)
        return [[bin(it | 1 << script.map.w)[:2:-1] for it in rows] for rows in mapscript.base_rows(script.map)], script

    def test_black_and_white_needs_no_word(self):
        rows, script = self.cells("--paths", "3")
        self.assertEqual(rows, [["1000000", "1100010"]])
        self.assertEqual((list(script.map.classes), len(script.turns[0].posts)), (["walker"], 3))

    def test_classes_walk_on_their_colours_and_keep_away_from_others(self):
        rows, script = self.cells("--class", "infantry:0", "--class", "siege:0.5", "--class", "ship:0:3060c0", "--class", "frog:0:#ffffff,#3060c0")
        self.assertEqual(rows, [["1000000", "1100010"], ["1110111", "1110111"], ["0111111", "0011111"], ["0000000", "0000010"]])
        self.assertEqual(list(script.map.classes.values()), [0, 32768, 0, 0])
        names = {it.values[2] for it in script.turns[0].posts}
        self.assertEqual(names, {"infantry", "siege", "ship", "frog"})

    def test_what_is_no_map(self):
        cases = [(["--class", "a:0:red"], "red is no colour"), (["--class", "a:0", "--class", "a:1"], "each with a name of its own")]
        for words, told in cases:
            _, status, said = tool("tools/from_picture.py", *words, self.picture)
            self.assertEqual((status, told in said), (2, True), said)
        for words in (["--class", "a"], ["--class", "a b:1"], ["--class", "a:65"], ["--class", "a:-1"]):
            self.assertIn("is not NAME:CLEARANCE", tool("tools/from_picture.py", *words, self.picture)[2])
        self.draw([[PAPER] * 2049])
        self.assertIn("at most 2048 cells a side, and this one is 2049 by 1", tool("tools/from_picture.py", self.picture)[2])
        with open(self.picture, "wb") as file:
            file.write(b"BM and so on")
        _, status, said = tool("tools/from_picture.py", self.picture)
        self.assertEqual((status, said.count("\n")), (2, 1), said)


if __name__ == "__main__":
    unittest.main()
