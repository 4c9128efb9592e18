"""The points of a picture, as rows of colours from the north. A PNG is read without a library, other pictures by Pillow."""
import io
import struct
import zlib

MOST_POINTS = 2048 * 2048
CHANNELS = {0: 1, 2: 3, 3: 1, 4: 2, 6: 4}  # by a PNG's type of colour: grey, colours, a palette, grey and colours with opacity
PASSES = [(0, 0, 8, 8), (4, 0, 8, 8), (0, 4, 4, 8), (2, 0, 4, 4), (0, 2, 2, 4), (1, 0, 2, 2), (0, 1, 1, 2)]  # of an interlaced one


class NoPicture(Exception):
    """Why a file gives no points, in words."""


def points_of(data):
    """Rows of colours, each three bytes; what lets light through lies on white."""
    if data.startswith(b"\x89PNG\r\n\x1a\n"):
        try:
            return Png(data).rows()
        except (zlib.error, struct.error, IndexError, KeyError):
            raise NoPicture("the PNG is damaged") from None
    try:
        from PIL import Image
    except ImportError:
        raise NoPicture("it is no PNG, and Pillow, which reads other pictures, is not there") from None
    try:
        with Image.open(io.BytesIO(data)) as it:
            limited(*it.size)
            seen = it.convert("RGBA")
    except (OSError, ValueError) as fault:
        raise NoPicture(str(fault)) from None
    paper = Image.new("RGBA", seen.size, "white")
    flat, width = Image.alpha_composite(paper, seen).convert("RGB").tobytes(), 3 * seen.size[0]
    return [triples(flat[at:at + width]) for at in range(0, len(flat), width)]


def limited(width, height):
    if not 0 < width * height <= MOST_POINTS:
        raise NoPicture(f"it has {width} by {height} points")


def triples(row):
    return [row[at:at + 3] for at in range(0, len(row), 3)]


class Png:
    def __init__(self, data):
        self.palette, self.opacity, packed, at = [], b"", [], 8
        while at + 8 <= len(data):
            size, kind = struct.unpack_from(">I4s", data, at)
            body = data[at + 8:at + 8 + size]
            if kind == b"IHDR":
                self.width, self.height, self.depth, self.kind, _, _, self.is_interlaced = struct.unpack(">IIBBBBB", body)
                limited(self.width, self.height)
            elif kind == b"PLTE":
                self.palette = triples(body)
            elif kind == b"tRNS":
                self.opacity = body
            elif kind == b"IDAT":
                packed.append(body)
            at += 12 + size
        self.channels = CHANNELS[self.kind]
        self.step = max(1, self.channels * self.depth // 8)  # bytes a point, for the filters
        most = (self.height + 7) * 8 * (1 + self.size_of(self.width))
        self.bytes = zlib.decompressobj().decompress(b"".join(packed), most)
        self.at, self.seen = 0, {}

    def size_of(self, width):
        """How many bytes a row has."""
        return (width * self.channels * self.depth + 7) // 8

    def rows(self):
        if not self.is_interlaced:
            return [self.colours(row, self.width) for row in self.plain_rows(self.width, self.height)]
        rows = [[b""] * self.width for _ in range(self.height)]
        for x, y, dx, dy in PASSES:
            width, height = -(-(self.width - x) // dx), -(-(self.height - y) // dy)
            if width > 0 and height > 0:
                for n, row in enumerate(self.plain_rows(width, height)):
                    rows[y + n * dy][x::dx] = self.colours(row, width)
        return rows

    def plain_rows(self, width, height):
        """The next rows of bytes, without their filters."""
        size, above = self.size_of(width), None
        for _ in range(height):
            kind, row = self.bytes[self.at], bytearray(self.bytes[self.at + 1:self.at + 1 + size])
            if len(row) < size:
                raise IndexError
            self.at += 1 + size
            above = unfiltered(kind, row, above or bytes(size), self.step)
            yield above

    def colours(self, row, width):
        """The colours of a row's points."""
        if self.depth == 16:
            row = row[::2]
        elif self.depth < 8:
            most = (1 << self.depth) - 1
            row = [byte >> shift & most for byte in row for shift in range(8 - self.depth, -1, -self.depth)][:width]
            if self.kind == 0:
                row = [it * 255 // most for it in row]
        points = zip(*[iter(row)] * self.channels)
        return [self.seen.get(it) or self.colour(it) for it in points]

    def colour(self, point):
        """The three bytes of a point, which are kept for the next one of its kind."""
        opacity = 255
        if self.kind == 3:
            colour = self.palette[point[0]]
            opacity = self.opacity[point[0]] if point[0] < len(self.opacity) else 255
        else:
            colour = point[:3] if self.kind in (2, 6) else point[:1] * 3
            opacity = point[-1] if self.kind in (4, 6) else 255
        self.seen[point] = bytes(255 - (255 - it) * opacity // 255 for it in colour)
        return self.seen[point]


def unfiltered(kind, row, above, step):
    if kind == 1:
        for n in range(step, len(row)):
            row[n] = row[n] + row[n - step] & 255
    elif kind == 2:
        row[:] = [a + b & 255 for a, b in zip(row, above)]
    elif kind == 3:
        for n in range(len(row)):
            row[n] = row[n] + ((row[n - step] if n >= step else 0) + above[n] >> 1) & 255
    elif kind == 4:
        for n in range(len(row)):
            a, c = (row[n - step], above[n - step]) if n >= step else (0, 0)
            b = above[n]
            far = abs(b - c), abs(a - c), abs(a + b - 2 * c)
            row[n] = row[n] + (a if far[0] <= far[1] and far[0] <= far[2] else b if far[1] <= far[2] else c) & 255
    elif kind:
        raise IndexError
    return row
