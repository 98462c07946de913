"""A picture of at most 2,000 by 2,000 cells as PNG (ISO/IEC 15948), each cell with the worst that lies in it."""
import base64
import struct
import zlib

MOST_CELLS = 2000


class Raster:
    """Cells over a rectangle of the design, with a palette number each; 0 is empty. Higher numbers cover lower ones."""

    def __init__(self, box, cells):
        self.left, self.bottom, right, self.top = box
        self.width, self.height = right - self.left, self.top - self.bottom
        longest = max(self.width, self.height)
        self.columns = max(self.width * cells // longest, 1)
        self.rows = max(self.height * cells // longest, 1)
        self.lines = [bytearray(self.columns) for _ in range(self.rows)]

    def span(self, low, high, origin, length, cells):
        """The cells that a length covers, at least one."""
        first = min((low - origin) * cells // length, cells - 1)
        return first, max(min(-(-(high - origin) * cells // length), cells), first + 1)

    def paint(self, box, number):
        """Paints a rectangle over what is there. Who paints in the order of the numbers leaves the highest in each cell."""
        x1, y1, x2, y2 = box
        first, last = self.span(x1, x2, self.left, self.width, self.columns)
        upper, lower = self.span(self.top - y2, self.top - y1, 0, self.height, self.rows)
        row = bytes([number]) * (last - first)
        for line in self.lines[upper:lower]:
            line[first:last] = row

    def data_link(self, colours):
        """The picture as a link that holds it, with these colours for the numbers from 1."""
        return "data:image/png;base64," + base64.b64encode(self.png(colours)).decode("ascii")

    def png(self, colours):
        """The picture as PNG of 8 bits a cell, with a palette, of which number 0 is clear."""
        palette = bytes(3) + b"".join(bytes.fromhex(colour[1:]) for colour in colours)
        rows = b"".join(b"\0" + line for line in self.lines)
        head = struct.pack(">IIBBBBB", self.columns, self.rows, 8, 3, 0, 0, 0)
        return b"\x89PNG\r\n\x1a\n" + b"".join(
            chunk(kind, data) for kind, data in ((b"IHDR", head), (b"PLTE", palette), (b"tRNS", b"\0"), (b"IDAT", zlib.compress(rows, 6)), (b"IEND", b"")))


def chunk(kind, data):
    """A chunk of a PNG: length, kind, data and checksum."""
    return struct.pack(">I", len(data)) + kind + data + struct.pack(">I", zlib.crc32(kind + data))
