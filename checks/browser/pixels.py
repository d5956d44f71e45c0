"""The pixels of an SVG, as `rsvg-convert` of the package librsvg2-bin paints it."""
import colorsys
import re
import shutil
import struct
import subprocess
import zlib

Colour = tuple[int, int, int]


def can_paint() -> bool:
    return shutil.which('rsvg-convert') is not None


def chunks_of(png: bytes) -> dict[bytes, bytes]:
    """The parts of a PNG by their kinds, those of one kind one after another."""
    found: dict[bytes, bytes] = {}
    at = 8
    while at < len(png):
        length, kind = struct.unpack('>I4s', png[at:at + 8])
        found[kind] = found.get(kind, b'') + png[at + 8:at + 8 + length]
        at += 12 + length
    return found


def nearest(left: int, above: int, corner: int) -> int:
    """Which of three neighbours is nearest to what they foretell, as PNG has it."""
    foretold = left + above - corner
    return min((left, above, corner), key=lambda value: abs(foretold - value))


def unfiltered(kind: int, line: bytearray, before: bytearray, size: int) -> bytearray:
    """A line of a PNG, of which each byte was told by its difference from others."""
    for at in range(len(line)):
        left = line[at - size] if at >= size else 0
        corner = before[at - size] if at >= size else 0
        added = (0, left, before[at], (left + before[at]) // 2, nearest(left, before[at], corner))[kind]
        line[at] = (line[at] + added) % 256
    return line


def painted(svg: bytes) -> list[list[Colour]]:
    """The rows of pixels of a picture."""
    png = subprocess.run(['rsvg-convert'], input=svg, capture_output=True, check=True).stdout
    chunks = chunks_of(png)
    width, height, depth, kind = struct.unpack('>IIBB', chunks[b'IHDR'][:10])
    size = {2: 3, 6: 4}[kind]
    if depth != 8:
        raise ValueError(f'{depth} bits a colour')
    data = zlib.decompress(chunks[b'IDAT'])
    rows, before = [], bytearray(width * size)
    for at in range(0, height * (width * size + 1), width * size + 1):
        before = unfiltered(data[at], bytearray(data[at + 1:at + 1 + width * size]), before, size)
        rows.append([(before[x], before[x + 1], before[x + 2]) for x in range(0, width * size, size)])
    return rows


def colour_of(fill: str) -> Colour:
    """The colour that an SVG calls `hsl(..)`."""
    hue, saturation, light = map(float, re.findall(r'[\d.]+', fill))
    red, green, blue = colorsys.hls_to_rgb(hue / 360, light / 100, saturation / 100)
    return round(red * 255), round(green * 255), round(blue * 255)
