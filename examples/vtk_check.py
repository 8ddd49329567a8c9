"""What examples/vtk has to write of what the program prints, read by a reader that shares no line with it."""
import math
import os
import struct
import subprocess
import sys
import xml.etree.ElementTree
import zlib

SECONDS = 60
# Root 0 of two is refined, after a moment that is not drawn. Dust stands on both sides of the jump of level, most of it in one
# cell of the coarse side. The field is a loop round one edge, and one face beside which two cells do not balance.
SCRIPT = b"""domain 2 1 1
cells 4 1
levels 0 1
cellvar dust
facevar b
edgevar a
print dust
print mesh
mark refine 0 0 0 0
regrid
fill dust box 0 2 0 0 6 4 2 16
fill dust box 0 6 1 0 7 2 1 1000
edgeset z 1 3 3 0 70
curl
faceset x 0 6 1 1 5
print mesh
print dust
print b
print a
print guards dust 0 1 0 0
total dust
netflux
end
"""
EXTENTS = (8, 4, 4)
CELLS = 8 * 64 + 64
TYPES = {"level": "Int32", "block": "Int32", "dust": "Int64", "dust_density": "Float64", "b": "Float64", "b_density": "Float64"}
TYPES["b_netflux"] = "Int64"
# By the low corner of a cell: the field in it, and its net flux. The others of the loop and of the face are not listed.
FIELDS = {(1, 1, 0): (35, -35, 0), (1.5, 1.5, 0): (-35, 35, 0), (5, 1, 1): (2.5, 0, 0), (0, 0, 3): (0, 0, 0)}
NET_FLUXES = {(5, 1, 1): 5, (6, 1, 1): -5}
PICTURE = (812, 366)
# Pixels of the picture of z=0, and their colours: the fullest cell, an empty one, one between them, and an outline.
FULL, EMPTY, LINE = (8, 29, 88), (255, 255, 217), (70, 70, 70)
PIXELS = {(536, 230): FULL, (616, 230): EMPTY, (16 + 320, 200): LINE}


def faults(vtk, printed, folder):
    """What is wrong with the files that examples/vtk writes of these bytes."""
    mesh, picture = (os.path.join(folder, name) for name in ("mesh.vtu", "slice.png"))
    done = subprocess.run(
        [sys.executable, vtk, mesh, "--slice", "z=0", picture], input=printed, capture_output=True, timeout=SECONDS, check=False
    )
    if done.returncode != 0:
        return [f"it ended with {done.returncode}: {done.stderr.decode(errors='replace')}"]
    try:
        return [*mesh_faults(mesh), *picture_faults(picture)]
    except (KeyError, ValueError, IndexError, AttributeError, struct.error, zlib.error, xml.etree.ElementTree.ParseError) as error:
        return [f"what it wrote cannot be read: {error!r}"]


def numbers_of(array):
    """The numbers of a data array, in groups of its components."""
    take = float if array.get("type") == "Float64" else int
    numbers, width = [take(word) for word in array.text.split()], int(array.get("NumberOfComponents", 1))
    return [tuple(numbers[at:at + width]) for at in range(0, len(numbers), width)] if width > 1 else numbers


def mesh_faults(path):
    """What is wrong with the file for ParaView."""
    piece = xml.etree.ElementTree.parse(path).getroot().find("UnstructuredGrid/Piece")
    points = numbers_of(piece.find("Points/DataArray"))
    topology = {array.get("Name"): numbers_of(array) for array in piece.find("Cells")}
    arrays = {array.get("Name"): array for array in piece.find("CellData")}
    corners = topology["connectivity"]
    if (int(piece.get("NumberOfPoints")), int(piece.get("NumberOfCells"))) != (len(set(points)), CELLS):
        yield "the counts of points or cells are wrong"
    if topology["types"] != [11] * CELLS or topology["offsets"] != [8 * (count + 1) for count in range(CELLS)]:
        yield "some cells are no voxels"
    if {name: array.get("type") for name, array in arrays.items()} != TYPES:
        yield f"the columns are {list(arrays)}"
    columns = {name: numbers_of(array) for name, array in arrays.items()}
    if len(corners) != CELLS or any(len(column) != CELLS for column in columns.values()):
        yield "some columns are not of all cells"
    boxes = [[points[corner] for corner in voxel] for voxel in corners]
    yield from box_faults(boxes, columns["level"])
    yield from number_faults([box[0] for box in boxes], columns)


def box_faults(boxes, levels):
    """What is wrong with the boxes of the cells."""
    for box, level in zip(boxes, levels):
        low, ends = box[0], (0, 2.0 ** -level)
        if level != (low[0] < 4) or box != [(low[0] + i, low[1] + j, low[2] + k) for k in ends for j in ends for i in ends]:
            yield f"the voxel at {low} is not that of a cell of level {level}"
    inside = all(0 <= it < end for box in boxes for it, end in zip(box[0], EXTENTS))
    if not inside or len({box[0] for box in boxes}) != len(boxes) or sum(8.0 ** -level for level in levels) != math.prod(EXTENTS):
        yield "the voxels do not tile the domain"


def dust_in(low, level):
    """What a cell holds by its low corner: the fills of the script."""
    if low == (6, 1, 0):
        return 1000
    return 16 if 2 <= low[0] and low[0] + 2.0 ** -level <= 6 and low[2] + 2.0 ** -level <= 2 else 0


def number_faults(lows, columns):
    """What is wrong with the numbers of the variables."""
    dust = [dust_in(low, level) for low, level in zip(lows, columns["level"])]
    if columns["dust"] != dust or columns["dust_density"] != [it * 8 ** level for it, level in zip(dust, columns["level"])]:
        yield "some contents are wrong"
    fields = dict(zip(lows, columns["b"]))
    if any(fields[low] != field for low, field in FIELDS.items()):
        yield "the field is wrong"
    if columns["b_density"] != [tuple(it * 4 ** level for it in b) for b, level in zip(columns["b"], columns["level"])]:
        yield "the density of the field is wrong"
    if {low: net for low, net in zip(lows, columns["b_netflux"]) if net} != NET_FLUXES:
        yield "the net fluxes are wrong"


def chunks(data):
    """The chunks of a PNG file, whose checksums are right."""
    if data[:8] != b"\x89PNG\r\n\x1a\n":
        raise ValueError("no PNG file")
    at = 8
    while at < len(data):
        length, kind = struct.unpack(">I4s", data[at:at + 8])
        body, (kept,) = data[at + 8:at + 8 + length], struct.unpack(">I", data[at + 8 + length:at + 12 + length])
        if zlib.crc32(kind + body) != kept:
            raise ValueError(f"the checksum of {kind} is wrong")
        yield kind, body
        at += 12 + length


def picture_faults(path):
    """What is wrong with the picture."""
    with open(path, "rb") as file:
        found = list(chunks(file.read()))
    if [kind for kind, _ in found] != [b"IHDR", b"IDAT", b"IEND"]:
        yield "the chunks of the picture are not those of a PNG file"
    width, height, *kinds = struct.unpack(">IIBBBBB", found[0][1])
    pixels, row = zlib.decompress(found[1][1]), 1 + 3 * width
    if (width, height) != PICTURE or kinds != [8, 2, 0, 0, 0] or len(pixels) != row * height or any(pixels[::row]):
        yield f"the picture has {width} x {height} pixels, of the kinds {kinds}, in {len(pixels)} bytes"
    for (x, y), color in PIXELS.items():
        at = row * y + 1 + 3 * x
        if tuple(pixels[at:at + 3]) != color:
            yield f"the pixel at {x} and {y} is {tuple(pixels[at:at + 3])}, not {color}"
