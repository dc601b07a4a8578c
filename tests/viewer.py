#!/usr/bin/python3
"""Reads PLY files back. Usage: viewer.py TOOL, the scan tool.

The tool writes the mesh of some blocks twice, as PLY and as the plain text of --mesh. Of a vertex in the cube (I, J, K)
at the place (X, Y, Z) the file must have (I + X) times the spacing along x, and so on; Python's floats are doubles, and
the sum and the product are rounded once each. Every file is read by three readers, and what each gives is compared in
every bit: a small one here, which takes the file by the words of its head; meshio's; and VTK's, which has no double
points, so that of VTK the coordinates must be those of the mesh rounded to single precision.
A reader that is not there is named, and the others are compared all the same. Stops with a non-zero status at the first
difference; else the last line is a summary.
Assumes that the meshes are small: a few thousand vertices."""
import os
import random
import struct
import subprocess
import sys
import tempfile

TYPES = {"double": "d", "float": "f", "int": "i", "uint": "I", "short": "h", "ushort": "H", "char": "b", "uchar": "B"}


def stop(message):
    sys.exit("viewer: " + message)


# ---- blocks

def paper():
    """The paper's block: its middle alone is metal."""
    return (3, 3, 3), 100, 13 * [0] + [400] + 13 * [0], ("0.1", "0.2", "0.5")


def nothing():
    """No metal, and so no vertex and no face."""
    return (4, 3, 2), 100, 24 * [0], ("1000", "1", "0.001")


def noise():
    """Every value by chance, some at the detector's ceiling; axes and spacings that differ."""
    r = random.Random(1)
    samples = [r.choice([r.randrange(65536), r.randrange(65536), 65535]) for _ in range(11 * 7 * 9)]
    return (11, 7, 9), 40000, samples, ("0.0123456789", "3.7", "999.5")


def pores():
    """Four bubbles that run into each other, in metal."""
    n, t = 40, 23000
    bubbles = [(14.3, 15.1, 17.7, 9.2), (24.9, 20.2, 19.4, 8.1), (20.5, 27.3, 24.8, 7.7), (19.1, 18.6, 29.3, 6.4)]
    samples = []
    for k in range(n):
        for j in range(n):
            for i in range(n):
                nearest = min((i - x) ** 2 + (j - y) ** 2 + (k - z) ** 2 - radius ** 2 for x, y, z, radius in bubbles)
                samples.append(max(6000, min(40000, round(t + 300 * nearest))))
    return (n, n, n), t, samples, ("0.125", "0.125", "0.2")


def meshes_of(tool, folder, axes, t, samples, spacing):
    """Has the tool write the mesh of a block as PLY and as text; gives the two names."""
    block, ply, text = (os.path.join(folder, "block" + ending) for ending in (".raw", ".ply", ".txt"))
    with open(block, "wb") as f:
        f.write(struct.pack(f"<{len(samples)}H", *samples))
    words = [tool, block, *map(str, axes), str(t), "little", "--mesh", text, "--ply", ply, "--spacing", *spacing]
    done = subprocess.run(words, stdout=subprocess.PIPE, stderr=subprocess.PIPE, check=False)
    if done.returncode != 0:
        stop(f"the scan tool ended with status {done.returncode}: {done.stdout!r} {done.stderr!r}")
    if f"ply {os.path.getsize(ply)}" not in done.stdout.decode().split("\n"):
        stop(f"the record should say that the file has {os.path.getsize(ply)} bytes, and it is {done.stdout!r}")
    return ply, text


def wanted_of(text, spacing):
    """The points in millimetres and the faces, by the text of --mesh."""
    points, faces = [], []
    steps = [float(step) for step in spacing]
    with open(text, encoding="ascii") as f:
        for line in f:
            words = line.split()
            if words[0] == "v":
                cube, place = map(int, words[2:5]), map(float, words[5:8])
                points.append(tuple((i + x) * step for i, x, step in zip(cube, place, steps)))
            elif words[0] == "q":
                faces.append(tuple(map(int, words[1:])))
    return points, faces


# ---- readers: each gives the points, the faces, and the letter by which struct packs a coordinate

def head_of(data):
    """The elements that the head names, each with its count and its properties, and where the head ends."""
    end = data.index(b"end_header\n") + len(b"end_header\n")
    lines = data[:end].decode("ascii").split("\n")
    if lines[:2] != ["ply", "format binary_little_endian 1.0"]:
        stop(f"the head begins with {lines[:2]}")
    elements = []
    for line in lines[2:-2]:
        words = line.split(" ")
        if words[0] == "element":
            elements.append((words[1], int(words[2]), []))
        elif words[0] == "property":
            elements[-1][2].append(words[1:])
        else:
            stop(f"the head has {line!r}")
    return elements, end


def read_own(ply):
    with open(ply, "rb") as f:
        data = f.read()
    elements, at = head_of(data)
    found = {}
    for name, count, properties in elements:
        rows = found[name] = []
        for _ in range(count):
            row = {}
            for words in properties:
                if words[0] == "list":
                    (length,) = struct.unpack_from("<" + TYPES[words[1]], data, at)
                    at += struct.calcsize(TYPES[words[1]])
                    kind = f"<{length}{TYPES[words[2]]}"
                    row[words[3]] = struct.unpack_from(kind, data, at)
                else:
                    kind = "<" + TYPES[words[0]]
                    (row[words[1]],) = struct.unpack_from(kind, data, at)
                at += struct.calcsize(kind)
            rows.append(row)
    if at != len(data):
        stop(f"there are {len(data) - at} bytes behind the last face")
    points = [(row["x"], row["y"], row["z"]) for row in found["vertex"]]
    return points, [row["vertex_indices"] for row in found["face"]], "d"


def read_vtk(ply):
    from vtkmodules.vtkCommonCore import vtkIdList
    from vtkmodules.vtkIOPLY import vtkPLYReader
    reader = vtkPLYReader()
    reader.SetFileName(ply)
    reader.Update()
    mesh = reader.GetOutput()
    points, faces, corners = [], [], vtkIdList()
    for number in range(mesh.GetNumberOfPoints()):
        points.append(mesh.GetPoint(number))
    for number in range(mesh.GetNumberOfCells()):
        mesh.GetCellPoints(number, corners)
        faces.append(tuple(corners.GetId(at) for at in range(corners.GetNumberOfIds())))
    # should a later VTK have double points, they must be the doubles
    return points, faces, "d" if mesh.GetPoints().GetData().GetDataTypeSize() == 8 else "f"


def read_meshio(ply):
    import meshio
    mesh = meshio.read(ply)
    faces = [tuple(int(corner) for corner in face) for cells in mesh.cells for face in cells.data]
    return [tuple(map(float, point)) for point in mesh.points], faces, "d" if mesh.points.dtype.itemsize == 8 else "f"


def vtk_version():
    from vtkmodules.vtkCommonCore import vtkVersion
    from vtkmodules import vtkIOPLY  # only to see that it is there
    return "VTK " + vtkVersion.GetVTKVersion()


def meshio_version():
    import meshio
    return "meshio " + meshio.__version__


def readers():
    """Those that are there, by name; the others are told."""
    found = {"a reader of its own": read_own}
    for name, version, read in (("VTK", vtk_version, read_vtk), ("meshio", meshio_version, read_meshio)):
        try:
            found[version()] = read
        except ImportError:
            print(f"viewer: {name}'s reader is missing, not compared")
    return found


def compare(what, given, wanted):
    """Every bit of every coordinate, and every face."""
    points, faces, letter = given
    counts, wanted_counts = (len(points), len(faces)), (len(wanted[0]), len(wanted[1]))
    if counts != wanted_counts:
        stop(f"{what}: {counts} vertices and faces, and by the mesh {wanted_counts}")
    for number, (one, other) in enumerate(zip(points, wanted[0])):
        if struct.pack("<3" + letter, *one) != struct.pack("<3" + letter, *other):
            stop(f"{what}: vertex {number} is at {one}, and by the mesh at {other}")
    for number, (one, other) in enumerate(zip(faces, wanted[1])):
        if one != other:
            stop(f"{what}: face {number} is {one}, and by the mesh {other}")


def main():
    if len(sys.argv) != 2:
        stop("usage: viewer.py TOOL")
    found, files, vertices, quads = readers(), 0, 0, 0
    singles = set()
    for block in (paper, nothing, noise, pores):
        axes, t, samples, spacing = block()
        with tempfile.TemporaryDirectory() as folder:
            ply, text = meshes_of(sys.argv[1], folder, axes, t, samples, spacing)
            wanted = wanted_of(text, spacing)
            for name, read in found.items():
                given = read(ply)
                compare(f"{name}, {block.__name__}", given, wanted)
                if given[2] == "f":
                    singles.add(name)
        files, vertices, quads = files + 1, vertices + len(wanted[0]), quads + len(wanted[1])
    names = [name + (" (in single precision)" if name in singles else "") for name in found]
    print(f"viewer: {files} files, {vertices} vertices and {quads} faces, read by {', '.join(names)}: "
          "all as the mesh says")
    return 0


if __name__ == "__main__":
    sys.exit(main())
