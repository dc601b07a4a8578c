#!/usr/bin/python3
"""Draws a mesh of quads as a PNG. Usage: picture.py mesh.obj picture.png [pores], the OBJ file as bench/obj.c writes
it. Prints how many vertices and quads the mesh has.

Every quad has one shade, nothing is smoothed, and the quads' sides are drawn as lines. Quads face the hollow, so around
a pore one looks at their backs: front and back have a colour each.
With the word pores each piece of the mesh has a colour of its own, but for the piece with the most quads. That is the
outside of a part and its bores, and it is drawn as grey glass without lines. Prints how many pieces have a colour, too.
Assumes Debian's package python3-vtk9 and a display, which may be xvfb's."""
import collections
import colorsys
import math
import struct
import sys
import zlib

import vtkmodules.vtkRenderingOpenGL2  # how vtkRenderingCore draws
from vtkmodules.vtkCommonCore import vtkIdList, vtkUnsignedCharArray
from vtkmodules.vtkCommonDataModel import vtkCellArray, vtkPolyData
from vtkmodules.vtkFiltersCore import vtkPolyDataNormals
from vtkmodules.vtkFiltersExtraction import vtkExtractEdges
from vtkmodules.vtkIOGeometry import vtkOBJReader
from vtkmodules.vtkImagingCore import vtkImageShrink3D
from vtkmodules.vtkRenderingCore import (vtkActor, vtkLight, vtkPolyDataMapper, vtkProperty, vtkRenderer,
                                         vtkRenderWindow, vtkWindowToImageFilter)

FINER = 2  # how many times as many pixels are drawn, each way
BACKGROUND = (0.96, 0.96, 0.95)
FRONT = (0.35, 0.55, 0.75)
BACK = (0.93, 0.66, 0.36)
LINES = (0.16, 0.13, 0.11)
GLASS = (0.52, 0.56, 0.60)
OPACITY = 0.1
# the pieces' colours: strength and brightness with each hue
TONES = ((0.85, 1.0), (0.45, 1.0), (0.8, 0.75))
# when colours are chosen, so many grid steps between two pieces count as much as the way from no red to full red
FAR = 30.0
# size in pixels, width of the lines, where the camera stands as seen from the middle of the mesh, how much nearer than
# VTK would put it, and how many layers of glass may lie one behind the other
Look = collections.namedtuple("Look", "size line_width camera zoom layers")
ONE_PORE = Look((1000, 700), 1.5, (0.35, -1.0, 0.55), 1.6, 0)
PORES = Look((840, 780), 0.5, (0.55, -1.0, 0.6), 1.24, 40)
# direction as seen from the camera (right, up, towards it) and strength
LIGHTS = (((-0.6, 0.8, 0.9), 0.70), ((0.9, 0.0, 0.6), 0.28), ((-0.1, -1.0, 0.5), 0.22))


def read_mesh(name):
    reader = vtkOBJReader()
    reader.SetFileName(name)
    reader.Update()
    return reader.GetOutput()


def one_normal_a_quad(mesh):
    normals = vtkPolyDataNormals()
    normals.SetInputData(mesh)
    normals.ComputePointNormalsOff()
    normals.ComputeCellNormalsOn()
    normals.SplittingOff()
    normals.ConsistencyOff()
    normals.Update()
    return normals.GetOutput()


def flat(colour):
    paint = vtkProperty()
    paint.SetInterpolationToFlat()
    paint.SetColor(*colour)
    paint.SetAmbient(0.30)
    paint.SetDiffuse(0.90)
    paint.SetSpecular(0.0)
    return paint


def quads_of(mesh):
    """The quads, set back a little so that the lines on them are seen."""
    mapper = vtkPolyDataMapper()
    mapper.SetInputData(mesh)
    mapper.ScalarVisibilityOff()
    mapper.SetResolveCoincidentTopologyToPolygonOffset()
    mapper.SetRelativeCoincidentTopologyPolygonOffsetParameters(3.0, 60.0)
    actor = vtkActor()
    actor.SetMapper(mapper)
    actor.SetProperty(flat(FRONT))
    actor.SetBackfaceProperty(flat(BACK))
    return actor


def sides_of(mesh, width):
    sides = vtkExtractEdges()
    sides.SetInputData(mesh)
    mapper = vtkPolyDataMapper()
    mapper.SetInputConnection(sides.GetOutputPort())
    mapper.ScalarVisibilityOff()
    actor = vtkActor()
    actor.SetMapper(mapper)
    actor.GetProperty().SetColor(*LINES)
    actor.GetProperty().LightingOff()
    actor.GetProperty().SetLineWidth(FINER * width)
    return actor


# ---- pieces ----

def read_pieces(name):
    """The piece of each quad, from the names of the groups."""
    pieces, piece = [], None
    with open(name, encoding="utf-8") as file:
        for line in file:
            if line.startswith("g "):
                piece = int(line.split()[1])
            elif line.startswith("f "):
                pieces.append(piece)
    return pieces


def colours_for(places):
    """A colour for each piece: the nearer two pieces are, the less alike their colours."""
    hues = math.ceil(len(places) / len(TONES))
    left = [colorsys.hsv_to_rgb(hue / hues, *tone) for hue in range(hues) for tone in TONES]
    chosen = {}

    def least_alike(colour):
        return min((math.dist(colour, chosen[other]) + math.dist(place, places[other]) / FAR for other in chosen),
                   default=0.0)

    for piece, place in places.items():
        chosen[piece] = max(left, key=least_alike)
        left.remove(chosen[piece])
    return chosen


def part_of(mesh, pieces, colours):
    """The quads of the pieces that have a colour, in that colour."""
    polygons, shades, quad, part = vtkCellArray(), vtkUnsignedCharArray(), vtkIdList(), vtkPolyData()
    shades.SetNumberOfComponents(3)
    for number, piece in enumerate(pieces):
        if piece in colours:
            mesh.GetCellPoints(number, quad)
            polygons.InsertNextCell(quad)
            shades.InsertNextTuple3(*(round(255 * shade) for shade in colours[piece]))
    part.SetPoints(mesh.GetPoints())
    part.SetPolys(polygons)
    part.GetCellData().SetScalars(shades)
    return one_normal_a_quad(part)


def coloured(mesh):
    """The quads in their own colours, front and back."""
    actor = quads_of(mesh)
    actor.GetMapper().ScalarVisibilityOn()
    actor.SetBackfaceProperty(None)
    return actor


def glass_of(mesh):
    actor = coloured(mesh)
    actor.GetProperty().SetOpacity(OPACITY)
    return actor


# ---- the picture ----

def light_from(direction, strength):
    light = vtkLight()
    light.SetLightTypeToCameraLight()
    light.SetPosition(*direction)
    light.SetFocalPoint(0.0, 0.0, 0.0)
    light.SetIntensity(strength)
    return light


def window_with(actors, look):
    renderer = vtkRenderer()
    renderer.SetBackground(*BACKGROUND)
    renderer.AutomaticLightCreationOff()
    for actor in actors:
        renderer.AddActor(actor)
    for direction, strength in LIGHTS:
        renderer.AddLight(light_from(direction, strength))
    window = vtkRenderWindow()
    window.SetOffScreenRendering(1)
    window.SetSize(FINER * look.size[0], FINER * look.size[1])
    window.SetMultiSamples(0 if look.layers else 8)
    if look.layers:
        window.SetAlphaBitPlanes(1)
        renderer.SetUseDepthPeeling(1)
        renderer.SetMaximumNumberOfPeels(look.layers)
    window.AddRenderer(renderer)
    camera = renderer.GetActiveCamera()
    camera.SetFocalPoint(0.0, 0.0, 0.0)
    camera.SetPosition(*look.camera)
    camera.SetViewUp(0.0, 0.0, 1.0)
    camera.SetViewAngle(20.0)
    renderer.ResetCamera()
    camera.Zoom(look.zoom)
    return window


def pixels_of(window):
    """Red, green and blue of every pixel, the lowest row first, each the mean of the finer ones that were drawn."""
    window.Render()
    image = vtkWindowToImageFilter()
    image.SetInput(window)
    image.ReadFrontBufferOff()
    mean = vtkImageShrink3D()
    mean.SetInputConnection(image.GetOutputPort())
    mean.SetShrinkFactors(FINER, FINER, 1)
    mean.MeanOn()
    mean.Update()
    return bytes(memoryview(mean.GetOutput().GetPointData().GetScalars()))


def write_png(name, pixels, size):
    """Shades are rounded to every fourth, which nobody sees and which makes the file small."""
    width, height = size
    rounded = pixels.translate(bytes(min(255, 4 * round(shade / 4)) for shade in range(256)))
    rows = [rounded[3 * width * row:3 * width * (row + 1)] for row in reversed(range(height))]

    def chunk(kind, data):
        return struct.pack(">I", len(data)) + kind + data + struct.pack(">I", zlib.crc32(kind + data))

    with open(name, "wb") as file:
        file.write(b"\x89PNG\r\n\x1a\n")
        file.write(chunk(b"IHDR", struct.pack(">IIBBBBB", width, height, 8, 2, 0, 0, 0)))
        file.write(chunk(b"IDAT", zlib.compress(b"".join(b"\0" + row for row in rows), 9)))
        file.write(chunk(b"IEND", b""))


def one_pore(mesh):
    mesh = one_normal_a_quad(mesh)
    return [quads_of(mesh), sides_of(mesh, ONE_PORE.line_width)]


def pores(mesh, pieces):
    """A piece's number is that of its lowest vertex, which says where it is."""
    outside = collections.Counter(pieces).most_common(1)[0][0]
    colours = colours_for({piece: mesh.GetPoint(piece) for piece in sorted(set(pieces) - {outside})})
    print(f"{len(colours)} pieces in colours", end=", ")
    inside = part_of(mesh, pieces, colours)
    return [coloured(inside), sides_of(inside, PORES.line_width), glass_of(part_of(mesh, pieces, {outside: GLASS}))]


def main():
    words = sys.argv[1:]
    if len(words) != 2 and words[2:] != ["pores"]:
        sys.exit("usage: picture.py mesh.obj picture.png [pores]")
    mesh, look = read_mesh(words[0]), PORES if words[2:] else ONE_PORE
    actors = pores(mesh, read_pieces(words[0])) if words[2:] else one_pore(mesh)
    write_png(words[1], pixels_of(window_with(actors, look)), look.size)
    print(f"{mesh.GetNumberOfPoints()} vertices, {mesh.GetNumberOfPolys()} quads")


main()
