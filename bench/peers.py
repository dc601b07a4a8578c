#!/usr/bin/python3
"""Times the programs that Debian has for the same work on one block. Usage:
  peers.py versions                prints a line for each peer: key, name, package, version ("-" if it is not
                                   installed), and block, readings or mesh, which is what it works on
  peers.py key file nx ny nz t     prints "points polygons seconds" of the peer on the block, or on the readings
  peers.py ply_writer mesh.ply     prints a line for each figure of VTK's PLY writer on the mesh, name and value:
                                     vtk_bytes    of the file that it writes
                                     vtk_memory   seconds of writing to a string
                                     vtk_file     seconds of writing to a file in memory (/dev/shm)
                                   or nothing if VTK is not installed
  peers.py feature_edges mesh.ply  prints a line for each figure of VTK's feature edges of the mesh, name and value:
                                     vtk_closed       seconds
                                     vtk_boundary     edges of one quad that it found
                                     vtk_nonmanifold  edges of more than two quads that it found
                                   or nothing if VTK is not installed
  peers.py pieces mesh.ply [n]     prints a line for each figure of the mesh's pieces, name and value; n is how many the
                                   library found:
                                     unused        vertices in no quad
                                     scipy_pieces  seconds of making SciPy's matrix and of its connected components
                                     scipy_alone   seconds of the components alone, of a matrix that is there already
                                     scipy_count   components that it found
                                     vtk_pieces    seconds of VTK's connectivity filter
                                     vtk_count     regions that it found
                                   without those of a program that is not installed

The file is raw little-endian 16-bit numbers, x fastest, or of a peer on readings 32-bit floats. A time is the best of
15 runs, or of as many as begin within half a second, but at least 2. The block is in memory, in the form that the peer
takes, before the first run; the peer takes the memory of its mesh within the time, and the mesh of the run before is
given back outside of it.
Of the PLY writer only the call that writes is timed. Its mesh is that of the library's PLY file, in VTK's own form, and
its file must hold the same quads, and the same places rounded to 32-bit floats, or there are no times.
Of the feature edges only the call that finds them is timed, on the same mesh in the same form. VTK builds its links
from vertices to quads within that call, and it does so where the mesh has links already: those save no time. VTK 9.1.0
first asks for room for a tenth of the points times a twentieth of them, 8 bytes each. Where it gets none, it ends the
process by SIGABRT.
Of the pieces SciPy has the list of quads as an array, as the library has it, and VTK has the mesh in its own form
before the time begins. Both give a number to each vertex, not only how many pieces there are. A vertex in no quad is a
piece of its own for the library and for SciPy. VTK goes from quad to quad, so such a vertex is in no region, and it is
not in the mesh that its filter makes. So SciPy's components must be as many as the library's pieces, and so must VTK's
regions and the vertices in no quad together, or there are no times.

Assumes that the process may run on one processor only (taskset), as OpenVDB takes all that it is allowed; the peers are
Debian's packages python3-vtk9, python3-skimage, python3-openvdb and python3-scipy, in Debian's own python."""
import os
import sys
import tempfile
import time

MOST_RUNS = 15
LEAST_RUNS = 2
LONG_ENOUGH = 0.5

# read by VTK when it starts, in case that its backend cannot be set from here
os.environ["VTK_SMP_BACKEND_IN_USE"] = "Sequential"
os.environ["VTK_SMP_MAX_THREADS"] = "1"


# ---- VTK: triangles with their corners on crossed edges ----

def vtk_version():
    from vtkmodules.vtkCommonCore import vtkVersion
    from vtkmodules import vtkFiltersCore, vtkIOImage  # only to see that they are there
    return vtkVersion.GetVTKVersion()


def vtk_image(name, lengths, is_float):
    """The block as an image, wholly in memory: of 16-bit numbers, or of 32-bit floats as they are."""
    from vtkmodules.vtkIOImage import vtkImageReader2
    reader = vtkImageReader2()
    reader.SetFileName(name)
    reader.SetFileDimensionality(3)
    if is_float:
        reader.SetDataScalarTypeToFloat()
    else:
        reader.SetDataScalarTypeToUnsignedShort()
    reader.SetDataByteOrderToLittleEndian()
    reader.SetNumberOfScalarComponents(1)
    reader.FileLowerLeftOn()
    reader.SetDataExtent(0, lengths[0] - 1, 0, lengths[1] - 1, 0, lengths[2] - 1)
    reader.Update()
    return reader.GetOutput()


def one_vtk_thread():
    """Sets the sequential backend and fails if VTK has kept another."""
    from vtkmodules.vtkCommonCore import vtkSMPTools
    vtkSMPTools.SetBackend("Sequential")
    if vtkSMPTools.GetBackend() != "Sequential" or vtkSMPTools.GetEstimatedNumberOfThreads() != 1:
        sys.exit("peers.py: VTK did not take its sequential backend")


def vtk_contour(contour_class, name, lengths, t, is_float=False):
    """Normals, gradients and scalars are off."""
    one_vtk_thread()
    image = vtk_image(name, lengths, is_float)
    if image.GetScalarTypeAsString() != ("float" if is_float else "unsigned short"):
        sys.exit("peers.py: VTK's image is not of the numbers that the file has")

    def run():
        contour = contour_class()
        contour.SetInputData(image)
        contour.SetValue(0, t)
        contour.ComputeNormalsOff()
        contour.ComputeGradientsOff()
        contour.ComputeScalarsOff()
        contour.Update()
        return contour.GetOutput()

    return run, lambda mesh: (mesh.GetNumberOfPoints(), mesh.GetNumberOfPolys())


def flying_edges(name, lengths, t):
    from vtkmodules.vtkFiltersCore import vtkFlyingEdges3D
    return vtk_contour(vtkFlyingEdges3D, name, lengths, t)


def flying_edges_readings(name, lengths, t):
    from vtkmodules.vtkFiltersCore import vtkFlyingEdges3D
    return vtk_contour(vtkFlyingEdges3D, name, lengths, t, True)


def marching_cubes(name, lengths, t):
    from vtkmodules.vtkFiltersCore import vtkMarchingCubes
    return vtk_contour(vtkMarchingCubes, name, lengths, t)


# ---- scikit-image: triangles by Lewiner's marching cubes, some corners inside cubes ----

def skimage_version():
    import skimage.measure
    return skimage.__version__


def float_block(name, lengths):
    """The block as 32-bit floats, which hold every sample exactly; its axes are z, y, x."""
    import numpy
    return numpy.fromfile(name, dtype="<u2").reshape(lengths[::-1]).astype(numpy.float32)


def lewiner(name, lengths, t):
    """Normals and values at the corners come with it and cannot be turned off."""
    from skimage.measure import marching_cubes as march
    block = float_block(name, lengths)
    return lambda: march(block, t, method="lewiner"), lambda mesh: (len(mesh[0]), len(mesh[1]))


# ---- OpenVDB: quads across crossed edges, as the library's ----

def openvdb_module():
    try:
        import openvdb
        return openvdb
    except ImportError:
        import pyopenvdb  # its name up to version 10
        return pyopenvdb


def openvdb_version():
    return ".".join(str(number) for number in openvdb_module().LIBRARY_VERSION)


def volume_to_mesh(name, lengths, t):
    """Every sample is kept as it is; around the block lies 0, which is hollow. No quads are merged (adaptivity 0)."""
    import numpy
    grid = openvdb_module().FloatGrid(0.0)
    grid.copyFromArray(numpy.ascontiguousarray(float_block(name, lengths).transpose()))
    return lambda: grid.convertToQuads(t), lambda mesh: (len(mesh[0]), len(mesh[1]))


# ---- VTK's PLY writer ----

def ply_parts(content, number):
    """The places, numbers of that type, and the faces of a binary little-endian PLY file of quads."""
    import numpy
    begin = content.index(b"end_header\n") + len(b"end_header\n")
    elements = [line.split() for line in content[:begin].decode().splitlines() if line.startswith("element ")]
    count = {name: int(word) for _, name, word in elements}
    places = numpy.frombuffer(content, number, 3 * count["vertex"], begin).reshape(-1, 3)
    faces = numpy.frombuffer(content, [("corners", "u1"), ("quad", "<i4", 4)], count["face"], begin + places.nbytes)
    if len(content) != begin + places.nbytes + faces.nbytes or not (faces["corners"] == 4).all():
        sys.exit("peers.py: the PLY file is not one of quads")
    return places, faces


def vtk_mesh(places, quads):
    """The mesh in the form that VTK's own filters make: points, here of doubles, and polygons of VTK's own numbers."""
    from vtkmodules.util.numpy_support import numpy_to_vtk, numpy_to_vtkIdTypeArray
    from vtkmodules.vtkCommonCore import vtkPoints
    from vtkmodules.vtkCommonDataModel import vtkCellArray, vtkPolyData
    points, polygons, mesh = vtkPoints(), vtkCellArray(), vtkPolyData()
    points.SetData(numpy_to_vtk(places, deep=1))
    polygons.SetData(4, numpy_to_vtkIdTypeArray(quads.astype("int64").reshape(-1), deep=1))
    mesh.SetPoints(points)
    mesh.SetPolys(polygons)
    return mesh


def ply_writer(mesh, name):
    """A writer to the file of that name, or to a string if there is none. A file of the name is removed before."""
    from vtkmodules.vtkIOPLY import vtkPLYWriter
    writer = vtkPLYWriter()
    writer.SetInputData(mesh)
    writer.SetFileTypeToBinary()
    writer.SetDataByteOrderToLittleEndian()
    if not name:
        writer.SetWriteToOutputString(1)
        return writer
    if os.path.exists(name):
        os.remove(name)
    writer.SetFileName(name)
    return writer


def library_mesh(name):
    """The places and faces of the library's PLY file, and the mesh in VTK's own form. VTK has one thread from then on."""
    one_vtk_thread()
    with open(name, "rb") as file:
        places, faces = ply_parts(file.read(), "<f8")
    return places, faces, vtk_mesh(places, faces["quad"])


def ply_time(mesh, name=None):
    """The seconds of writing to the file of that name, or to a string if there is none."""
    def next_run():
        writer = ply_writer(mesh, name)
        return lambda: writer.Write() or sys.exit("peers.py: VTK could not write its PLY file")

    return best_time(next_run)[1]


def print_ply_times(name):
    """The string is not looked at: that of VTK 9.1.0 is empty in the end, though all was written to it."""
    try:
        vtk_version()
        from vtkmodules import vtkIOPLY  # only to see that it is there
    except ImportError:
        return
    places, faces, mesh = library_mesh(name)
    with tempfile.TemporaryDirectory(dir="/dev/shm") as folder:
        written = os.path.join(folder, "mesh.ply")
        memory_time, file_time = ply_time(mesh), ply_time(mesh, written)
        with open(written, "rb") as file:
            content = file.read()
    written_places, written_faces = ply_parts(content, "<f4")
    if (written_places != places.astype("<f4")).any() or (written_faces != faces).any():
        sys.exit("peers.py: VTK's PLY file does not hold the same mesh")
    print(f"vtk_bytes {len(content)}\nvtk_memory {memory_time:.6f}\nvtk_file {file_time:.6f}")


# ---- VTK's feature edges ----

def feature_edges(mesh, with_nonmanifold):
    """A filter that finds the edges of one quad, and those of more than two if so asked. Colours for the edges, which
    tell of what kind they are, are off."""
    from vtkmodules.vtkFiltersCore import vtkFeatureEdges
    edges = vtkFeatureEdges()
    edges.SetInputData(mesh)
    edges.BoundaryEdgesOn()
    edges.SetNonManifoldEdges(with_nonmanifold)
    edges.FeatureEdgesOff()
    edges.ManifoldEdgesOff()
    edges.ColoringOff()
    return edges


def found_edges(edges):
    """Runs the filter and gives how many edges it found."""
    edges.Update()
    return edges.GetOutput().GetNumberOfLines()


def print_edge_times(name):
    """The filter of each run is new, for one that has run does not run again. It is made outside of the time."""
    try:
        vtk_version()
    except ImportError:
        return
    mesh = library_mesh(name)[2]

    def next_run():
        edges = feature_edges(mesh, True)
        return lambda: found_edges(edges)

    found, seconds = best_time(next_run)
    boundary = found_edges(feature_edges(mesh, False))
    print(f"vtk_closed {seconds:.6f}\nvtk_boundary {boundary}\nvtk_nonmanifold {found - boundary}")


# ---- pieces: SciPy's connected components and VTK's connectivity filter ----

def scipy_version():
    import scipy.sparse.csgraph
    return scipy.__version__


def quad_graph(quads, points):
    """The matrix of the graph that joins the first vertex of each quad with the second, the third and the fourth. Its
    compressed rows are made here of the quads sorted by their first vertex. SciPy can make them of pairs by itself, but
    it takes two to three times as long, as it looks for pairs that stand there twice. Entries are doubles: of others
    the call would make doubles first."""
    import numpy
    from scipy.sparse import csr_matrix
    first = quads[:, 0]
    begins = numpy.zeros(points + 1, "int32")
    numpy.cumsum(3 * numpy.bincount(first, minlength=points), out=begins[1:])
    others = quads[numpy.argsort(first, kind="stable"), 1:].reshape(-1)
    return csr_matrix((numpy.ones(len(others)), others, begins), shape=(points, points))


def print_scipy_pieces(quads, points):
    """Gives how many components there are."""
    from scipy.sparse.csgraph import connected_components
    matrix = quad_graph(quads, points)
    alone = best_time(lambda: lambda: connected_components(matrix, directed=False))[1]
    made, seconds = best_time(lambda: lambda: connected_components(quad_graph(quads, points), directed=False))
    print(f"scipy_pieces {seconds:.6f}\nscipy_alone {alone:.6f}\nscipy_count {made[0]}")
    return made[0]


def connectivity(mesh):
    """A filter that makes a mesh of all regions, where each point has the number of its region."""
    from vtkmodules.vtkFiltersCore import vtkPolyDataConnectivityFilter
    regions = vtkPolyDataConnectivityFilter()
    regions.SetInputData(mesh)
    regions.SetExtractionModeToAllRegions()
    regions.ColorRegionsOn()
    return regions


def print_vtk_pieces(places, quads):
    """Gives how many regions there are. The filter of each run is new, as of the feature edges."""
    one_vtk_thread()
    mesh = vtk_mesh(places, quads)

    def next_run():
        regions = connectivity(mesh)
        return lambda: regions.Update() or regions

    made, seconds = best_time(next_run)
    print(f"vtk_pieces {seconds:.6f}\nvtk_count {made.GetNumberOfExtractedRegions()}")
    return made.GetNumberOfExtractedRegions()


def print_piece_times(name, told=None):
    has_scipy, has_vtk = found_version(scipy_version) != "-", found_version(vtk_version) != "-"
    if not has_scipy and not has_vtk:
        return
    import numpy
    with open(name, "rb") as file:
        places, faces = ply_parts(file.read(), "<f8")
    quads = numpy.ascontiguousarray(faces["quad"])
    unused = int((numpy.bincount(quads.reshape(-1), minlength=len(places)) == 0).sum())
    print(f"unused {unused}")
    counts = set() if told is None else {int(told)}
    if has_scipy:
        counts.add(print_scipy_pieces(quads, len(places)))
    if has_vtk:
        counts.add(print_vtk_pieces(places, quads) + unused)
    if len(counts) != 1:
        sys.exit("peers.py: the programs do not count the same pieces: " + ", ".join(map(str, sorted(counts))))


# ---- all of them ----

PEERS = {
    "flying_edges": ("VTK Flying Edges", "python3-vtk9", vtk_version, flying_edges, "block"),
    "marching_cubes": ("VTK Marching Cubes", "python3-vtk9", vtk_version, marching_cubes, "block"),
    "lewiner": ("scikit-image", "python3-skimage", skimage_version, lewiner, "block"),
    "volume_to_mesh": ("OpenVDB", "python3-openvdb", openvdb_version, volume_to_mesh, "block"),
    "flying_edges_readings": ("VTK Flying Edges of floats", "python3-vtk9", vtk_version, flying_edges_readings,
                              "readings"),
}
ON_A_MESH = {"ply_writer": print_ply_times, "feature_edges": print_edge_times, "pieces": print_piece_times}


def found_version(version):
    try:
        return version()
    except ImportError:
        return "-"


def print_versions():
    for key, (name, package, version, _, given) in PEERS.items():
        print(key, name, package, found_version(version), given, sep="\t")
    print("components", "SciPy", "python3-scipy", found_version(scipy_version), "mesh", sep="\t")


def best_time(next_run):
    """What the last run made, and the least seconds of one. Each run is a function that is got outside of the time."""
    best, spent, runs = None, 0.0, 0
    while runs < LEAST_RUNS or (runs < MOST_RUNS and spent < LONG_ENOUGH):
        run = made = None
        run = next_run()
        begin = time.perf_counter()
        made = run()
        took = time.perf_counter() - begin
        best = took if best is None else min(best, took)
        spent += took
        runs += 1
    return made, best


def main():
    if sys.argv[1:] == ["versions"]:
        print_versions()
        return
    words = sys.argv[1:]
    on_a_mesh = (len(words) == 2 and words[0] in ON_A_MESH) or (len(words) == 3 and words[0] == "pieces")
    if not on_a_mesh and (len(words) != 6 or words[0] not in PEERS):
        sys.exit("usage: peers.py versions, or peers.py ply_writer mesh.ply, or peers.py feature_edges mesh.ply, or "
                 "peers.py pieces mesh.ply [n], or peers.py key file nx ny nz t, the key one of " + ", ".join(PEERS))
    if len(os.sched_getaffinity(0)) != 1:
        sys.exit("peers.py: may run on more than one processor, so OpenVDB would take more than one thread")
    if on_a_mesh:
        ON_A_MESH[words[0]](*words[1:])
        return
    lengths = [int(word) for word in words[2:5]]
    run, size = PEERS[words[0]][3](words[1], lengths, float(words[5]))
    mesh, seconds = best_time(lambda: run)
    print(*size(mesh), f"{seconds:.6f}")


main()
