#!/usr/bin/python3
"""Prints the results of one run of the benchmark as Markdown. Usage: tables.py results part, the file that bench/run
writes, and all, room, thresholds, planes, readings or judge, which is what it has timed.

Its lines, with tabs between the words: processor, compiler, library (the machine that its module was compiled for, or
none); peer, key, name, package, version, and block, readings or mesh, which is what it works on; figure, kind, size,
name, value; made, kind, size, key, points, polygons, seconds; the name, which begins with worst_, and the value of a
figure of the worst list for the pieces, if there is a library. Of a figure or a time that stands there twice the least
counts; but a figure whose name ends with _ratio stands there for each run, and all of them are kept.
Ends with status 1 if a peer's mesh is not of the size to be expected from the block's crossed edges, or if VTK finds a
boundary edge in a closed mesh, for then the times are of different work."""
import math
import statistics
import sys


def read_results(name):
    """Single words, peers by key, and blocks by kind and size, all in the order of the file."""
    words, peers, blocks = {}, {}, {}
    with open(name, encoding="utf-8") as file:
        for line in file:
            head, *rest = line.rstrip("\n").split("\t")
            if head == "peer":
                peers[rest[0]] = {"name": rest[1], "package": rest[2], "version": rest[3], "given": rest[4]}
            elif head == "figure":
                block = blocks.setdefault((rest[0], int(rest[1])), {"made": {}})
                if rest[2].endswith("_ratio"):
                    block.setdefault(rest[2] + "s", []).append(float(rest[3]))
                else:
                    block[rest[2]] = min(float(rest[3]), block.get(rest[2], math.inf))
            elif head == "made":
                made = blocks[rest[0], int(rest[1])]["made"]
                seconds = min(float(rest[5]), made.get(rest[2], {"seconds": math.inf})["seconds"])
                made[rest[2]] = {"points": int(rest[3]), "polygons": int(rest[4]), "seconds": seconds}
            else:
                words[head] = rest[0]
    return words, peers, blocks


def print_row(cells):
    print("| " + " | ".join(cells) + " |")


def print_table(heads, rows):
    """The first column stands left, the others right."""
    print_row(heads)
    print("|---" + "|--:" * (len(heads) - 1) + "|")
    for row in rows:
        print_row(row)
    print()


def three_digits(number):
    places = 2
    while places < 6 and abs(number) < 10.0 ** (2 - places):
        places += 1
    return f"{number:.{places}f}"


def whole(number):
    return f"{int(number):,}"


def with_ratio(block, seconds, time="whole", unit=1.0):
    """Seconds times the unit, and in brackets the library's time of that name divided by the seconds."""
    shown = three_digits(unit * seconds)
    return f"{shown} ({block[time] / seconds:.2f})" if time in block else shown


# ---- the thirteen tables ----

def module_mark(words):
    """What the head of a column says of a library that is not the one that ships."""
    return "" if words["library"] in ("none", "x86_64") else f", {words['library']} module"


def print_times(words, peers, blocks):
    timed = words["library"] != "none"
    mark = module_mark(words)
    heads = ["block"]
    if timed:
        heads += ["counts" + mark, "mesh" + mark, "counts + mesh" + mark]
    heads += ["plain C"] + [peer["name"] for peer in peers.values()]
    if timed and peers:
        heads.append("fastest peer")
    rows = []
    for (kind, size), block in blocks.items():
        row = [f"{kind} {size}"]
        if timed:
            row += [three_digits(block[name]) for name in ("counts", "mesh")] + [f"**{three_digits(block['whole'])}**"]
        row.append(with_ratio(block, block["plain"]))
        row += [with_ratio(block, block["made"][key]["seconds"]) for key in peers]
        if timed and peers:
            best = min(peers, key=lambda key: block["made"][key]["seconds"])
            row.append(f"{peers[best]['name']} ({block['whole'] / block['made'][best]['seconds']:.2f})")
        rows.append(row)
    print_table(heads, rows)


def print_growth(blocks):
    rows, before = [], None
    for (kind, size), block in blocks.items():
        samples = size ** 3
        row = [f"{kind} {size}", whole(samples), f"{1e3 * block['quads'] / samples:.0f}"]
        row += [f"{1e9 * block[name] / samples:.1f}" for name in ("counts", "mesh", "whole")]
        if before and before[0] == kind:
            row += [f"{samples / before[1]:.1f}", f"{block['whole'] / before[2]:.1f}"]
        else:
            row += ["", ""]
        rows.append(row)
        before = (kind, samples, block["whole"])
    print_table(["block", "samples", "quads for 1,000 samples", "counts, ns a sample", "mesh, ns a sample",
                 "counts + mesh, ns a sample", "times the samples", "times the seconds"], rows)


def sizes_of(made):
    return f"{whole(made['points'])} / {whole(made['polygons'])}"


def print_sizes(peers, blocks):
    heads = ["block", "crossed edges", "doubtful faces", "dual mesh: vertices / quads"]
    heads += [f"{peer['name']}: points / {'quads' if key == 'volume_to_mesh' else 'triangles'}"
              for key, peer in peers.items()]
    rows = []
    for (kind, size), block in blocks.items():
        row = [f"{kind} {size}", whole(block["crossed"]), whole(block["doubtful"])]
        row.append(f"{whole(block['vertices'])} / {whole(block['quads'])}")
        row += [sizes_of(block["made"][key]) for key in peers]
        rows.append(row)
    print_table(heads, rows)


VTK_WAYS = {"vtk_memory": "VTK, to a string", "vtk_file": "VTK, to a file in memory"}


def print_files(words, blocks):
    timed = words["library"] != "none"
    mark = module_mark(words)
    has_vtk = all("vtk_bytes" in block for block in blocks.values())
    heads = ["block", "bytes of the file"] + (["ply" + mark] if timed else []) + ["memcpy"]
    if has_vtk:
        heads += ["bytes of VTK's file", *VTK_WAYS.values()] + (["faster of VTK's"] if timed else [])
    rows = []
    for (kind, size), block in blocks.items():
        row = [f"{kind} {size}", whole(block["bytes"])] + ([f"**{three_digits(block['ply'])}**"] if timed else [])
        row.append(with_ratio(block, block["copy"], "ply"))
        if has_vtk:
            row += [whole(block["vtk_bytes"])] + [with_ratio(block, block[way], "ply") for way in VTK_WAYS]
        if has_vtk and timed:
            best = min(VTK_WAYS, key=lambda way: block[way])
            row.append(f"{VTK_WAYS[best].partition(', ')[2]} ({block['ply'] / block[best]:.2f})")
        rows.append(row)
    print_table(heads, rows)


def closed_rows(blocks):
    """The name of each mesh that may be closed, and its figures: that of a block, and that of the block sealed."""
    for (kind, size), block in blocks.items():
        yield f"{kind} {size}", block
        sealed = {name[len("sealed_"):]: value for name, value in block.items() if name.startswith("sealed_")}
        if sealed:
            yield f"{kind} {size}, sealed", sealed


def closed_answer(mesh):
    return "closed" if mesh["is_closed"] else f"open at quad {whole(mesh['fault_quad'])}"


def print_closed(words, blocks):
    timed = words["library"] != "none"
    has_vtk = any("vtk_closed" in block or "vtk_no_memory" in block for block in blocks.values())
    heads = ["block", "quads"]
    if timed:
        heads += ["answer", "closed_with" + module_mark(words), "closed_with, ns a quad"]
    if has_vtk:
        heads += ["vtkFeatureEdges", "VTK's edges: boundary / non-manifold"]
    rows = []
    for name, mesh in closed_rows(blocks):
        row = [name, whole(mesh["quads"])]
        if timed:
            row += [closed_answer(mesh), f"**{three_digits(mesh['closed'])}**"]
            row.append(f"{1e9 * mesh['closed'] / mesh['quads']:.1f}" if mesh["quads"] else "")
        if "vtk_closed" in mesh:
            row.append(with_ratio(mesh, mesh["vtk_closed"], "closed"))
            row.append(f"{whole(mesh['vtk_boundary'])} / {whole(mesh['vtk_nonmanifold'])}")
        elif has_vtk:
            row += ["no memory", ""]
        rows.append(row)
    print_table(heads, rows)


PIECES_WAYS = {"scipy_pieces": "SciPy with its matrix", "scipy_alone": "SciPy's call alone",
               "vtk_pieces": "vtkPolyDataConnectivityFilter"}


def pieces_counts(block):
    """How many pieces each peer counted, of those that are there."""
    counts = [whole(block["scipy_count"])] if "scipy_count" in block else []
    return counts + ([f"{whole(block['vtk_count'])} + {whole(block['unused'])}"] if "vtk_count" in block else [])


def print_pieces(words, blocks):
    """SciPy's call alone is given more than the list of quads, so it is not a candidate for the faster peer."""
    timed = words["library"] != "none"
    ways = {way: name for way, name in PIECES_WAYS.items() if all(way in block for block in blocks.values())}
    peers = [way for way in ways if way != "scipy_alone"]
    heads = ["block", "vertices", "quads"]
    if timed:
        heads += ["pieces", "longest search", f"library{module_mark(words)}, ms"]
    heads += [f"{name}, ms" for name in ways.values()] + (["faster peer"] if timed and peers else [])
    counted = ["SciPy" if way == "scipy_pieces" else "VTK + vertices in no quad" for way in peers]
    heads += ["pieces counted: " + " / ".join(counted)] if peers else []
    rows = []
    for (kind, size), block in blocks.items():
        row = [f"{kind} {size}", whole(block["vertices"]), whole(block["quads"])]
        if timed:
            row += [whole(block["piece_count"]), whole(block["longest"]), f"**{three_digits(1e3 * block['pieces'])}**"]
        row += [with_ratio(block, block[way], "pieces", 1e3) for way in ways]
        if timed and peers:
            best = min(peers, key=lambda way: block[way])
            row.append(f"{ways[best]} ({block['pieces'] / block[best]:.2f})")
        rows.append(row + ([" / ".join(pieces_counts(block))] if peers else []))
    print_table(heads, rows)


def print_worst(words):
    quads, seconds = int(words["worst_quads"]), float(words["worst_pieces"])
    print(f"The worst list: {whole(words['worst_vertices'])} vertices, {whole(quads)} quads, pieces: "
          f"{words['worst_piece_count']}, longest search: {words['worst_longest']} links, "
          f"{three_digits(1e3 * seconds)} ms, {1e9 * seconds / quads:.1f} ns a quad.", end="\n\n")


def print_room_times(words, blocks):
    mark = module_mark(words)
    rows = []
    for (kind, size), block in blocks.items():
        crossed, counts = block["room_crossed"], block["room_counts"]
        rows.append([f"{kind} {size}", f"**{three_digits(1e3 * crossed)}**", three_digits(1e3 * counts),
                     f"{crossed / counts:.2f}", f"{statistics.median(block['room_ratios']):.2f}",
                     with_ratio(block, block["room_plain"], "room_crossed", 1e3)])
    print_table(["block", f"crossed{mark}, ms", f"counts{mark}, ms", "crossed / counts", "median over the runs",
                 "plain C, ms"], rows)


def percent(part, of):
    return f"{100 * part / of:.1f} %" if of else ""


def print_room_sizes(blocks):
    """A vertex takes two words and three doubles, a quad four words."""
    rows = []
    for (kind, size), block in blocks.items():
        edges, vertices, quads = (int(block[name]) for name in ("crossed", "vertices", "quads"))
        reserved, taken = 32 * (4 * edges // 3) + 16 * edges, 32 * vertices + 16 * quads
        rows.append([f"{kind} {size}", whole(edges), whole(vertices), whole(quads), percent(3 * vertices, 4 * edges),
                     percent(quads, edges), whole(reserved), whole(taken), percent(taken, reserved)])
    print_table(["block", "E", "vertices V", "quads Q", "3 V / 4 E", "Q / E", "bytes reserved by E",
                 "bytes of the mesh", "mesh / reserved"], rows)


def spread_of(ratios):
    """The lowest, the middle and the highest ratio of a run."""
    return " / ".join(f"{ratio:.2f}" for ratio in (min(ratios), statistics.median(ratios), max(ratios)))


def row_cells(block, word):
    """Both times, the ratio of these, and the lowest, the middle and the highest ratio of a run."""
    one, each = block[f"{word}_one"], block[f"{word}_each"]
    return [f"**{three_digits(1e3 * one)}**", three_digits(1e3 * each), f"{one / each:.2f}",
            spread_of(block[f"{word}_ratios"])]


def print_row_times(words, blocks):
    """Where the processor cannot flush the block from its caches, there are no columns for that."""
    mark = module_mark(words)
    is_cold = all("cold_one" in block for block in blocks.values())
    heads = [f"one call{mark}, ms", f"12 counts{mark}, ms", "one call / 12 counts",
             "of the runs: lowest / middle / highest"]
    rows = []
    for (kind, size), block in blocks.items():
        rows.append([f"{kind} {size}"] + row_cells(block, "row") + (row_cells(block, "cold") if is_cold else []))
    print_table(["block"] + heads + ([f"block not in the cache, {head}" for head in heads] if is_cold else []), rows)


def print_planes_times(words, blocks):
    mark = module_mark(words)
    rows = []
    for (kind, size), block in blocks.items():
        planes, mesh, both = (block[f"planes_{name}"] for name in ("all", "mesh", "both"))
        rows.append([f"{kind} {size}", f"**{three_digits(1e3 * planes)}**", three_digits(1e3 * mesh),
                     f"{planes / mesh:.2f}", spread_of(block["planes_ratios"]), three_digits(1e3 * both),
                     f"{planes / both:.2f}", spread_of(block["planes_both_ratios"]),
                     percent(statistics.median(block["planes_slowest_ratios"]), 1),
                     percent(1, block["planes_count"]), whole(block["planes_bytes"])])
    print_table(["block", f"all planes{mark}, ms", f"mesh{mark}, ms", "planes / mesh",
                 "of the runs: lowest / middle / highest", f"counts + mesh{mark}, ms", "planes / counts + mesh",
                 "of the runs: lowest / middle / highest", "slowest plane, of all", "a plane, were all alike",
                 "bytes of the planes' buffers"], rows)


def readings_cells(block, word):
    """Both times, the ratio of these, and the lowest, the middle and the highest ratio of a run."""
    readings, grey = block[f"readings_{word}"], block[f"grey_{word}"]
    return [f"**{three_digits(1e3 * readings)}**", three_digits(1e3 * grey), f"{readings / grey:.2f}",
            spread_of(block[f"readings_{word}_ratios"])]


READINGS_PEER = "flying_edges_readings"


def print_readings_times(words, blocks):
    """Where VTK is not installed, there is no column for it."""
    mark = module_mark(words)
    has_vtk = all(READINGS_PEER in block["made"] for block in blocks.values())
    heads = ["block"]
    for name in ("mesh", "counts", "counts + mesh"):
        heads += [f"readings, {name}{mark}, ms", f"grey values, {name}{mark}, ms", "readings / grey values",
                  "of the runs: lowest / middle / highest"]
    rows = []
    for (kind, size), block in blocks.items():
        row = [f"{kind} {size}"]
        for word in ("mesh", "counts", "whole"):
            row += readings_cells(block, word)
        if has_vtk:
            row.append(with_ratio(block, block["made"][READINGS_PEER]["seconds"], "readings_whole", 1e3))
        rows.append(row)
    print_table(heads + (["VTK Flying Edges of floats, ms"] if has_vtk else []), rows)


def print_readings_sizes(blocks):
    rows = [[f"{kind} {size}", whole(block["crossed"]), sizes_of(block["made"][READINGS_PEER])]
            for (kind, size), block in blocks.items() if READINGS_PEER in block["made"]]
    if rows:
        print_table(["block", "crossed edges", "VTK Flying Edges of floats: points / triangles"], rows)


def print_judge_times(words, blocks):
    mark = module_mark(words)
    rows = []
    for (kind, size), block in blocks.items():
        mesh = block["judge_mesh"]
        row = [f"{kind} {size}", whole(block["vertices"]), whole(block["quads"]), three_digits(1e3 * mesh)]
        for word in ("judge_written", "judge_shuffled"):
            row += [f"**{three_digits(1e3 * block[word])}**", f"{block[word] / mesh:.2f}",
                    spread_of(block[f"{word}_ratios"])]
        rows.append(row)
    print_table(["block", "vertices", "quads", f"mesh{mark}, ms", f"judge, as written{mark}, ms", "as written / mesh",
                 "of the runs: lowest / middle / highest", f"judge, shuffled{mark}, ms", "shuffled / mesh",
                 "of the runs: lowest / middle / highest"], rows)


# ---- what the meshes must have in common ----

def size_wanted(key, block):
    """Which number of a peer's mesh is looked at, and the least and the most that it may be."""
    crossed = block["crossed"]
    if key == "volume_to_mesh":
        return "polygons", crossed + block["rim"], crossed + block["rim"]
    least, most = {"marching_cubes": (0.99, 1), "lewiner": (0.99, 1.1)}.get(key, (1, 1))
    return "points", least * crossed, most * crossed


def faults(peers, blocks):
    """Flying Edges has a point for each crossed edge, of floats too: a reading is its sample and a fraction below 1, so
    it is on the same side of the threshold, which is whole. For the same reason it makes as many triangles of floats as
    of the block. Marching Cubes merges points at one place; scikit-image has points inside cubes too; their bounds are
    wide and were set by what VTK 9.1.0 and scikit-image 0.19.3 made of these blocks. OpenVDB has a quad for each
    crossed edge and for each step out of the block from metal: no manual says so, it is what OpenVDB 10.0.1 made of all
    of them."""
    found = []
    for (kind, size), block in blocks.items():
        of_floats, of_block = (block["made"].get(key, {}).get("polygons") for key in (READINGS_PEER, "flying_edges"))
        if None not in (of_floats, of_block) and of_floats != of_block:
            found.append(f"{kind} {size}: Flying Edges made {of_floats} triangles of the floats, and of the block "
                         f"{of_block}.")
        for key, made in block["made"].items():
            what, least, most = size_wanted(key, block)
            if not least <= made[what] <= most:
                found.append(f"{kind} {size}: {peers[key]['name']} made {made[what]} {what}, which is not from "
                             f"{least:.0f} to {most:.0f}.")
    return found


def closed_faults(blocks):
    """A side of a closed mesh is walked an even number of times, so it is of more than one quad."""
    return [f"{name}: VTK found {mesh['vtk_boundary']:.0f} boundary edges in a closed mesh."
            for name, mesh in closed_rows(blocks) if mesh.get("is_closed") and mesh.get("vtk_boundary")]


# ---- the page ----

def print_heading(words, peers, missing):
    versions = dict.fromkeys(f"{peer['name'].split()[0]} {peer['version']}" for peer in peers.values())
    programs = ", ".join([words["compiler"], *versions])
    print(f"Processor: {words['processor']}; each program ran on one core. {programs}.")
    if missing:
        names = ", ".join(f"{peer['name']} ({peer['package']})" for peer in missing)
        print(f"Not installed and left out: {names}.")
    if words["library"] == "none":
        print("The library was not there and is left out; ./library makes it.")
    elif words["library"] != "x86_64":
        print(f"The library's columns are of its LLVM module compiled for this machine ({words['library']}), which is "
              "not what ships: that is the archive for x86-64.")
    print()


TIMES_TEXT = """
Seconds; best of two rounds through all programs, each of 15 runs, or of as many as begin within half a second, at least
2. In brackets: the library's counts + mesh divided by that time, so under 1 the library is the faster. `housing` has a
few pores and nearly no noise, `noisy` is the same housing with strong detector noise, `noise` is noise alone.

- Before the time begins the block is in memory in each program's own form: 16-bit numbers, for scikit-image an array of
  32-bit floats, for OpenVDB a grid that holds every sample.
- `counts` and `mesh` are the library's two calls, `mesh` into memory that was written to before. **counts + mesh** is
  what a caller pays who knows nothing of the block: counts, malloc of that size, mesh, in one go. Plain C is measured
  in the same way. The peers take the memory of their meshes within their time too.
- VTK and scikit-image make triangles, about two for each quad, with corners on the crossed edges; scikit-image adds
  normals. OpenVDB makes quads across the crossed edges, as the library does; it closes the surface at the block's rim,
  and it copies the mesh into arrays.
- The peers give places as 32-bit floats. The library gives 64-bit floats, and the cube and the loop of each vertex.
- Not compared: more than one core, which Flying Edges and OpenVDB can use by themselves; scans of real housings;
  whether the peers' meshes are right, beyond their sizes.
"""

GROWTH_TEXT = """
How the library's cost grows with the block; the last two columns are against the row above. The time for a sample
depends on how much surface there is: the housing's own surface grows less than its samples.
"""

FILES_TEXT = """
The mesh as a binary PLY file: seconds, measured as above; in brackets `ply` divided by that time. `ply` is the
library's call, into memory that was written to before; memcpy copies the same bytes into such memory.

- VTK's writer (vtkPLYWriter) has the same vertices, as doubles, and the same quads as its own polygons before the time
  begins, and only its call Write() is timed. It writes places as 32-bit floats, so its file is the shorter one.
- It writes to a string, and to a file in /dev/shm, which is memory too. The string of VTK 9.1.0 is empty in the end: it
  writes everything to a stream and drops that. The last column has the faster of the two all the same.
- Checked: the library's file is that of plain C, byte by byte. VTK's file has the same quads, and the same places
  rounded to 32-bit floats.
"""

CLOSED_TEXT = """
Whether the mesh is closed: seconds, measured as above; in brackets `closed_with` divided by that time. `closed_with` is
the library's call, with work memory that was written to before. VTK's filter (vtkFeatureEdges) is asked for boundary
edges, which are those of one quad, and for non-manifold edges, which are those of more than two.

- VTK has the same vertices, as doubles, and the same quads as its own polygons before the time begins, and only its
  call Update() is timed. It takes the memory for its links and its edges within that time. It goes through all quads.
- The library goes through all sides of a closed list. Of an open list it links all sides and then stops at the first
  at fault, so the ratio there tells little. With noise the surface reaches the faces of the box, and the mesh is open
  there. `sealed` is the same block with all samples on those faces set to 0, and its mesh is closed.
- The two do not ask the same. The library's rule is that each side is walked as often one way as the other. VTK does
  not look at the way. A side that four quads walk, twice each way, is in order here and non-manifold for VTK.
- No memory: VTK 9.1.0 first asks for room for a tenth of the vertices times a twentieth of them, 8 bytes each. Where it
  gets none, it ends the process.
- Checked: the mesh is closed where no sample on the faces of the box is metal. The side where a mesh is open is at
  fault, counted over all quads. VTK finds no boundary edge in a closed mesh.
"""

PIECES_TEXT = """
Pieces: milliseconds, measured as above; in brackets the library's time divided by that time. The library's call is
`parsniprow_pieces`, into buffers that were written to before. The longest search is in links followed.

- SciPy (scipy.sparse.csgraph.connected_components) works on the matrix of a graph. `with its matrix` has the list of
  quads before the time begins, as the library has it, and makes the matrix within the time, by the fastest of the ways
  that were tried. `call alone` has the matrix before the time begins. The faster peer is that of SciPy with its matrix
  and VTK.
- VTK (vtkPolyDataConnectivityFilter, all regions, each point with the number of its region) has the mesh as its own
  polygons before the time begins, and only its call Update() is timed. It builds its links from vertices to quads
  within that call, and it makes a new mesh of all regions.
- The library is lent its memory. The peers take theirs within their time.
- Checked: no quad joins two of the library's pieces, and their numbers, sizes and count fit together. SciPy counts as
  many, and so does VTK with the vertices in no quad, which are in none of its regions. So the pieces are the same.
- The worst list joins pieces of one size two by two until one is left, and then looks for the vertex that hangs lowest.
  The longest search is then the base-two logarithm of the vertices, the most that there can be. It was timed in one
  round, by itself.
"""

ROOM_TEXT = """
Room before work. All times here are milliseconds. `crossed` is the library's call `parsniprow_crossed`. It gives E, the number of crossed
edges of the block, and E tells how much room is enough for the mesh. `counts` is the call that gives the exact numbers
of the mesh.

- The two calls are asked by turns in one process, on the same samples in the same memory. One process can be much
  slower than the next, likely as its memory lies elsewhere: 40 in a hundred were seen. So times of two processes would
  make no fair ratio. For the same reason `counts` has another time here than in other tables.
- A run is one call of each. A round is 15 runs, or as many as begin within half a second, at least 2. Each round is a
  process of its own. A time is the best of two rounds.
- `crossed / counts` is the best time of the one divided by the best time of the other. Each run has a ratio of its own
  too. The median is that of all runs of both rounds.
- Plain C goes through all samples and compares each with its neighbours, one by one. It is timed by itself, in the same
  processes. In brackets: `crossed` divided by its time.
- No time makes the benchmark fail.
"""

BOUNDS_TEXT = """
How much room E gives. It is proved that 3 V is at most 4 E and that Q is at most E, where the mesh has V vertices and
Q quads. So room for 4 E / 3 vertices, rounded down, and for E quads is enough. A vertex takes 32 bytes, and a quad 16.

- `3 V / 4 E` and `Q / E` say how near the mesh comes to the two bounds; at 100 % there is no room left over.
- `mesh / reserved` is the part of the reserved bytes that the mesh takes.
- Checked: E is the number of crossed edges that is counted from the samples alone, and that of plain C. Both bounds
  hold.
"""

THRESHOLDS_TEXT = """
A row of thresholds. All times here are milliseconds. `one call` is the library's call `parsniprow_thresholds` with 12
thresholds, which gives the counts by each of them. `12 counts` is the call `parsniprow_counts` 12 times, once for each
of the same thresholds. These are t - 5500, t - 4500, .. t + 5500, where t is the block's own threshold: for the
housings 17500 to 28500, for noise 27268 to 38268.

- Both ways are asked by turns in one process, on the same samples in the same memory, as `crossed` and `counts` are.
- A run is the one call and then the 12. A round is 15 runs, or as many as begin within half a second, at least 2. Each
  round is a process of its own. A time is the best of two rounds.
- `one call / 12 counts` is the best time of the one divided by the best time of the other. Each run has a ratio of its
  own too: the lowest, the middle and the highest are those of all runs of both rounds.
- `block not in the cache`: before each call the block is flushed from all caches, and that is not timed. So each of the
  12 calls reads the block from memory. The one call counts a run of 16 layers by all thresholds before the next run, so
  it reads the block from memory once where the cache holds the samples of a run: 2.2 MB for 256 samples an axis. On a
  computer whose last-level cache is smaller than the block, 34 MB for 256 samples an axis, each call reads the block
  from memory, or most of it, without being flushed. These columns are left out on processors other than x86-64.
- Checked: in each run both ways give the same counts.
- No time makes the benchmark fail.
"""

PLANES_TEXT = """
Plane by plane. All times here are milliseconds. `all planes` are the library's calls `parsniprow_start`, then
`parsniprow_plane` for each plane of the block, then `parsniprow_end`. `mesh` is the call `parsniprow_mesh` alone, and
`counts + mesh` are the two calls that a caller makes who knows nothing of the block. All buffers were written to
before, and no memory is taken within a time.

- The planes write into the same buffers again and again. These have room for any layer, by the lengths that the header
  gives, and the last column has their bytes with the work, but without the plane itself.
- The three ways are asked by turns in one process, on the same samples in the same memory, as `crossed` and `counts`
  are. A run is one of each. A round is 15 runs, or as many as begin within half a second, at least 2. Each round is a
  process of its own. A time is the best of two rounds.
- A ratio of two columns is the best time of the one divided by the best time of the other. Each run has ratios of its
  own too: the lowest, the middle and the highest are those of all runs of both rounds.
- `slowest plane` is the slowest single call of a run divided by all calls of that run, the median over the runs. Beside
  it stands what it would be if all planes took the same time.
- Checked: the vertices of all planes are those of the mesh, in order and bit by bit, and so are the quads when those
  along x are put first, then y, then z. The totals are the counts.
- No time makes the benchmark fail.
"""

READINGS_TEXT = """
Readings of the second bench. All times here are milliseconds. A block of readings has a 32-bit float for each sample of
the block of grey values: the sample and a fraction of 0 to 255 256ths, which the float holds exactly. `readings` are
the library's calls `parsniprow_readings_counts` and `parsniprow_readings_mesh` on these floats. `grey values` are its
calls `parsniprow_counts` and `parsniprow_mesh` on the block of 16-bit numbers. `mesh` writes into memory that was
written to before. `counts + mesh` is what a caller pays who knows nothing of the block: counts, malloc of that size,
mesh, in one go.

- Readings and grey values are asked by turns in one process, as `crossed` and `counts` are. A run is one of each. A
  round is 15 runs, or as many as begin within half a second, at least 2. Each round is a process of its own. A time is
  the best of two rounds.
- `readings / grey values` is the best time of the one divided by the best time of the other. Each run has a ratio of
  its own too: the lowest, the middle and the highest are those of all runs of both rounds.
- The memory that a run of `counts + mesh` took is given back before the next run, of whichever of the two. So malloc
  finds the same for both.
- VTK Flying Edges has the same floats as an image of 32-bit floats before its time begins, and the same threshold. It
  is timed by itself, and takes the memory of its mesh within its time. In brackets: the readings' counts + mesh divided
  by that time.
- Checked: each reading is its sample and a fraction below 1. The counts and the meshes of the readings are those of the
  grey values, bit by bit.
- No time makes the benchmark fail.
"""

READINGS_SIZES_TEXT = """
What Flying Edges made of the floats. The threshold is whole, so a sample with a fraction is on the same side of it as
the sample alone, and the same edges are crossed. Checked: Flying Edges has a point for each edge that is crossed in the
block of grey values, which are counted from the samples alone. Where all parts of the benchmark are run, it also has
just as many triangles as it makes of the block of grey values.
"""

JUDGE_TEXT = """
A mesh from the foundry. All times here are milliseconds. `judge` is the library's call `parsniprow_judge`, which says
whether a mesh is ours. `as written` is the mesh as `parsniprow_mesh` wrote it. `shuffled` is the same mesh with its
vertices and its quads in random order, each quad begun at a random one of its vertices. `mesh` is the call
`parsniprow_mesh` alone, into memory of its own that was written to before.

- The three are asked by turns in one process, as `crossed` and `counts` are. A run is one of each. A round is 15 runs,
  or as many as begin within half a second, at least 2. Each round is a process of its own. A time is the best of two
  rounds.
- A ratio of two columns is the best time of the one divided by the best time of the other. Each run has ratios of its
  own too: the lowest, the middle and the highest are those of all runs of both rounds.
- Checked: in each run both are judged the same. With its last quad the other way round, with another mark at its last
  vertex, and without its last quad the shuffled mesh gets the verdict that it should. These were not timed.
- No time makes the benchmark fail.
"""

SIZES_TEXT = """
What each program made. A doubtful face is one with four crossed edges. Checked: Flying Edges has a point for each
crossed edge, OpenVDB a quad for each crossed edge and for each step out of the block from metal, Marching Cubes 99 to
100 points and scikit-image 99 to 110 for 100 crossed edges.
"""


def print_text(text):
    print(text.strip(), end="\n\n")


def print_room(words, blocks):
    print_text(ROOM_TEXT)
    print_room_times(words, blocks)
    print_text(BOUNDS_TEXT)
    print_room_sizes(blocks)


def print_thresholds(words, blocks):
    print_text(THRESHOLDS_TEXT)
    print_row_times(words, blocks)


def print_planes(words, blocks):
    print_text(PLANES_TEXT)
    print_planes_times(words, blocks)


def print_readings(words, blocks):
    print_text(READINGS_TEXT)
    print_readings_times(words, blocks)
    if any(READINGS_PEER in block["made"] for block in blocks.values()):
        print_text(READINGS_SIZES_TEXT)
        print_readings_sizes(blocks)


def print_judge(words, blocks):
    print_text(JUDGE_TEXT)
    print_judge_times(words, blocks)


PARTS = {"room": print_room, "thresholds": print_thresholds, "planes": print_planes, "readings": print_readings,
         "judge": print_judge}


def end_by_faults(wrong, is_checked):
    for fault in wrong:
        print(fault)
    if is_checked and not wrong:
        print("All meshes passed these checks.")
    sys.exit(1 if wrong else 0)


def main():
    if len(sys.argv) != 3 or sys.argv[2] not in ("all", *PARTS):
        sys.exit("usage: tables.py results all, or one of " + ", ".join(PARTS) + " in place of all")
    words, every_peer, blocks = read_results(sys.argv[1])
    peers = {key: peer for key, peer in every_peer.items() if peer["version"] != "-"}
    print_heading(words, peers, [peer for key, peer in every_peer.items() if key not in peers])
    if sys.argv[2] != "all":
        PARTS[sys.argv[2]](words, blocks)
        end_by_faults(faults(peers, blocks), bool(peers))
    makers = {key: peer for key, peer in peers.items() if peer["given"] == "block"}
    print_text(TIMES_TEXT)
    print_times(words, makers, blocks)
    if words["library"] != "none":
        print_text(GROWTH_TEXT)
        print_growth(blocks)
    print_text(FILES_TEXT)
    print_files(words, blocks)
    print_text(CLOSED_TEXT)
    print_closed(words, blocks)
    print_text(PIECES_TEXT)
    print_pieces(words, blocks)
    if words["library"] != "none":
        print_worst(words)
        for print_part in PARTS.values():
            print_part(words, blocks)
    print_text(SIZES_TEXT)
    print_sizes(makers, blocks)
    end_by_faults(faults(peers, blocks) + closed_faults(blocks), bool(makers))


main()
