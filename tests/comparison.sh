# What tests/host and tests/memory share: the sources of the comparison and how they are compiled, the folder for what is made, and the library. For
# bash, to be sourced in the folder of the repository.
into=target/tests
archive=target/staticlib/libparsniprow_c.a
flags="-std=c99 -Wall -Wextra -Wpedantic -ffp-contract=off"
comparison=(tests/compare{,_mesh,_edge,_cube,_closed,_ceilings,_ply,_ply_once,_margin,_pieces,_room,_row,_planes,_readings,_judge,_judge_once}.c tests/{lent,crash,blocks,lists,foreign,bench_cubes,hand_lists,hand_blocks,hand_readings,hand_judge,plain}.c)

mkdir -p "$into"

need_archive() {
    [ -f "$archive" ] || { echo "There is no $archive; ./library makes it."; exit 1; }
}
