// The C interface beside NanoVDB.h: places and sizes, lookups of grids from its own builders, and files from its own writer.
#include "files.h"
#include "grids.h"
#include "layout.h"
#include "loader.h"

#include <nanovdb/NanoVDB.h>

#include <algorithm>
#include <cstdlib>
#include <fstream>
#include <iterator>
#include <random>

namespace {

using nanovdb::Coord;
using Random = std::mt19937_64;

const int LOOKUPS = 100000; // over all of i32, a grid; twice as many around what stands in it
const int BOXES = 40;

std::vector<uint8_t> bytesOf(const nanovdb::GridHandle<> &handle)
{
    return {handle.data(), handle.data() + handle.size()};
}

std::string text(const Coord &at)
{
    return "(" + std::to_string(at[0]) + ", " + std::to_string(at[1]) + ", " + std::to_string(at[2]) + ")";
}

int32_t within(Random &random, int64_t low, int64_t high)
{
    const int64_t at = std::uniform_int_distribution<int64_t>(low, high)(random);
    return int32_t(std::clamp<int64_t>(at, INT32_MIN, INT32_MAX));
}

// All of i32, with block borders now and then.
Coord anywhere(Random &random)
{
    Coord at;
    for (int axis = 0; axis < 3; ++axis) {
        at[axis] = within(random, INT32_MIN, INT32_MAX);
        if (random() % 4 == 0) at[axis] = int32_t(at[axis] & ~4095) - int32_t(random() % 2 && at[axis] > INT32_MIN + 4096);
    }
    return at;
}

Coord around(Random &random, const nanovdb::CoordBBox &box)
{
    Coord at;
    for (int axis = 0; axis < 3; ++axis) {
        at[axis] = within(random, int64_t(box.min()[axis]) - 9, int64_t(box.max()[axis]) + 9);
    }
    return at;
}

// The voxel that a leaf of the grid begins with, and what lies next to it.
Coord aroundLeaf(Random &random, const nanovdb::FloatGrid &grid)
{
    const uint32_t leaf = uint32_t(random() % grid.tree().nodeCount(0));
    Coord at = grid.tree().getFirstNode<0>()[leaf].origin();
    for (int axis = 0; axis < 3; ++axis) at[axis] = within(random, int64_t(at[axis]) - 2, int64_t(at[axis]) + 9);
    return at;
}

struct Counts {
    int asked = LOOKUPS;
    long lookups = 0, differ = 0, smoky = 0, boxes = 0, built = 0, rounded = 0, marked = 0;
    long levels[5] = {}; // lookups by NanoVDB.h's level
};

bool sameBits(float a, float b)
{
    return std::memcmp(&a, &b, 4) == 0;
}

// Where NanoVDB.h's walk stops, numbered as in smokegrid.h. Its accessor names the level of the node, and the root is asked
// whether it has a tile there: the accessor alone does not tell a root tile from the background.
uint32_t levelOf(const nanovdb::FloatGrid &grid, const Coord &at)
{
    const uint32_t level = grid.getAccessor().getNodeInfo(at).mLevel; // 0 leaf, 3 root
    if (level < 3) return 4 - level;
    return grid.tree().root().probeTile(at) != nullptr;
}

// Whether a lookup gives NanoVDB.h's bits, and a reading these and its level; where it does not, says so.
bool sameValue(Counts &counts, const std::string &name, const Loaded &ours, const nanovdb::FloatGrid &grid, const Coord &at)
{
    const float due = grid.getAccessor().getValue(at);
    float value = -1;
    const uint32_t number = ours.call(smokegrid_get_value, at[0], at[1], at[2], &value);
    const uint32_t dueLevel = levelOf(grid, at);
    float read = -1;
    uint32_t level = 9;
    const uint32_t readNumber = ours.call(smokegrid_get_reading, at[0], at[1], at[2], &read, &level);
    ++counts.lookups;
    ++counts.levels[dueLevel];
    counts.smoky += due != grid.tree().background();
    if (number == 0 && sameBits(value, due) && readNumber == 0 && sameBits(read, due) && level == dueLevel) return true;
    if (++counts.differ <= 20) {
        std::printf("%s at %s: NanoVDB.h %g level %u, ours %u %g, reading %u %g level %u\n", name.c_str(), text(at).c_str(), due,
            dueLevel, number, value, readNumber, read, level);
    }
    return false;
}

void compareLookups(Tally &tally, Counts &counts, const std::string &name, const Loaded &ours, const nanovdb::FloatGrid &grid,
    Random &random)
{
    bool same = true;
    for (int i = 0; i < counts.asked; ++i) same &= sameValue(counts, name, ours, grid, anywhere(random));
    tally.count(same, name + ": lookups anywhere");
    same = true;
    for (int i = 0; i < 2 * counts.asked; ++i) {
        same &= sameValue(counts, name, ours, grid, i % 2 ? around(random, grid.indexBBox()) : aroundLeaf(random, grid));
    }
    tally.count(same, name + ": lookups around what stands in it");
}

// Small boxes, whose voxels the accessor reads one by one.
void compareBoxes(Tally &tally, Counts &counts, const std::string &name, const Loaded &ours, const nanovdb::FloatGrid &grid,
    Random &random)
{
    auto accessor = grid.getAccessor();
    for (int i = 0; i < BOXES; ++i) {
        const Coord low = aroundLeaf(random, grid);
        Coord high;
        for (int axis = 0; axis < 3; ++axis) high[axis] = within(random, low[axis], int64_t(low[axis]) + 19);
        float due = 0;
        for (int64_t x = low[0]; x <= high[0]; ++x) {
            for (int64_t y = low[1]; y <= high[1]; ++y) {
                for (int64_t z = low[2]; z <= high[2]; ++z) due = std::max(due, accessor.getValue(Coord(int(x), int(y), int(z))));
            }
        }
        float value = -1;
        const uint32_t number = ours.call(smokegrid_box_maximum, low[0], low[1], low[2], high[0], high[1], high[2], &value);
        ++counts.boxes;
        tally.count(number == 0 && sameBits(value, due), name + ": box maximum " + text(low) + " to " + text(high));
    }
}

// The greatest figure is the greatest density where the world box holds every voxel.
void compareBuild(Tally &tally, Counts &counts, const Made &made, const Loaded &ours)
{
    std::vector<float> figures(size_t(ours.cells[0]) * ours.cells[1] * ours.cells[2]);
    const uint32_t number = ours.call(smokegrid_build_majorant, ours.medium, size_t(18), ours.corners, size_t(6), ours.cells, size_t(3),
        figures.data(), figures.size());
    counts.built += number == 0;
    counts.rounded += number == 17;
    const bool due = number == 0 || (!made.mustBuild && (number == 17 || number == 16));
    tally.count(due, made.name + ": the build is refused " + std::to_string(number));
    if (number != 0) return;
    const auto *grid = made.handle.grid<float>();
    const float greatest = *std::max_element(figures.begin(), figures.end());
    tally.count(greatest == grid->tree().root().maximum(), made.name + ": the greatest figure is " + std::to_string(greatest));
}

void compareCounts(Tally &tally, const std::string &name, const Loaded &ours, const nanovdb::FloatGrid &grid)
{
    const auto &tree = grid.tree();
    const uint64_t due[4] = {tree.root().tileCount(), tree.nodeCount(2), tree.nodeCount(1), tree.nodeCount(0)};
    for (int i = 0; i < 4; ++i) tally.count(ours.counts[i] == due[i], name + ": count " + std::to_string(i));
    const nanovdb::CoordBBox box = grid.indexBBox();
    for (int axis = 0; axis < 3; ++axis) {
        tally.count(ours.corners[axis] == box.min()[axis] && ours.corners[3 + axis] == box.max()[axis], name + ": index box");
        const float low = float(grid.worldBBox().min()[axis]), high = float(grid.worldBBox().max()[axis]);
        tally.count(sameBits(ours.medium[axis], low) && sameBits(ours.medium[3 + axis], high), name + ": world box");
    }
    tally.count(sameBits(ours.background, tree.background()), name + ": background");
}

// With the mark of newer exporters a grid loads the same, and is refused by the same number.
void compareMark(Tally &tally, Counts &counts, const Made &made, const Loaded &ours)
{
    std::vector<uint8_t> bytes = bytesOf(made.handle);
    std::memcpy(bytes.data(), "NanoVDB1", 8);
    tally.count(ours.same(Loaded(bytes)), made.name + ": with the newer mark");
    ++counts.marked;
}

void compareGrid(Tally &tally, Counts &counts, const Made &made, Random &random)
{
    const Loaded ours(bytesOf(made.handle));
    compareMark(tally, counts, made, ours);
    tally.count(ours.number == made.decode,
        made.name + ": decode " + std::to_string(ours.number) + ", due " + std::to_string(made.decode));
    if (ours.number != 0 || made.decode != 0) return;
    const auto &grid = *made.handle.grid<float>();
    compareCounts(tally, made.name, ours, grid);
    tally.count(ours.call(smokegrid_validate_density) == 0, made.name + ": validate_density");
    compareLookups(tally, counts, made.name, ours, grid, random);
    compareBoxes(tally, counts, made.name, ours, grid, random);
    compareBuild(tally, counts, made, ours);
    std::printf("%s: %zu bytes, nodes %llu %llu %llu %llu\n", made.name.c_str(), size_t(made.handle.size()),
        (unsigned long long)ours.counts[0], (unsigned long long)ours.counts[1], (unsigned long long)ours.counts[2],
        (unsigned long long)ours.counts[3]);
}

// The grid that ships is the one that the builder makes.
void compareSample(Tally &tally, const char *path)
{
    std::ifstream file(path, std::ios::binary);
    const std::vector<uint8_t> shipped((std::istreambuf_iterator<char>(file)), std::istreambuf_iterator<char>());
    tally.count(shipped == bytesOf(plume()), std::string(path) + " is not what tests/nanovdb/sample.cpp makes");
}

} // namespace

int main(int count, char **words)
{
    Tally tally;
    Counts counts;
    if (count == 4) counts.asked = std::atoi(words[3]);
    if (count < 3 || count > 4 || counts.asked < 1) {
        std::fprintf(stderr, "usage: nanovdb-test SAMPLE FOLDER [LOOKUPS]\n");
        return 2;
    }
    Random random(1);
    compareLayout(tally);
    compareSample(tally, words[1]);
    for (const Made &made : fogs()) compareGrid(tally, counts, made, random);
    for (const Made &made : refused()) compareGrid(tally, counts, made, random);
    compareFiles(tally, words[2]);
    std::printf("%ld lookups beside getValue, %ld differ, %ld in smoke; %ld box maxima\n", counts.lookups, counts.differ,
        counts.smoky, counts.boxes);
    std::printf("levels of these: %ld background, %ld root tile, %ld upper tile, %ld lower tile, %ld leaf\n", counts.levels[0],
        counts.levels[1], counts.levels[2], counts.levels[3], counts.levels[4]);
    for (int level = 0; level < 5; ++level) tally.count(counts.levels[level] > 0, "no lookup at level " + std::to_string(level));
    std::printf("%ld grids built, %ld refused by rounding (17)\n", counts.built, counts.rounded);
    std::printf("%ld grids loaded with the newer mark too\n", counts.marked);
    std::printf("%ld passed, %ld failed\n", tally.passed, tally.failed);
    return tally.failed != 0;
}
