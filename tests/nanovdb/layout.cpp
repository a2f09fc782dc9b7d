// Document 01's table of places ("Bytes") beside NanoVDB.h's own structs.
#include "layout.h"

#include <nanovdb/NanoVDB.h>

#include <cstring>
#include <vector>

namespace {

using Root = nanovdb::NanoRoot<float>;
using Upper = nanovdb::NanoUpper<float>;
using Lower = nanovdb::NanoLower<float>;
using Leaf = nanovdb::NanoLeaf<float>;
using RootTile = Root::DataType::Tile;
using Tree = nanovdb::TreeData<3>;
using Grid = nanovdb::GridData;

// The place of a member, without offsetof's demand for a plain struct.
template <typename Struct, typename Member>
size_t place(Member Struct::*member)
{
    alignas(Struct) static unsigned char space[sizeof(Struct)];
    const auto *object = reinterpret_cast<const Struct *>(space);
    return size_t(reinterpret_cast<const unsigned char *>(&(object->*member)) - space);
}

template <typename Member>
size_t inMap(Member nanovdb::Map::*member)
{
    return place(&Grid::mMap) + place(member);
}

struct Row {
    const char *name;
    size_t header; // what NanoVDB.h has
    size_t due;    // what document 01 says
};

std::vector<Row> gridRows()
{
    return {
        {"grid: bytes", sizeof(Grid), 672},
        {"grid: mark", place(&Grid::mMagic), 0},
        {"grid: version", place(&Grid::mVersion), 16},
        {"grid: index", place(&Grid::mGridIndex), 24},
        {"grid: count", place(&Grid::mGridCount), 28},
        {"grid: size", place(&Grid::mGridSize), 32},
        {"grid: inverse map", inMap(&nanovdb::Map::mInvMatF), 332},
        {"grid: inverse map, bytes", sizeof(nanovdb::Map::mInvMatF), 9 * 4},
        {"grid: translation", inMap(&nanovdb::Map::mVecF), 368},
        {"grid: translation, bytes", sizeof(nanovdb::Map::mVecF), 3 * 4},
        {"grid: world box", place(&Grid::mWorldBBox), 560},
        {"grid: world box, bytes", sizeof(Grid::mWorldBBox), 6 * 8},
        {"grid: class", place(&Grid::mGridClass), 632},
        {"grid: type", place(&Grid::mGridType), 636},
        {"mark", NANOVDB_MAGIC_NUMBER, 0x304244566f6e614e},
        {"major version", NANOVDB_MAJOR_VERSION_NUMBER, 32},
        {"type Float", size_t(nanovdb::GridType::Float), 1},
        {"class Unknown", size_t(nanovdb::GridClass::Unknown), 0},
        {"class FogVolume", size_t(nanovdb::GridClass::FogVolume), 2},
        {"alignment", NANOVDB_DATA_ALIGNMENT, 32},
    };
}

std::vector<Row> rootRows()
{
    using Data = Root::DataType;
    return {
        {"tree: bytes", sizeof(Tree), 736 - 672},
        {"tree: the root's place", 672 + place(&Tree::mNodeOffset) + 3 * sizeof(uint64_t), 696},
        {"tree: node counts", 672 + place(&Tree::mNodeCount), 704},
        {"tree: node counts, bytes", sizeof(Tree::mNodeCount), 3 * 4},
        {"root: bytes without tiles", sizeof(Data), 64},
        {"root: index box", place(&Data::mBBox), 0},
        {"root: index box, bytes", sizeof(Data::mBBox), 6 * 4},
        {"root: tile count", place(&Data::mTableSize), 24},
        {"root: background", place(&Data::mBackground), 28},
        {"tile: bytes", sizeof(RootTile), 32},
        {"tile: key", place(&RootTile::key), 0},
        {"tile: child", place(&RootTile::child), 8},
        {"tile: value", place(&RootTile::value), 20},
        {"key: bytes", sizeof(RootTile::key), 8},
    };
}

std::vector<Row> nodeRows()
{
    using UpperData = Upper::DataType;
    using LowerData = Lower::DataType;
    using LeafData = Leaf::DataType;
    return {
        {"upper: level", Upper::LEVEL, 2},
        {"upper: entries", Upper::SIZE, 32768},
        {"upper: child mask", place(&UpperData::mChildMask), 4128},
        {"upper: table", sizeof(UpperData) - sizeof(UpperData::mTable), 8256},
        {"upper: bytes", sizeof(UpperData), 270400},
        {"upper: bytes of an entry", sizeof(UpperData::Tile), 8},
        {"lower: level", Lower::LEVEL, 1},
        {"lower: entries", Lower::SIZE, 4096},
        {"lower: child mask", place(&LowerData::mChildMask), 544},
        {"lower: table", sizeof(LowerData) - sizeof(LowerData::mTable), 1088},
        {"lower: bytes", sizeof(LowerData), 33856},
        {"lower: bytes of an entry", sizeof(LowerData::Tile), 8},
        {"leaf: level", Leaf::LEVEL, 0},
        {"leaf: entries", Leaf::SIZE, 512},
        {"leaf: table", place(&LeafData::mValues), 96},
        {"leaf: bytes", sizeof(LeafData), 2144},
    };
}

// Keys and slots of the coordinates of document 01.
std::vector<Row> coordinateRows()
{
    const nanovdb::Coord below(-1, -1, -1), block(-4096, 0, 0);
    return {
        {"key of block (-1, 0, 0)", Root::DataType::CoordToKey(block), 0x3ffffc0000000000},
        {"upper slot of (-1, -1, -1)", Upper::CoordToOffset(below), 32767},
        {"lower slot of (-1, -1, -1)", Lower::CoordToOffset(below), 4095},
        {"leaf slot of (-1, -1, -1)", Leaf::CoordToOffset(below), 511},
        {"upper slot of (128, 256, 384)", Upper::CoordToOffset({128, 256, 384}), (1 * 32 + 2) * 32 + 3},
        {"lower slot of (8, 16, 24)", Lower::CoordToOffset({8, 16, 24}), (1 * 16 + 2) * 16 + 3},
        {"leaf slot of (1, 2, 3)", Leaf::CoordToOffset({1, 2, 3}), (1 * 8 + 2) * 8 + 3},
    };
}

// Mask bit i is bit i mod 8 of byte i / 8.
bool maskBit(uint32_t i)
{
    nanovdb::Mask<3> mask;
    mask.setOff();
    mask.setOn(i);
    unsigned char bytes[sizeof(mask)], due[sizeof(mask)] = {};
    std::memcpy(bytes, &mask, sizeof(mask));
    due[i / 8] = static_cast<unsigned char>(1u << i % 8);
    return std::memcmp(bytes, due, sizeof(mask)) == 0;
}

void maskBits(Tally &tally)
{
    bool same = true;
    for (uint32_t i = 0; i < 512; ++i) same = same && maskBit(i);
    tally.count(same, "mask bits");
}

} // namespace

void compareLayout(Tally &tally)
{
    const long before = tally.passed + tally.failed;
    for (const auto &rows : {gridRows(), rootRows(), nodeRows(), coordinateRows()}) {
        for (const Row &row : rows) {
            const std::string difference =
                ": NanoVDB.h " + std::to_string(row.header) + ", document 01 " + std::to_string(row.due);
            tally.count(row.header == row.due, row.name + difference);
        }
    }
    maskBits(tally);
    std::printf("layout: %ld places, sizes, marks, keys and slots\n", tally.passed + tally.failed - before);
}
