#include "grids.h"

#include <nanovdb/util/GridBuilder.h>
#include <nanovdb/util/Primitives.h>

#include <cmath>
#include <limits>

namespace {

using nanovdb::Coord;
using nanovdb::CoordBBox;
using nanovdb::GridClass;
using nanovdb::Vec3d;
using nanovdb::Vec3f;
using Builder = nanovdb::GridBuilder<float>;

// Where a shape stands: its centre, the size of a voxel and the grid's origin, all in world units.
struct Stand {
    const char *name;
    Vec3f centre;
    double voxel;
    Vec3d origin;
};

// Around the origin a shape has blocks of both signs on every axis.
const Stand STANDS[] = {
    {"at the origin", Vec3f(0.0f), 1.0, Vec3d(0.0)},
    {"moved", Vec3f(-3000.0f, 4100.0f, 60.0f), 1.0, Vec3d(0.0)},
    {"finer voxels", Vec3f(5.0f, -2.0f, 0.5f), 0.25, Vec3d(0.0)},
    {"coarser voxels, another origin", Vec3f(-100.0f, 0.0f, 8000.0f), 2.0, Vec3d(16.0, -8.0, 4.0)},
    {"voxels of 0.3, another origin", Vec3f(1.0f, 2.0f, 3.0f), 0.3, Vec3d(0.1, -0.7, 3.3)},
};

void shapes(std::vector<Made> &made, const Stand &at)
{
    const float size = float(at.voxel);
    const auto name = [&](const char *shape) { return std::string(shape) + ", " + at.name; };
    const bool plain = at.voxel == 1.0;
    made.push_back({name("fog sphere"),
        nanovdb::createFogVolumeSphere<float>(30 * size, at.centre, at.voxel, 3.0, at.origin), 0, plain});
    made.push_back({name("fog torus"),
        nanovdb::createFogVolumeTorus<float>(40 * size, 12 * size, at.centre, at.voxel, 3.0, at.origin), 0, plain});
    made.push_back({name("fog box"),
        nanovdb::createFogVolumeBox<float>(50 * size, 20 * size, 70 * size, at.centre, at.voxel, 3.0, at.origin), 0, plain});
    made.push_back({name("fog octahedron"),
        nanovdb::createFogVolumeOctahedron<float>(60 * size, at.centre, at.voxel, 3.0, at.origin), 0, plain});
}

// One density throughout a box that holds whole nodes of every level but the root's.
nanovdb::GridHandle<> tiles()
{
    Builder builder(0.0f, GridClass::FogVolume);
    const auto halves = [](const Coord &at) { return at[0] < 0 ? 0.75f : 0.5f; };
    builder(halves, CoordBBox(Coord(-137, -5, -130), Coord(261, 270, 150)));
    return builder.getHandle(1.0, Vec3d(0.0), "tiles");
}

// Single voxels in far blocks of every sign, over a background that is not zero. NanoVDB works out the world box from one past
// the greatest coordinate, which must not pass i32 itself.
nanovdb::GridHandle<> farVoxels()
{
    Builder builder(0.125f);
    auto voxels = builder.getAccessor();
    float value = 1.0f;
    const int low = std::numeric_limits<int>::min(), high = std::numeric_limits<int>::max() - 1;
    const int ends[] = {low, -524288, -4097, -1, 0, 4096, 1 << 20, high};
    for (int x : ends) {
        for (int y : {low, -1, high}) voxels.setValue(Coord(x, y, x / 2), value += 0.5f);
    }
    return builder.getHandle(1.0, Vec3d(0.0), "far voxels");
}

nanovdb::GridHandle<> one(float value, GridClass kind)
{
    Builder builder(0.0f, kind);
    builder.getAccessor().setValue(Coord(1, 2, 3), value);
    builder.getAccessor().setValue(Coord(5, 6, 7), 1.0f);
    return builder.getHandle(1.0, Vec3d(0.0), "one");
}

// A map with a rotation about z.
nanovdb::GridHandle<> rotated()
{
    Builder builder(0.0f, GridClass::FogVolume);
    builder.getAccessor().setValue(Coord(1, 2, 3), 1.0f);
    builder.getAccessor().setValue(Coord(5, 6, 7), 1.0f);
    const double mat[3][3] = {{0.6, -0.8, 0.0}, {0.8, 0.6, 0.0}, {0.0, 0.0, 1.0}};
    const double inverse[3][3] = {{0.6, 0.8, 0.0}, {-0.8, 0.6, 0.0}, {0.0, 0.0, 1.0}};
    nanovdb::Map map;
    map.set(mat, inverse, Vec3d(0.0), 1.0);
    return builder.getHandle(map, "rotated");
}

} // namespace

std::vector<Made> fogs()
{
    std::vector<Made> made;
    for (const Stand &at : STANDS) shapes(made, at);
    made.push_back({"tiles of every level", tiles(), 0, true});
    made.push_back({"far voxels", farVoxels(), 0, false});
    made.push_back({"plume", plume(), 0, true});
    return made;
}

std::vector<Made> refused()
{
    const float nan = std::numeric_limits<float>::quiet_NaN();
    std::vector<Made> made;
    made.push_back({"level set sphere", nanovdb::createLevelSetSphere<float>(20.0f), 3});
    made.push_back({"fog sphere of doubles", nanovdb::createFogVolumeSphere<double>(20.0), 3});
    made.push_back({"no voxels", Builder(0.0f, GridClass::FogVolume).getHandle(1.0, Vec3d(0.0), "none"), 4});
    made.push_back({"a NaN", one(nan, GridClass::FogVolume), 12});
    made.push_back({"a rotation", rotated(), 13});
    made.push_back({"a negative density", one(-1.0f, GridClass::Unknown), 15});
    return made;
}

// Smoke that rises from a fire and spreads below the ceiling of a hall of 24 voxels of 0.25 a side.
nanovdb::GridHandle<> plume()
{
    Builder builder(0.0f, GridClass::FogVolume);
    const auto smoke = [](const Coord &at) {
        const int x = at[0] - 11, y = at[1] - 9, height = at[2];
        const int wide = height < 18 ? 4 + height / 4 : 40;
        const int far = x * x + y * y;
        if (far >= wide * wide) return 0.0f;
        return float(wide * wide - far) / float(wide * wide) * float(32 - height) / 32.0f;
    };
    builder(smoke, CoordBBox(Coord(0), Coord(23)));
    return builder.getHandle(0.25, Vec3d(0.0), "density");
}
