// Grids from NanoVDB's own builders.
#ifndef GRIDS_H
#define GRIDS_H
#include <nanovdb/util/GridHandle.h>

#include <string>
#include <vector>

struct Made {
    std::string name;
    nanovdb::GridHandle<> handle;
    uint32_t decode = 0;     // the number due
    bool mustBuild = false;  // otherwise rounding may refuse the build (17)
};

// Fog volumes as they come, moved and scaled, and grids set voxel by voxel.
std::vector<Made> fogs();

// Grids that are no densities, each with the number due.
std::vector<Made> refused();

// The grid that ships as samples/plume.grid.
nanovdb::GridHandle<> plume();

#endif
