// Writes samples/plume.grid. usage: nanovdb-sample FILE
#include "grids.h"

#include <cstdio>
#include <fstream>

int main(int count, char **words)
{
    if (count != 2) {
        std::fprintf(stderr, "usage: nanovdb-sample FILE\n");
        return 2;
    }
    const auto grid = plume();
    std::ofstream file(words[1], std::ios::binary);
    file.write(reinterpret_cast<const char *>(grid.data()), std::streamsize(grid.size()));
    file.close();
    return file ? 0 : 1;
}
