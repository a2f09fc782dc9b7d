// The C interface over vectors.
#ifndef LOADER_H
#define LOADER_H
#include "smokegrid.h"

#include <cstring>
#include <vector>

struct Loaded {
    uint32_t number = 0; // of the decode
    float background = 0;
    std::vector<int32_t> blocks;
    std::vector<uint32_t> rootLinks, upperLinks, lowerLinks;
    std::vector<float> rootValues, upperValues, lowerValues, leafValues;
    std::vector<uint64_t> work;
    uint64_t counts[4] = {};
    float medium[18] = {};
    int32_t corners[6] = {};
    uint32_t cells[3] = {};

    // Tables as long as the bytes say: node counts at 704, tile count at 24 of the root.
    explicit Loaded(const std::vector<uint8_t> &bytes)
    {
        const auto word = [&](size_t at) {
            uint32_t field = 0;
            if (at + 4 <= bytes.size()) std::memcpy(&field, &bytes[at], 4);
            return size_t(field);
        };
        const size_t leaf = word(704), lower = word(708), upper = word(712), roots = word(672 + word(696) + 24);
        blocks.resize(3 * roots);
        rootLinks.resize(roots), rootValues.resize(roots);
        upperLinks.resize(32768 * upper), upperValues.resize(32768 * upper);
        lowerLinks.resize(4096 * lower), lowerValues.resize(4096 * lower);
        leafValues.resize(512 * leaf);
        work.resize(4 * (2 + upper + lower + leaf));
        number = smokegrid_decode_density_grid(bytes.data(), bytes.size(), blocks.data(), blocks.size(),
            rootLinks.data(), rootLinks.size(), rootValues.data(), rootValues.size(), upperLinks.data(), upperLinks.size(),
            upperValues.data(), upperValues.size(), lowerLinks.data(), lowerLinks.size(), lowerValues.data(),
            lowerValues.size(), leafValues.data(), leafValues.size(), work.data(), work.size(), counts, 4, &background,
            medium, 18, corners, 6, cells, 3);
    }

    // Bit for bit, and every table with its length.
    bool same(const Loaded &other) const
    {
        const auto bits = [](const auto &a, const auto &b) {
            return a.size() == b.size() && std::memcmp(a.data(), b.data(), a.size() * sizeof(a[0])) == 0;
        };
        return number == other.number && std::memcmp(&background, &other.background, 4) == 0 && blocks == other.blocks &&
            rootLinks == other.rootLinks && upperLinks == other.upperLinks && lowerLinks == other.lowerLinks &&
            bits(rootValues, other.rootValues) && bits(upperValues, other.upperValues) &&
            bits(lowerValues, other.lowerValues) && bits(leafValues, other.leafValues) &&
            std::memcmp(counts, other.counts, sizeof counts) == 0 && std::memcmp(medium, other.medium, sizeof medium) == 0 &&
            std::memcmp(corners, other.corners, sizeof corners) == 0 && std::memcmp(cells, other.cells, sizeof cells) == 0;
    }

    template <typename Function, typename... Arguments>
    uint32_t call(Function function, Arguments... arguments) const
    {
        return function(background, blocks.data(), blocks.size(), rootLinks.data(), rootLinks.size(), rootValues.data(),
            rootValues.size(), upperLinks.data(), upperLinks.size(), upperValues.data(), upperValues.size(),
            lowerLinks.data(), lowerLinks.size(), lowerValues.data(), lowerValues.size(), leafValues.data(),
            leafValues.size(), arguments...);
    }
};

#endif
