// NanoVDB.h's lookups for the benchmark.
#include <nanovdb/NanoVDB.h>

#include <cstring>

extern "C" uint64_t nanovdb_lookups(const uint8_t *bytes, const int32_t (*coordinates)[3], size_t count)
{
    const auto *grid = reinterpret_cast<const nanovdb::FloatGrid *>(bytes);
    const auto accessor = grid->getAccessor();
    uint64_t sum = 0;
    for (size_t i = 0; i < count; ++i) {
        const float value = accessor.getValue(nanovdb::Coord(coordinates[i][0], coordinates[i][1], coordinates[i][2]));
        uint32_t bits;
        std::memcpy(&bits, &value, sizeof(bits));
        sum += bits;
    }
    return sum;
}
