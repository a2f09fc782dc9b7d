// Files from nanovdb::io::writeGrids, with several grids and segments: each grid's part is the handle's bytes and what NanoVDB's own
// reader gives, its name is the grid's, and it loads the same.
#include "files.h"
#include "grids.h"
#include "loader.h"

#include <nanovdb/util/IO.h>

#include <fstream>
#include <iterator>
#include <utility>

namespace {

using Bytes = std::vector<uint8_t>;
using Handles = std::vector<nanovdb::GridHandle<>>;

Bytes bytesOf(const nanovdb::GridHandle<> &handle)
{
    return {handle.data(), handle.data() + handle.size()};
}

Bytes read(const std::string &path)
{
    std::ifstream file(path, std::ios::binary);
    return {std::istreambuf_iterator<char>(file), std::istreambuf_iterator<char>()};
}

struct Part {
    uint32_t number = 99;
    uint64_t start = 99, length = 99;
    Bytes bytes;
};

template <typename Function>
Part ask(Function function, const Bytes &file, uint64_t n)
{
    Part part;
    part.number = function(file.data(), file.size(), n, &part.start, &part.length);
    if (part.start <= file.size() && part.length <= file.size() - part.start) {
        part.bytes.assign(file.begin() + long(part.start), file.begin() + long(part.start + part.length));
    }
    return part;
}

bool refusedBy(const Bytes &file, uint64_t n, uint32_t number)
{
    const Part part = ask(smokegrid_grid_part, file, n), name = ask(smokegrid_grid_name, file, n);
    return part.number == number && part.start == 0 && part.length == 0 && name.number == number && name.start == 0 && name.length == 0;
}

struct Counts {
    long files = 0, segments = 0, grids = 0, bytes = 0;
};

void compareGrid(Tally &tally, const std::string &path, const Bytes &file, uint64_t n, const nanovdb::GridHandle<> &handle)
{
    const std::string what = path + ": grid " + std::to_string(n);
    const Part part = ask(smokegrid_grid_part, file, n), name = ask(smokegrid_grid_name, file, n);
    const std::string due = handle.gridMetaData()->shortGridName();
    tally.count(part.number == 0 && part.bytes == bytesOf(handle), what + ": the part is not the handle's bytes");
    tally.count(part.bytes == bytesOf(nanovdb::io::readGrid(path, n)), what + ": NanoVDB's reader gives other bytes");
    tally.count(name.number == 0 && std::string(name.bytes.begin(), name.bytes.end()) == due + '\0', what + ": name");
    tally.count(Loaded(part.bytes).same(Loaded(bytesOf(handle))), what + ": loads otherwise");
}

// Writes the segments one after the other into one file.
void compareFile(Tally &tally, Counts &counts, const std::string &path, const std::vector<Handles> &segments)
{
    {
        std::ofstream out(path, std::ios::binary | std::ios::trunc);
        for (const Handles &handles : segments) nanovdb::io::writeGrids(out, handles);
    }
    Bytes file = read(path);
    uint64_t n = 0;
    for (const Handles &handles : segments) {
        for (const auto &handle : handles) compareGrid(tally, path, file, n++, handle);
        ++counts.segments;
    }
    ++counts.files;
    counts.grids += long(n);
    counts.bytes += long(file.size());
    tally.count(refusedBy(file, n, 21) && refusedBy(file, UINT64_MAX, 21), path + ": past the last grid");
    file.pop_back();
    tally.count(refusedBy(file, 0, 19), path + ": without its last byte");
    file.resize(file.size() + 2);
    tally.count(refusedBy(file, 0, 19), path + ": with a byte more");
}

// A segment with another codec, in its header and in each entry.
void compareCodec(Tally &tally, const std::string &path, const Handles &handles)
{
    nanovdb::io::writeGrids(path, handles);
    Bytes file = read(path);
    const auto codec = [&](size_t at) {
        const auto zip = nanovdb::io::Codec::ZIP;
        std::memcpy(&file[at], &zip, 2);
    };
    codec(14);
    tally.count(refusedBy(file, 0, 19), path + ": the header's codec alone");
    size_t entry = 16;
    for (size_t i = 0; i < handles.size(); ++i) {
        codec(entry + 168);
        uint32_t name = 0;
        std::memcpy(&name, &file[entry + 136], 4);
        entry += 176 + name;
    }
    tally.count(refusedBy(file, 0, 20) && refusedBy(file, 99, 20), path + ": every codec");
    file.resize(entry);
    tally.count(refusedBy(file, 0, 20), path + ": every codec, without bodies");
}

} // namespace

void compareFiles(Tally &tally, const std::string &folder)
{
    Counts counts;
    std::vector<Handles> segments(1);
    // One grid, then two, then three, and so on to a segment.
    for (auto make : {fogs, refused}) {
        for (Made &made : make()) {
            if (segments.back().size() == segments.size()) segments.emplace_back();
            segments.back().push_back(std::move(made.handle));
        }
    }
    compareFile(tally, counts, folder + "/all.nvdb", segments);
    compareCodec(tally, folder + "/codec.nvdb", segments[1]);
    for (size_t i = 0; i < segments.size(); ++i) {
        std::vector<Handles> one;
        one.push_back(std::move(segments[i]));
        compareFile(tally, counts, folder + "/segment.nvdb", one);
    }
    tally.count(counts.segments > counts.files && counts.grids > counts.segments, "no file of several segments or grids");
    std::printf("%ld files from NanoVDB's writer, %ld segments, %ld grids, %ld bytes\n", counts.files, counts.segments, counts.grids,
        counts.bytes);
    for (const char *name : {"/all.nvdb", "/codec.nvdb", "/segment.nvdb"}) std::remove((folder + name).c_str());
}
