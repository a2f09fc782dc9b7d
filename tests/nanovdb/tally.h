// Counts of what was compared; the first faults of each kind are written out.
#ifndef TALLY_H
#define TALLY_H
#include <cstdio>
#include <string>

struct Tally {
    long passed = 0;
    long failed = 0;

    void count(bool holds, const std::string &what)
    {
        if (holds) {
            ++passed;
            return;
        }
        if (++failed <= 20) std::printf("FAILED %s\n", what.c_str());
    }
};

#endif
