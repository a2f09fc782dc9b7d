#ifndef FILES_H
#define FILES_H
#include "tally.h"

#include <string>

// Files that NanoVDB's own writer makes in a folder, beside the parts that the library says.
void compareFiles(Tally &tally, const std::string &folder);

#endif
