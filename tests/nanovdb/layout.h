#ifndef LAYOUT_H
#define LAYOUT_H
#include "tally.h"

void compareLayout(Tally &tally);

#endif
