/* What a lookup through smokegrid.h costs before it looks anything up: the call with its arguments, and the stored value. */
#include "smokegrid.h"

uint32_t call_alone(SMOKEGRID_GRID, int32_t x, int32_t y, int32_t z, float *value)
{
    *value = background;
    return 0;
}
