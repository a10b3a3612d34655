/* All of it in one module, as the proved library is. */
#include "diff.c"
#include "events.c"
#include "map.c"
#include "memory.c"
