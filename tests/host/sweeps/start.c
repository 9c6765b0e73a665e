#include "start.h"

const char *start_prefix(enum start start)
{
    return start == START_AWAKE ? "awake " : "";
}
