#include "plugin.h"

static int apply(int number) { return 2 * number; }
const struct plugin plugin = { "double", apply };
