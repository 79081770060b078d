/* Calls a function that no library has. */
#include "plugin.h"

int nowhere(int number);

static int apply(int number) { return nowhere(number); }
const struct plugin plugin = { "torn", apply };
