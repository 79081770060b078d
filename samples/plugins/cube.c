/* Needs a library of its own, which comes and goes with it. */
#include "plugin.h"

int power(int base, int exponent);

static int apply(int number) { return power(number, 3); }
const struct plugin plugin = { "cube", apply };
