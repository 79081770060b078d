#include "says.h"
SAYS("base")

int base(void) { return 1; }
