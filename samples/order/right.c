#include "says.h"
SAYS("right")

int base(void);
int right(void) { return 20 + base(); }
