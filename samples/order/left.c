#include "says.h"
SAYS("left")

int base(void);
int left(void) { return 10 + base(); }
