#include "says.h"
SAYS("late")

int left(void);
int late(void) { return left(); }
