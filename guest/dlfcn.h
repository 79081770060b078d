#include "ldso.h"
