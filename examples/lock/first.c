#define ME 0
#include "lock.h"
