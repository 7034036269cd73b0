#define ME 1
#include "lock.h"
