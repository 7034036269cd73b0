#define ME 0
#define ONE_BIT
#include "forever.h"
