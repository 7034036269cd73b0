#define ME 1
#define ONE_BIT
#include "forever.h"
