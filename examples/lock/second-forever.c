#define ME 1
#include "forever.h"
