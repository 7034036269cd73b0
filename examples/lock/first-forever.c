#define ME 0
#include "forever.h"
