#define ME 0
#define MISTAKEN
#include "lock.h"
