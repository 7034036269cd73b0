#define ME 1
#define MISTAKEN
#include "lock.h"
