/* The same with a mistake: the motor stands 29. */
#define MOST 30
#include "controller.h"
