/* A process that the caller looks into and resumes. */
#include "coyotos.h"

coy_word main(void) { return 1; }
