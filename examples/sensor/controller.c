/* Sets the speed of a motor from two sensors, again and again: their sum, but no more than the motor stands. */
#define MOST 29
#include "controller.h"
