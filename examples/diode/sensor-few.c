/* The sensor, with so few readings that all orders of steps can be gone through. */
#define READING_COUNT 2
#include "sensor.c"
