#include "drawn.h"

static uint32_t drawn = 1;

uint8_t draw(void)
{
    drawn = drawn * 1664525U + 1013904223U;
    return (uint8_t)(drawn >> 24);
}
