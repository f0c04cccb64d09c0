/* Bytes drawn one after the other, the same ones in every run. */
#ifndef DRAWN_H
#define DRAWN_H

#include <stdint.h>

uint8_t draw(void);

#endif
