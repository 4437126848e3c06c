/* The lengths that a reader of packets needs, and the values of the digits that begin each packet. */
#ifndef DIGITS_H
#define DIGITS_H

#include <string.h>

#define PIECE_BYTES 65536
#define PACKET_BYTES 65520
#define HEAD_BYTES 4

static signed char digit_value[256];

static void prepare_digits(void)
{
	memset(digit_value, -1, sizeof digit_value);
	for (int i = 0; i < 10; i++)
		digit_value['0' + i] = (signed char)i;
	for (int i = 0; i < 6; i++)
		digit_value['a' + i] = digit_value['A' + i] = (signed char)(10 + i);
}

#endif
