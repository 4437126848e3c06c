/*
 * Splits the side bands of standard input without copying them, and prints one line: `packets bytes checksum`. Bytes of the pack (band 1)
 * and of the progress (band 2) are counted where they are: those of one packet that are in a chunk count as a packet does, and a packet
 * with nothing on its band does not count. The first five bytes of a packet are gathered only if a chunk ends among them. Any other packet
 * is gathered whole, and counts as in packets.c. This is what `PacketReader::feed_band` is measured against; crates/bench_machines prints
 * the same line after the word `bands`, if it reads the same chunks.
 */
#include <errno.h>
#include <inttypes.h>
#include <stdbool.h>
#include <stddef.h>
#include <stdint.h>
#include <stdio.h>
#include <unistd.h>

#include "digits.h"

#define BAND_BYTES (HEAD_BYTES + 1)

enum band { PACK = 1, PROGRESS = 2 };

static unsigned char piece[PIECE_BYTES], hold[PACKET_BYTES];
static size_t held;              /* the bytes of the open packet that are in the hold */
static size_t left;              /* those that are still to pass */
static uint64_t offset, next;    /* where the packet begins whose bytes pass or passed last, and where the next one begins */
static uint64_t packets, bytes, checksum;

static void count(uint64_t mark, size_t length)
{
	packets++;
	bytes += length;
	checksum = checksum * 31 + mark + length;
}

static bool refuse(const char *name, uint64_t place)
{
	fprintf(stderr, "bench_machines: %s at %" PRIu64 "\n", name, place);
	return false;
}

/* The number in these digits of the packet at `next`, or -1 if they are refused. */
static int number_of(const unsigned char *digits, size_t length)
{
	int number = 0;

	for (size_t i = 0; i < length; i++) {
		int value = digit_value[digits[i]];
		if (value < 0)
			return refuse("BadDigit", next + i) - 1;
		number = number * 16 + value;
	}
	if (length == HEAD_BYTES && number == 3)
		return refuse("BadLength", next) - 1;
	if (number > PACKET_BYTES)
		return refuse("TooLong", next) - 1;
	return number;
}

static bool passes(unsigned char band)
{
	return band == PACK || band == PROGRESS;
}

/* Counts the bytes of the chunk that have to pass. */
static size_t pass(const unsigned char *at, size_t run)
{
	if (run > left)
		run = left;
	if (run > 0)
		count((uint64_t)at[0] * 65536, run);
	left -= run;
	return run;
}

/* Begins a packet whose bytes pass, after its band's byte. */
static size_t begin_to_pass(int number, const unsigned char *at, size_t run)
{
	held = 0;
	left = (size_t)number - BAND_BYTES;
	offset = next;
	next += (uint64_t)number;
	return pass(at, run);
}

/* Fills the hold up to `want` bytes, as far as the chunk has them. */
static size_t hold_more(const unsigned char *at, size_t run, size_t want)
{
	if (run > want - held)
		run = want - held;
	memcpy(hold + held, at, run);
	held += run;
	return run;
}

/* Continues with a packet that is gathered, or whose band is not known. */
static size_t gather_on(const unsigned char *at, size_t run)
{
	size_t used = held < HEAD_BYTES ? hold_more(at, run, HEAD_BYTES) : 0;
	int number = number_of(hold, held < HEAD_BYTES ? held : HEAD_BYTES);

	if (number < 0)
		return 0;
	if (held < HEAD_BYTES)
		return used;
	if (number < HEAD_BYTES) {
		count(UINT64_C(0x1000000) + (uint64_t)number, 0);
		held = 0;
		next += HEAD_BYTES;
		return used;
	}
	if (held == HEAD_BYTES && number > HEAD_BYTES) {
		if (used == run)
			return used;
		if (passes(at[used])) {
			used++;
			return used + begin_to_pass(number, at + used, run - used);
		}
	}
	used += hold_more(at + used, run - used, (size_t)number);
	if (held == (size_t)number) {
		uint64_t first = number > HEAD_BYTES ? hold[HEAD_BYTES] : 0;
		count(first * 65536, (size_t)number - HEAD_BYTES);
		held = 0;
		next += (uint64_t)number;
	}
	return used;
}

/* Reads on, at most to the end of a packet. Returns how many bytes were used: none if the stream is refused. */
static size_t split(const unsigned char *at, size_t run)
{
	if (left > 0)
		return pass(at, run);
	if (held == 0 && run >= BAND_BYTES && passes(at[HEAD_BYTES])) {
		int number = number_of(at, HEAD_BYTES);
		if (number < 0)
			return 0;
		if (number > HEAD_BYTES)
			return BAND_BYTES + begin_to_pass(number, at + BAND_BYTES, run - BAND_BYTES);
	}
	return gather_on(at, run);
}

int main(void)
{
	ssize_t got;

	prepare_digits();
	while ((got = read(STDIN_FILENO, piece, sizeof piece)) != 0) {
		if (got < 0 && errno == EINTR)
			continue;
		if (got < 0)
			return 1;
		for (size_t at = 0, used; at < (size_t)got; at += used) {
			used = split(piece + at, (size_t)got - at);
			if (used == 0)
				return 1;
		}
	}
	if (held > 0 || left > 0)
		return !refuse("Truncated", left > 0 ? offset : next);
	printf("%" PRIu64 " %" PRIu64 " %" PRIu64 "\n", packets, bytes, checksum);
	return 0;
}
