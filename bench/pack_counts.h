/* What is counted of a pack, however it is cut: its bytes, and a checksum of those at the multiples of 65,536. */
#ifndef PACK_COUNTS_H
#define PACK_COUNTS_H

#include <inttypes.h>
#include <stddef.h>
#include <stdint.h>
#include <stdio.h>

#define MARKED_BYTES 65536       /* more than a packet has: at most one byte of it is marked */

static uint64_t pack_bytes, pack_checksum, pack_mark;

static void count_pack(const unsigned char *pack, size_t length)
{
	if (pack_mark - pack_bytes < length) {
		pack_checksum = pack_checksum * 31 + pack[pack_mark - pack_bytes];
		pack_mark += MARKED_BYTES;
	}
	pack_bytes += length;
}

static void print_counts(void)
{
	printf("%" PRIu64 " %" PRIu64 "\n", pack_bytes, pack_checksum);
}

#endif
