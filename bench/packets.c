/*
 * Counts the packets of standard input and the bytes of their payloads, and prints one line: `packets bytes checksum`.
 * The checksum takes the length and the first byte of each payload, so that no payload can go unread. This is what
 * `git_pkt::PacketReader` is measured against; crates/bench_machines prints the same line after the word `packets`.
 */
#include "pkt_line.h"

static struct reader reader;

/* What one packet adds to the checksum: for data the first byte (0 if there is none) and the length. */
static uint64_t mark(enum packet packet, const struct reader *r)
{
	if (packet != DATA)
		return UINT64_C(0x1000000) + (uint64_t)packet;
	uint64_t first = r->length ? payload_of(r)[0] : 0;
	return first * 65536 + r->length;
}

int main(void)
{
	uint64_t packets = 0, bytes = 0, checksum = 0;
	enum packet packet;

	prepare_digits();
	while ((packet = next_packet(&reader)) != NO_PACKET) {
		packets++;
		bytes += reader.length;
		checksum = checksum * 31 + mark(packet, &reader);
	}
	if (reader.fault)
		return tell_fault(&reader, "bench_machines");
	printf("%" PRIu64 " %" PRIu64 " %" PRIu64 "\n", packets, bytes, checksum);
	return 0;
}
