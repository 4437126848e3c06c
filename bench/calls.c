/*
 * Counts the packets of standard input and the bytes of their payloads, and prints one line, as packets.c does: by calls of the library for
 * C. The cost of the calls is the time that this takes more than crates/bench_machines after the word `packets`, which is the same loop
 * over the same reader in its own language.
 *
 * Both read 64 KiB at a time, and the reader gathers each packet in its hold, where bench_machines looks at it. A call of C gives
 * the packets of a chunk in an array, with their payloads where they came; one that is cut is looked at in the hold too.
 */
#include <gitwire.h>

#include <errno.h>
#include <inttypes.h>
#include <stdio.h>
#include <unistd.h>

#define CHUNK_BYTES 65536
#define MOST_PACKETS 256

static uint8_t bytes_read[CHUNK_BYTES];
static gitwire_answer listed[MOST_PACKETS];
static uint64_t packets, bytes, checksum;

/* What one packet adds to the checksum: for data the first byte (0 if there is none) and the length. */
static uint64_t mark(const gitwire_answer *packet, const uint8_t *payload)
{
	if (packet->kind != GITWIRE_PAYLOAD)
		return UINT64_C(0x1000000) + (uint64_t)(packet->kind - GITWIRE_FLUSH);
	uint64_t first = packet->length ? payload[0] : 0;
	return first * 65536 + packet->length;
}

static void count_packet(const gitwire_answer *packet, const uint8_t *payload)
{
	packets++;
	bytes += packet->length;
	checksum = checksum * 31 + mark(packet, payload);
}

static int tell_fault(gitwire_answer answer)
{
	fprintf(stderr, "bench_machines: %s at %" PRIu64 "\n", gitwire_fault_name(answer.fault), answer.offset);
	return 1;
}

int main(void)
{
	gitwire_packet_reader *reader;
	gitwire_answer answer;
	ssize_t count;

	if (gitwire_packet_reader_new(&reader) != GITWIRE_DONE)
		return 1;
	while ((count = read(STDIN_FILENO, bytes_read, sizeof bytes_read)) != 0) {
		if (count < 0 && errno == EINTR)
			continue;
		if (count < 0)
			return 1;
		for (size_t used = 0; used < (size_t)count; used += answer.used) {
			const uint8_t *chunk = bytes_read + used;

			answer = gitwire_packet_reader_packets_in_place(reader, chunk, (size_t)count - used, listed, MOST_PACKETS);
			const uint8_t *held = gitwire_packet_reader_held(reader);
			for (size_t i = 0; i < answer.length; i++)
				count_packet(&listed[i], gitwire_payload(&listed[i], chunk, held));
			if (answer.kind == GITWIRE_FAILED)
				return tell_fault(answer);
		}
	}
	answer = gitwire_packet_reader_close(reader);
	if (answer.kind == GITWIRE_FAILED)
		return tell_fault(answer);
	printf("%" PRIu64 " %" PRIu64 " %" PRIu64 "\n", packets, bytes, checksum);
	gitwire_packet_reader_free(reader);
	return 0;
}
