/*
 * Lists the packets of standard input, a line for each, as `git2show show` does: its offset, its kind, and the length and bytes of its
 * payload. The first malformed packet is reported by name and offset, and ends it.
 *
 *     packets [BYTES]
 *
 * BYTES is how many bytes are read at a time: at most 65,536, which is the default.
 */
#include <gitwire.h>

#include <inttypes.h>
#include <stdio.h>
#include <stdlib.h>

#include "shown.h"

#define MOST_BYTES 65536
#define MOST_PACKETS 64

static void show(const gitwire_answer *packet, const uint8_t *payload)
{
	printf("%" PRIu64 " ", packet->offset);
	switch (packet->kind) {
	case GITWIRE_FLUSH:
		puts("flush");
		return;
	case GITWIRE_DELIM:
		puts("delim");
		return;
	case GITWIRE_RESPONSE_END:
		puts("end");
		return;
	default:
		printf("data %zu%s", packet->length, packet->length > 0 ? " " : "");
		show_bytes(stdout, payload, packet->length);
		putchar('\n');
	}
}

static int report(const char *what)
{
	fprintf(stderr, "packets: %s\n", what);
	return 1;
}

/* Reports an error by its name and offset. */
static int refuse(gitwire_answer answer)
{
	fflush(stdout);
	fprintf(stderr, "packets: %s at %" PRIu64 "\n", gitwire_fault_name(answer.fault), answer.offset);
	return 1;
}

/* Lists all packets, and returns the exit status. */
static int list(gitwire_packet_reader *reader, size_t most)
{
	static uint8_t bytes[MOST_BYTES];
	static gitwire_answer packets[MOST_PACKETS];
	gitwire_answer answer;
	size_t length;

	while ((length = fread(bytes, 1, most, stdin)) > 0) {
		for (size_t used = 0; used < length; used += answer.used) {
			const uint8_t *chunk = bytes + used;

			answer = gitwire_packet_reader_packets_in_place(reader, chunk, length - used, packets, MOST_PACKETS);
			const uint8_t *held = gitwire_packet_reader_held(reader);
			for (size_t i = 0; i < answer.length; i++)
				show(&packets[i], gitwire_payload(&packets[i], chunk, held));
			if (answer.kind == GITWIRE_FAILED)
				return refuse(answer);
		}
	}
	if (ferror(stdin))
		return report("the input cannot be read");
	answer = gitwire_packet_reader_close(reader);
	return answer.kind == GITWIRE_DONE ? 0 : refuse(answer);
}

/* The number that a word is, or 0. */
static size_t number_of(const char *word)
{
	char *end;
	size_t number = strtoul(word, &end, 10);

	return *end == 0 ? number : 0;
}

int main(int count, char **words)
{
	size_t most = count > 1 ? number_of(words[1]) : MOST_BYTES;
	gitwire_packet_reader *reader;

	if (most < 1 || most > MOST_BYTES) {
		fputs("usage: packets [BYTES]\n", stderr);
		return 2;
	}
	if (gitwire_packet_reader_new(&reader) != GITWIRE_DONE)
		return report("no memory");
	int status = list(reader, most);
	gitwire_packet_reader_free(reader);
	return fflush(stdout) != 0 || ferror(stdout) ? report("the output cannot be written") : status;
}
