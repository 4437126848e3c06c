/*
 * Writes a stream of packets to standard output:
 *
 *     generate PACKETS PAYLOAD text|binary|pack
 *
 * PACKETS data packets of PAYLOAD bytes each (1 to 65,516), then a flush packet. `text` is printable words with a LF at the end of each
 * payload, `binary` is pseudo-random bytes. `pack` is the input of a client that fetches: an advertisement, and a response whose packets
 * have PAYLOAD pseudo-random bytes each (1 to 65,515) on the pack's band. The same arguments always give the same bytes.
 */
#include <stdint.h>
#include <stdio.h>
#include <stdlib.h>
#include <string.h>

#include "write_whole.h"

#define MOST_PAYLOAD 65516
#define POOL_BYTES (256 * 1024)
#define OUT_BYTES (256 * 1024)

static unsigned char pool[POOL_BYTES];
static unsigned char out[OUT_BYTES];
static size_t filled;

/* The generator xorshift64* of Sebastiano Vigna. */
static uint64_t next_random(void)
{
	static uint64_t state = UINT64_C(0x9e3779b97f4a7c15);
	state ^= state >> 12;
	state ^= state << 25;
	state ^= state >> 27;
	return state * UINT64_C(0x2545f4914f6cdd1d);
}

static void fill_pool(int is_text)
{
	static const char letters[] = "etaoinshrdlucmfw ETAOIN 0123456789 /-.: etaoinshrdlu aeioutnsrh ";

	for (size_t i = 0; i < POOL_BYTES; i++) {
		uint64_t random = next_random() >> 32;
		pool[i] = is_text ? (unsigned char)letters[random % (sizeof letters - 1)] : (unsigned char)random;
	}
}

static void write_out(void)
{
	if (!write_whole(out, filled))
		exit(1);
	filled = 0;
}

static void put(const void *bytes, size_t length)
{
	if (OUT_BYTES - filled < length)
		write_out();
	memcpy(out + filled, bytes, length);
	filled += length;
}

/* What comes before the packets of the pack's band. */
static void put_front(void)
{
	static const char front[] =
		"000eversion 2\n" "000cls-refs\n" "000afetch\n" "0017object-format=sha1\n" "0000"
		"000dpackfile\n";

	put(front, sizeof front - 1);
}

int main(int argc, char **argv)
{
	if (argc != 4) {
		fputs("usage: generate PACKETS PAYLOAD text|binary|pack\n", stderr);
		return 2;
	}
	uint64_t packets = strtoull(argv[1], NULL, 10);
	size_t payload = strtoul(argv[2], NULL, 10);
	int is_text = strcmp(argv[3], "text") == 0;
	int is_pack = strcmp(argv[3], "pack") == 0;
	size_t most = MOST_PAYLOAD - (size_t)is_pack;
	if (payload < 1 || payload > most || (!is_text && !is_pack && strcmp(argv[3], "binary") != 0)) {
		fputs("generate: a payload of 1 to 65516 bytes (of a pack to 65515), and text, binary or pack\n", stderr);
		return 2;
	}

	char head[6];
	snprintf(head, sizeof head, is_pack ? "%04zx\001" : "%04zx", payload + 4 + (size_t)is_pack);
	size_t head_length = strlen(head);
	fill_pool(is_text);
	if (is_pack)
		put_front();
	for (uint64_t i = 0; i < packets; i++) {
		size_t from = i * 977 % (POOL_BYTES - MOST_PAYLOAD);
		put(head, head_length);
		put(pool + from, payload - (size_t)is_text);
		if (is_text)
			put("\n", 1);
	}
	put("0000", 4);
	write_out();
	return 0;
}
