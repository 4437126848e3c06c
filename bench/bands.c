/*
 * Answers one request for a pack as a server of Git's protocol, version 2, does, by hand:
 *
 *     bands PACK
 *
 * Reads the whole pack, advertises a version and nothing else, waits for a request, and writes the pack in packets of the pack's band, as
 * long as they may be, and a flush.
 */
#include <fcntl.h>
#include <stdio.h>
#include <stdlib.h>
#include <string.h>
#include <sys/stat.h>

#include "write_whole.h"

#define MOST_PART 65515          /* bytes of a pack that a packet takes */

static void stop(const char *why)
{
	fprintf(stderr, "bands: %s\n", why);
	exit(1);
}

static void tell(const void *bytes, size_t length)
{
	if (!write_whole(bytes, length))
		stop("the answer is not written");
}

/* Reads the whole file of this name, and sets its length. */
static unsigned char *read_file(const char *name, size_t *length)
{
	struct stat about;
	int file = open(name, O_RDONLY);

	if (file < 0 || fstat(file, &about) < 0)
		stop("no pack");
	*length = (size_t)about.st_size;
	unsigned char *bytes = malloc(*length);
	for (size_t have = 0; have < *length;) {
		ssize_t count = read(file, bytes + have, *length - have);
		if (count <= 0)
			stop("the pack is not read");
		have += (size_t)count;
	}
	return bytes;
}

int main(int count, char **arguments)
{
	static unsigned char packet[4 + 1 + MOST_PART];
	unsigned char request[4096];
	size_t length;

	if (count != 2)
		stop("the name of a pack is wanted");
	unsigned char *pack = read_file(arguments[1], &length);
	tell("000eversion 2\n0000", 18);
	if (read(STDIN_FILENO, request, sizeof(request)) <= 0)
		stop("no request");
	tell("000dpackfile\n", 13);
	for (size_t at = 0, part; at < length; at += part) {
		char head[5];

		part = length - at < MOST_PART ? length - at : MOST_PART;
		snprintf(head, sizeof(head), "%04zx", 5 + part);
		memcpy(packet, head, 4);
		packet[4] = 1;
		memcpy(packet + 5, pack + at, part);
		tell(packet, 5 + part);
	}
	tell("0000", 4);
	return 0;
}
