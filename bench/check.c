/*
 * Checks a recorded conversation as `git2show check` does, and prints the same transcript:
 *
 *     check REQUESTS < RESPONSES
 *
 * It reads requests of ls-refs and fetch, references with their attributes, and responses to fetch that have only a packfile. It refuses
 * anything else. This is what `git2show check` is measured against.
 */
#include <fcntl.h>
#include <stdlib.h>

#include "names.h"
#include "pkt_line.h"
#include "write_whole.h"

#define MOST_REQUESTS 1000
#define LINES_BYTES 65536
#define LONGEST_LINE 64200       /* two names and two object names, and what is between */

static struct reader reader;
static bool is_fetch[MOST_REQUESTS];
static size_t requests;
static char lines[LINES_BYTES];
static size_t lines_length;

static bool refuse(const char *name)
{
	if (!reader.fault)
		fail(&reader, name, reader.offset);
	return false;
}

static bool write_lines(void)
{
	bool is_written = write_whole(lines, lines_length);

	lines_length = 0;
	return is_written || refuse("WriteFault");
}

/* Makes space for one more line. */
static bool make_room(void)
{
	return LINES_BYTES - lines_length >= LONGEST_LINE || write_lines();
}

static void put(const void *text, size_t length)
{
	memcpy(lines + lines_length, text, length);
	lines_length += length;
}

static void put_text(const char *text)
{
	put(text, strlen(text));
}

/* Reads the next packet, which is expected. Returns whether there is one. */
static bool read_packet(enum packet *packet)
{
	*packet = next_packet(&reader);
	if (*packet == NO_PACKET && !reader.fault)
		fail(&reader, "Truncated", reader.next);
	return *packet != NO_PACKET;
}

/* The payload's text, without its line end. */
static size_t text_length(void)
{
	const unsigned char *payload = payload_of(&reader);

	return reader.length - (reader.length > 0 && payload[reader.length - 1] == '\n');
}

static bool is_text(const char *text)
{
	size_t length = strlen(text);

	return text_length() == length && memcmp(payload_of(&reader), text, length) == 0;
}

/* Which commands the requests have, up to their end or to a flush alone. */
static bool read_requests(void)
{
	enum packet packet;

	while (requests < MOST_REQUESTS) {
		packet = next_packet(&reader);
		if (packet == NO_PACKET)
			return !reader.fault;
		if (packet == FLUSH)
			return true;
		if (packet == DATA && is_text("command=fetch"))
			is_fetch[requests] = true;
		else if (packet != DATA || !is_text("command=ls-refs"))
			return refuse("UnknownCommand");
		requests++;
		while (read_packet(&packet) && packet != FLUSH)
			;
		if (packet != FLUSH)
			return false;
	}
	return refuse("TooMuchKept");
}

static bool hear_advertisement(void)
{
	enum packet packet;

	if (!read_packet(&packet))
		return false;
	if (packet != DATA || !is_text("version 2"))
		return refuse("NotVersion2");
	while (read_packet(&packet) && packet == DATA) {
		if (!make_room())
			return false;
		put_text("capability ");
		put(payload_of(&reader), text_length());
		put("\n", 1);
	}
	if (packet != FLUSH)
		return refuse("UnexpectedPacket");
	put_text("offered\n");
	return true;
}

/* An attribute of a reference, whose text begins with a space. */
static bool hear_attribute(const unsigned char *text, size_t length)
{
	static const char target[] = " symref-target:", peeled[] = " peeled:";
	size_t target_length = sizeof target - 1, peeled_length = sizeof peeled - 1;
	struct oid id;

	if (length >= target_length && memcmp(text, target, target_length) == 0) {
		if (ref_check(text + target_length, length - target_length))
			return refuse("BadRefName");
	} else if (length >= peeled_length && memcmp(text, peeled, peeled_length) == 0) {
		if (oid_read(0, text + peeled_length, length - peeled_length, &id))
			return refuse("BadObjectName");
	} else {
		return true;
	}
	put(text, length);
	return true;
}

static bool hear_reference(void)
{
	const unsigned char *text = payload_of(&reader), *end = text + text_length();
	const unsigned char *name = memchr(text, ' ', (size_t)(end - text)), *next;
	unsigned char digits[64];
	struct oid id;

	if (!name)
		return refuse("BadLine");
	if (oid_read(0, text, (size_t)(name - text), &id))
		return refuse("BadObjectName");
	name++;
	next = memchr(name, ' ', (size_t)(end - name));
	if (!next)
		next = end;
	if (ref_check(name, (size_t)(next - name)))
		return refuse("BadRefName");
	if (!make_room())
		return false;
	put_text("ref ");
	put(digits, oid_write(&id, digits));
	put(" ", 1);
	put(name, (size_t)(next - name));
	while (next < end) {
		const unsigned char *from = next;
		next = memchr(from + 1, ' ', (size_t)(end - from - 1));
		if (!next)
			next = end;
		if (!hear_attribute(from, (size_t)(next - from)))
			return false;
	}
	put("\n", 1);
	return true;
}

static bool put_end(uint64_t pack, uint64_t progress)
{
	char line[64];

	if (!make_room())
		return false;
	put(line, (size_t)snprintf(line, sizeof line, "end %" PRIu64 " %" PRIu64 "\n", pack, progress));
	return true;
}

static bool hear_references(void)
{
	enum packet packet;

	while (read_packet(&packet) && packet == DATA)
		if (!hear_reference())
			return false;
	return packet == FLUSH ? put_end(0, 0) : refuse("UnexpectedPacket");
}

static bool hear_pack(void)
{
	uint64_t pack = 0, progress = 0;
	enum packet packet;

	if (!read_packet(&packet))
		return false;
	if (packet != DATA || !is_text("packfile"))
		return refuse("UnexpectedSection");
	while (read_packet(&packet) && packet == DATA) {
		unsigned char band = reader.length > 0 ? *payload_of(&reader) : 0;
		if (band == 1)
			pack += reader.length - 1;
		else if (band == 2)
			progress += reader.length - 1;
		else
			return refuse(band == 3 ? "RemoteFatal" : "BadBand");
	}
	return packet == FLUSH ? put_end(pack, progress) : refuse("UnexpectedPacket");
}

static bool hear_all(void)
{
	if (!hear_advertisement())
		return false;
	for (size_t i = 0; i < requests; i++) {
		if (!make_room())
			return false;
		put_text(is_fetch[i] ? "request fetch\n" : "request ls-refs\n");
		if (!(is_fetch[i] ? hear_pack() : hear_references()))
			return false;
	}
	return next_packet(&reader) == NO_PACKET ? !reader.fault : refuse("UnexpectedPacket");
}

int main(int argc, char **argv)
{
	int responses = dup(STDIN_FILENO);
	int asked = argc == 2 ? open(argv[1], O_RDONLY) : -1;

	if (asked < 0 || dup2(asked, STDIN_FILENO) < 0) {
		fputs("usage: check REQUESTS < RESPONSES\n", stderr);
		return 2;
	}
	prepare_digits();
	if (!read_requests())
		return tell_fault(&reader, "check: requests");
	memset(&reader, 0, sizeof reader);
	dup2(responses, STDIN_FILENO);
	hear_all();
	write_lines();
	return tell_fault(&reader, "check: responses");
}
