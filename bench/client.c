/*
 * Reads what a server sends to a client that asked for a pack, and prints one line: `bytes checksum` of the pack. The checksum is of the
 * pack's bytes at the multiples of 65,536: so neither number depends on how a reader cuts the pack; this one cuts it by packets. This is
 * what `git_client::Client` is measured against; crates/bench_machines prints the same line after the word `client`.
 */
#include "pack_counts.h"
#include "pkt_line.h"

enum band { PACK = 1, PROGRESS = 2, FATAL = 3 };

static struct reader reader;

static bool is_line(const char *line)
{
	size_t length = strlen(line);

	return reader.length == length && memcmp(payload_of(&reader), line, length) == 0;
}

/* An error that the last packet shows. */
static bool refuse(const char *name)
{
	if (!reader.fault)
		fail(&reader, name, reader.offset);
	return false;
}

/* Reads the next packet, which is expected. Returns whether there is one. */
static bool read_packet(enum packet *packet)
{
	*packet = next_packet(&reader);
	if (*packet == NO_PACKET && !reader.fault)
		fail(&reader, "Truncated", reader.next);
	return *packet != NO_PACKET;
}

static bool read_advertisement(void)
{
	enum packet packet;

	if (!read_packet(&packet))
		return false;
	if (packet != DATA || !is_line("version 2\n"))
		return refuse("NotVersion2");
	while (read_packet(&packet) && packet == DATA)
		;
	return packet == FLUSH || refuse("UnexpectedPacket");
}

/* A packet of the packfile section, by its band. If it has nothing after the band's byte, nothing was sent. */
static bool split(void)
{
	const unsigned char *payload = payload_of(&reader);

	if (reader.length == 0)
		return refuse("NoBand");
	switch (payload[0]) {
	case PACK:
		if (reader.length > 1)
			count_pack(payload + 1, reader.length - 1);
		return true;
	case PROGRESS:
		return true;
	case FATAL:
		return refuse("RemoteFatal");
	default:
		return refuse("BadBand");
	}
}

static bool read_pack(void)
{
	enum packet packet;

	if (!read_packet(&packet))
		return false;
	if (packet != DATA || !is_line("packfile\n"))
		return refuse("UnexpectedSection");
	while (read_packet(&packet) && packet == DATA)
		if (!split())
			return false;
	return packet == FLUSH || refuse("UnexpectedPacket");
}

int main(void)
{
	prepare_digits();
	if (!read_advertisement() || !read_pack())
		return tell_fault(&reader, "bench_machines");
	print_counts();
	return 0;
}
