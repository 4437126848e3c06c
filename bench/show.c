/*
 * Prints a line for each packet of standard input, as `git2show show` does: its offset, its kind and, for data, its
 * length and its payload, escaped. This is what the program is measured against, and compared with byte for byte.
 */
#include <stdlib.h>

#include "pkt_line.h"
#include "write_whole.h"

#define BLOCK 32                 /* payload bytes that are looked at together */
#define OUT_BYTES 65536
#define ROOM 128                 /* more than the beginning of a line, or an escaped block with its LF */

static struct reader reader;
static char out[OUT_BYTES];
static size_t filled;

static char escape[256][4];      /* what is written for a byte */
static unsigned char escape_length[256];

static bool is_plain(unsigned char byte)
{
	return byte >= 0x20 && byte <= 0x7e && byte != '\\';
}

static void prepare_escapes(void)
{
	for (int byte = 0; byte < 256; byte++) {
		char text[5];
		int length;
		if (is_plain((unsigned char)byte))
			length = snprintf(text, sizeof text, "%c", byte);
		else if (byte == '\n')
			length = snprintf(text, sizeof text, "\\n");
		else if (byte == '\\')
			length = snprintf(text, sizeof text, "\\\\");
		else
			length = snprintf(text, sizeof text, "\\x%02x", byte);
		memcpy(escape[byte], text, sizeof escape[byte]);
		escape_length[byte] = (unsigned char)length;
	}
}

static void write_out(void)
{
	if (!write_whole(out, filled)) {
		fputs("git2show: WriteFault\n", stderr);
		exit(1);
	}
	filled = 0;
}

static void make_room(void)
{
	if (OUT_BYTES - filled < ROOM)
		write_out();
}

static void put_text(const char *text)
{
	size_t length = strlen(text);
	memcpy(out + filled, text, length);
	filled += length;
}

static void put_number(uint64_t number)
{
	static const char pairs[] =
		"0001020304050607080910111213141516171819202122232425262728293031323334353637383940414243444546474849"
		"5051525354555657585960616263646566676869707172737475767778798081828384858687888990919293949596979899";
	char digits[20];
	size_t at = sizeof digits;

	while (number >= 100) {
		at -= 2;
		memcpy(digits + at, pairs + number % 100 * 2, 2);
		number /= 100;
	}
	if (number >= 10) {
		at -= 2;
		memcpy(digits + at, pairs + number * 2, 2);
	} else {
		digits[--at] = (char)('0' + number);
	}
	memcpy(out + filled, digits + at, sizeof digits - at);
	filled += sizeof digits - at;
}

static void put_escaped(const unsigned char *bytes, size_t length)
{
	for (size_t i = 0; i < length; i++) {
		memcpy(out + filled, escape[bytes[i]], 4);
		filled += escape_length[bytes[i]];
	}
}

/* Whole blocks of plain bytes are copied at once; gcc makes vector instructions of the test. */
static void put_payload(const unsigned char *payload, size_t length)
{
	size_t at = 0;

	while (length - at >= BLOCK) {
		const unsigned char *block = payload + at;
		unsigned char other = 0;
		for (size_t i = 0; i < BLOCK; i++)
			other |= (unsigned char)!((block[i] >= 0x20) & (block[i] <= 0x7e) & (block[i] != '\\'));
		make_room();
		if (other) {
			put_escaped(block, BLOCK);
		} else {
			memcpy(out + filled, block, BLOCK);
			filled += BLOCK;
		}
		at += BLOCK;
	}
	make_room();
	put_escaped(payload + at, length - at);
}

static void put_line(enum packet packet, const struct reader *r)
{
	static const char *const words[] = { " flush", " delim", " end", " data " };

	make_room();
	put_number(r->offset);
	put_text(words[packet]);
	if (packet == DATA) {
		put_number(r->length);
		if (r->length > 0) {
			put_text(" ");
			put_payload(payload_of(r), r->length);
		}
	}
	make_room();
	put_text("\n");
}

int main(void)
{
	enum packet packet;

	prepare_digits();
	prepare_escapes();
	while ((packet = next_packet(&reader)) != NO_PACKET)
		put_line(packet, &reader);
	write_out();
	return tell_fault(&reader, "git2show");
}
