/*
 * Reads the packets of standard input: pkt-lines, as in gitprotocol-common(5). The input is read 64 KiB at a time, and each packet is
 * gathered, by runs, in one buffer that is as long as the longest packet.
 *
 * An error ends the reading with its name and its offset in the stream, as `git2show show` reports it.
 */
#ifndef PKT_LINE_H
#define PKT_LINE_H

#include <errno.h>
#include <inttypes.h>
#include <stdbool.h>
#include <stddef.h>
#include <stdint.h>
#include <stdio.h>
#include <string.h>
#include <unistd.h>

#include "digits.h"

enum packet { FLUSH, DELIM, RESPONSE_END, DATA, NO_PACKET };

struct reader {
	size_t at, end;          /* the bytes of the chunk that are still to be used */
	uint64_t offset;         /* where the packet in the hold begins */
	uint64_t next;           /* where the packet after it begins */
	size_t length;           /* the payload's length, 0 for a packet with none */
	const char *fault;       /* the error's name, or NULL if the input ended between two packets */
	uint64_t fault_offset;
	bool has_offset;         /* a failing read has none */
	unsigned char piece[PIECE_BYTES];
	unsigned char hold[PACKET_BYTES];
};

static inline const unsigned char *payload_of(const struct reader *r)
{
	return r->hold + HEAD_BYTES;
}

static enum packet fail(struct reader *r, const char *name, uint64_t offset)
{
	r->fault = name;
	r->fault_offset = offset;
	r->has_offset = true;
	return NO_PACKET;
}

/* Fills the hold from `have` up to `want` bytes; with fewer if the input ended or a read failed. */
static size_t gather(struct reader *r, size_t have, size_t want)
{
	while (have < want) {
		size_t run = r->end - r->at;
		if (run == 0) {
			ssize_t got;
			do
				got = read(STDIN_FILENO, r->piece, PIECE_BYTES);
			while (got < 0 && errno == EINTR);
			if (got < 0)
				r->fault = "ReadFault";
			if (got <= 0)
				return have;
			r->at = 0;
			r->end = run = (size_t)got;
		}
		if (run > want - have)
			run = want - have;
		memcpy(r->hold + have, r->piece + r->at, run);
		r->at += run;
		have += run;
	}
	return have;
}

/* The next packet, or NO_PACKET at the end of the input and at an error. */
static enum packet next_packet(struct reader *r)
{
	uint64_t offset = r->next;
	size_t have = gather(r, 0, HEAD_BYTES);
	int number = 0;

	for (size_t i = 0; i < have; i++) {
		int value = digit_value[r->hold[i]];
		if (value < 0)
			return fail(r, "BadDigit", offset + i);
		number = number * 16 + value;
	}
	if (have < HEAD_BYTES) {
		if (have == 0 || r->fault)
			return NO_PACKET;
		return fail(r, "Truncated", offset);
	}
	r->offset = offset;
	r->length = 0;
	if (number < HEAD_BYTES) {
		if (number == 3)
			return fail(r, "BadLength", offset);
		r->next = offset + HEAD_BYTES;
		return (enum packet)number;
	}
	if (number > PACKET_BYTES)
		return fail(r, "TooLong", offset);
	if (gather(r, HEAD_BYTES, (size_t)number) < (size_t)number)
		return r->fault ? NO_PACKET : fail(r, "Truncated", offset);
	r->length = (size_t)number - HEAD_BYTES;
	r->next = offset + (uint64_t)number;
	return DATA;
}

/* Reports the error, if there is one, on standard error. Returns the exit status. */
static inline int tell_fault(const struct reader *r, const char *program)
{
	if (!r->fault)
		return 0;
	if (r->has_offset)
		fprintf(stderr, "%s: %s at %" PRIu64 "\n", program, r->fault, r->fault_offset);
	else
		fprintf(stderr, "%s: %s\n", program, r->fault);
	return 1;
}

#endif
