/*
 * Packets: however the bytes fed are cut into chunks, the packets and offsets returned are those of their one split. The
 * first malformed packet is refused at its offset, as soon as its bytes show it. A reader that has refused stays refused:
 * each later feed and close uses nothing and reports that error again. gitwire.h states what holds for every call.
 */
#ifndef GITWIRE_PACKETS_H
#define GITWIRE_PACKETS_H

#include "base.h"

#ifdef __cplusplus
extern "C" {
#endif

typedef struct gitwire_packet_reader gitwire_packet_reader;

/* A reader of a stream before its first byte. DONE, OUT_OF_MEMORY. */
GITWIRE_LOOKED_AT
gitwire_result gitwire_packet_reader_new(gitwire_packet_reader **reader);

/*
 * Reads up to the end of a packet, the end of the chunk or the first error, whichever comes first: `used` is how many bytes
 * it used. Call it again with the others. The buffer needs at least GITWIRE_PAYLOAD_SIZE bytes.
 *
 * MORE: the chunk is used up. PAYLOAD: `length` bytes in the buffer, none for the packet `0004`. FLUSH, DELIM,
 * RESPONSE_END: these packets. `offset` is that of the packet's first digit. FAILED: BadDigit, BadLength, TooLong, and
 * after a close Truncated; StreamTooLong at the byte after 2^63 - 1 others. BUFFER_TOO_SMALL.
 */
GITWIRE_LOOKED_AT
gitwire_answer gitwire_packet_reader_feed(gitwire_packet_reader *reader, const uint8_t *chunk, size_t chunk_length,
	uint8_t *buffer, size_t buffer_length);

/*
 * Reads up to the end of the chunk or the first error, and fills the array with the packets: what gitwire_packet_reader_feed
 * would return for them, call after call, but for `used`, which counts from the chunk's beginning up to the packet's end.
 * `length` is how many there are, `used` how many bytes of the chunk were used. Payloads are not copied: each is the last
 * `length` bytes up to its packet's end, so it begins at `chunk + used - length`. Only if `used` of the packet is less than
 * its `length`, as of a first one that began in an earlier chunk, is the payload at the front of the buffer instead;
 * gitwire_payload returns where it is. The buffer needs at least GITWIRE_PAYLOAD_SIZE bytes.
 *
 * MORE: the chunk is used up; or the array is full, and the call is to be made again with the other bytes. FAILED: the error
 * after these packets; no byte was lost. BUFFER_TOO_SMALL, for an array without a place too.
 */
GITWIRE_LOOKED_AT
gitwire_answer gitwire_packet_reader_packets(gitwire_packet_reader *reader, const uint8_t *chunk, size_t chunk_length,
	gitwire_answer *packets, size_t packets_length, uint8_t *buffer, size_t buffer_length);

/*
 * The same with no buffer, so that no payload is copied for the caller: one that is not in the chunk stays in the reader, and the
 * array ends with its packet, which is then the only one. gitwire_packet_reader_held returns where it is.
 *
 * MORE: the chunk is used up; or the array is full, or its packet's payload stayed in the reader, and the call is to be made again
 * with the other bytes. FAILED: the error after these packets; no byte was lost. BUFFER_TOO_SMALL: the array has no place.
 */
GITWIRE_LOOKED_AT
gitwire_answer gitwire_packet_reader_packets_in_place(gitwire_packet_reader *reader, const uint8_t *chunk, size_t chunk_length,
	gitwire_answer *packets, size_t packets_length);

/*
 * Where the reader has the payload of the packet that it returned last, until the next call with the reader other than this one:
 * gitwire_payload takes it in the place of a buffer.
 */
GITWIRE_LOOKED_AT
const uint8_t *gitwire_packet_reader_held(gitwire_packet_reader *reader);

/*
 * Where the payload of a packet of the array is: in the chunk or in the buffer of that call, or where the reader has it. Its length
 * is the packet's `length`.
 */
GITWIRE_LOOKED_AT
const uint8_t *gitwire_payload(const gitwire_answer *packet, const uint8_t *chunk, const uint8_t *buffer);
#ifdef GITWIRE_IN_PLACE
GITWIRE_IN_PLACE const uint8_t *gitwire_payload(const gitwire_answer *packet, const uint8_t *chunk, const uint8_t *buffer)
{
	return packet->length <= packet->used ? chunk + (packet->used - packet->length) : buffer;
}
#endif

/*
 * Reports the end of the input. DONE between two packets, and nothing changes. FAILED inside a packet, with Truncated at the
 * end of the last whole packet, and for a reader that has refused, with its error.
 */
GITWIRE_GIVEN
gitwire_answer gitwire_packet_reader_close(gitwire_packet_reader *reader);

/* Frees the reader; for NULL it does nothing. */
void gitwire_packet_reader_free(gitwire_packet_reader *reader);

#ifdef __cplusplus
}
#endif

#endif
