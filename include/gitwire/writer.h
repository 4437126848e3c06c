/*
 * Packets for a host that keeps its references and packs in its own way: each call writes one whole packet, or the packets
 * of an advertisement, at the front of the buffer. DONE with `length`; what is written contains its value, and no other.
 * BAD_VALUE if a number means nothing. FAILED, at offset 0, if a name or a text is not allowed there, the first from left to
 * right: BadObjectName, BadRefName, and what is stated below. BUFFER_TOO_SMALL; GITWIRE_PACKET_SIZE bytes always suffice.
 * An object name is passed as its digits, of either case, and written in lower case. gitwire.h states
 * what holds for every call.
 */
#ifndef GITWIRE_WRITER_H
#define GITWIRE_WRITER_H

#include "base.h"

#ifdef __cplusplus
extern "C" {
#endif

typedef struct gitwire_writer gitwire_writer;

/* A writer: a buffer of GITWIRE_PACKET_SIZE bytes, in which each packet is made. What a call writes depends on no earlier call.
 * DONE, OUT_OF_MEMORY. */
GITWIRE_LOOKED_AT
gitwire_result gitwire_writer_new(gitwire_writer **writer);

/* Frees the writer; for NULL it does nothing. */
void gitwire_writer_free(gitwire_writer *writer);

/* A packet of the kind PAYLOAD, FLUSH, DELIM or RESPONSE_END: a payload of more than 65,516 bytes is TooLong, and bytes with
 * another kind are BAD_VALUE. A payload without bytes is written as `0004`, which by Git's documents should not be sent. */
GITWIRE_LOOKED_AT
gitwire_answer gitwire_put_packet(gitwire_writer *writer, gitwire_result kind, const uint8_t *payload, size_t payload_length,
	uint8_t *buffer, size_t buffer_length);

/* All packets of an advertisement of this format and these features (a sum of GITWIRE_FEATURE_*, or 0): fewer than GITWIRE_ADVERTISEMENT_SIZE
 * bytes. */
GITWIRE_LOOKED_AT
gitwire_answer gitwire_put_advertisement(gitwire_writer *writer, gitwire_format format, uint32_t features, uint8_t *buffer,
	size_t buffer_length);

/* The same by this agent: 1 to 63 printable ASCII characters, none of them a space. An empty text means the library's own, `git2/1`, as
 * gitwire_put_advertisement has it. BAD_VALUE for another text. */
GITWIRE_LOOKED_AT
gitwire_answer gitwire_put_advertisement_named(gitwire_writer *writer, gitwire_format format, uint32_t features, const char *agent,
	size_t agent_length, uint8_t *buffer, size_t buffer_length);

/* A reference, with its object, the target of a symbolic one and what an annotated tag peels to; a length of 0 means none: a
 * reference without an object is unborn. */
GITWIRE_LOOKED_AT
gitwire_answer gitwire_put_reference(gitwire_writer *writer, gitwire_format format, const char *id, size_t id_length,
	const char *name, size_t name_length, const char *target, size_t target_length, const char *peeled,
	size_t peeled_length, uint8_t *buffer, size_t buffer_length);

/* `ACK` and an object that both sides have. */
GITWIRE_LOOKED_AT
gitwire_answer gitwire_put_ack(gitwire_writer *writer, gitwire_format format, const char *id, size_t id_length, uint8_t *buffer,
	size_t buffer_length);

/* A commit at the boundary: `shallow`, or else `unshallow`. */
GITWIRE_LOOKED_AT
gitwire_answer gitwire_put_boundary(gitwire_writer *writer, gitwire_format format, bool shallow, const char *id, size_t id_length,
	uint8_t *buffer, size_t buffer_length);

/* A reference that was wanted by its name. */
GITWIRE_LOOKED_AT
gitwire_answer gitwire_put_wanted(gitwire_writer *writer, gitwire_format format, const char *id, size_t id_length,
	const char *name, size_t name_length, uint8_t *buffer, size_t buffer_length);

/* An object, and its size if the host has it (`has_size`). */
GITWIRE_LOOKED_AT
gitwire_answer gitwire_put_info(gitwire_writer *writer, gitwire_format format, const char *id, size_t id_length, bool has_size,
	uint64_t size, uint8_t *buffer, size_t buffer_length);

/* Bytes on a side band: of the pack, of progress, or of a fatal error, after which nothing comes. More than 65,515 are TooLong. */
typedef enum gitwire_band { GITWIRE_BAND_PACK = 1, GITWIRE_BAND_PROGRESS = 2, GITWIRE_BAND_FATAL = 3 } gitwire_band;
GITWIRE_LOOKED_AT
gitwire_answer gitwire_put_band(gitwire_writer *writer, gitwire_band band, const uint8_t *bytes, size_t bytes_length,
	uint8_t *buffer, size_t buffer_length);

/* The error packet: `ERR `, the text and LF. A text of more than 65,511 bytes is BadLine. */
GITWIRE_LOOKED_AT
gitwire_answer gitwire_put_error(gitwire_writer *writer, const char *text, size_t text_length, uint8_t *buffer,
	size_t buffer_length);

/* A text and LF, as `NAK`, `ready` and `packfile` are written. A text of more than 65,515 bytes is BadLine. */
GITWIRE_LOOKED_AT
gitwire_answer gitwire_put_line(gitwire_writer *writer, const char *text, size_t text_length, uint8_t *buffer,
	size_t buffer_length);

GITWIRE_STATIC_ASSERT(sizeof(gitwire_band) == 4, "a number has 32 bits, so no -fshort-enums");

#ifdef __cplusplus
}
#endif

#endif
