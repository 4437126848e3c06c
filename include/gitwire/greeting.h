/*
 * The greeting with which a client begins a connection to `git daemon`, before the protocol: the first packet of gitprotocol-pack(5). It names
 * the service, the path of the repository, the host as the client calls it, and further parameters, such as `version=2`:
 *
 *     git-upload-pack PATH NUL host=NAME[:PORT] NUL NUL version=2 NUL
 *
 * These calls have no handle, and may be made by any threads at the same time. gitwire.h states what holds for every call.
 */
#ifndef GITWIRE_GREETING_H
#define GITWIRE_GREETING_H

#include "base.h"

#ifdef __cplusplus
extern "C" {
#endif

/* What a client can ask a daemon for: a fetch, a push, an archive. */
typedef enum gitwire_service { GITWIRE_UPLOAD_PACK = 1, GITWIRE_RECEIVE_PACK = 2, GITWIRE_UPLOAD_ARCHIVE = 3 } gitwire_service;

/* A greeting that was read. The path and the host are in the payload, from these places on. Fields without a meaning are 0. */
typedef struct {
	size_t path;
	size_t path_length;
	size_t host;
	size_t host_length;
	gitwire_result kind;
	gitwire_fault fault;
	gitwire_service service;
	bool has_host;          /* whether there is a host, which may be empty */
	bool wants_version_2;   /* whether a parameter is `version=2` */
} gitwire_greeting;

/*
 * Writes the greeting of a client that fetches from this path by version 2 of the protocol: a whole packet at the front of the buffer.
 * `host` is a name, or a name, `:` and a port; a length of 0 means none. A path begins with `/`, which is not checked.
 *
 * DONE, with `length` bytes in the buffer. BUFFER_TOO_SMALL, with `length` how many bytes the packet has; GITWIRE_PACKET_SIZE always suffice.
 * FAILED, at offset 0: BadLine if the path or the host has a NUL; TooLong if the payload has more than GITWIRE_PAYLOAD_SIZE bytes.
 */
gitwire_answer gitwire_greeting_write(const char *path, size_t path_length, const char *host, size_t host_length, uint8_t *buffer,
	size_t buffer_length);

/*
 * Reads the payload of a greeting's packet, of any service, as gitwire_packet_reader_feed returns it: DONE. FAILED with BadLine, if it is no
 * greeting: each of its parts ends with a NUL, and a parameter has at least one byte.
 */
gitwire_greeting gitwire_greeting_read(const uint8_t *payload, size_t payload_length);

/* The layout that the library has. */
GITWIRE_STATIC_ASSERT(sizeof(gitwire_service) == 4, "a number has 32 bits, so no -fshort-enums");
GITWIRE_STATIC_ASSERT(sizeof(gitwire_greeting) == 48 && offsetof(gitwire_greeting, kind) == 32 && offsetof(gitwire_greeting, service) == 40
	&& offsetof(gitwire_greeting, wants_version_2) == 45, "gitwire_greeting");

#ifdef __cplusplus
}
#endif

#endif
