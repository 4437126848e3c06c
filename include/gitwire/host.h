/*
 * A server over a store of the host's own, such as one with millions of objects, references that change, and packs that a process writes. It
 * reads requests as a gitwire_server does. For each it asks for what it needs from the store, one thing after another, and the host reports each
 * when it has it. However the input is cut into chunks, the output is the session that the input and the reports call for: its sections in their
 * order, with each line that belongs there and no other. Its loop is over what gitwire_host_pull returns:
 *
 *     PACKET       write it to the client
 *     NEED_INPUT   read from the client and feed what came; at the input's end close
 *     ASKED        a whole request came: look at it, and accept it, or refuse it
 *     NEED_..      report what is asked
 *     ENDED_BY_FLUSH, ENDED_BY_CLOSE, FAILED: the session is over
 *
 * A call that reports returns PACKET, with `length` bytes in the buffer to be sent now, or MORE: there is nothing to send yet. It is allowed when
 * a pull would return the NEED_.. that it answers, and otherwise returns NOT_NOW: so no order of calls gives a wrong answer. No pull is needed between
 * two reports of references, of objects or of bytes of a pack; a line of the boundary may come after a header, and then it is to be pulled; and
 * a pull comes between the report of the last want and the next report, gitwire_host_fail too. A report may differ from that for an earlier
 * request of the session. Once the packet of a report was returned, the server keeps of it only the
 * name of the last reference, and the objects of wanted references, 33 bytes each. No call waits for anything: a host may serve many clients in
 * one thread, and report to each when its store has answered.
 *
 * A call that reports changes nothing if it returns NOT_NOW, FAILED, OUT_OF_ORDER, NOT_SHALLOW, OUT_OF_MEMORY or BUFFER_TOO_SMALL. The
 * buffer of each needs at least GITWIRE_PACKET_SIZE bytes. An object is named by its digits, of either case and of the server's format; anything
 * else is BadObjectName. gitwire.h states what holds for every call.
 */
#ifndef GITWIRE_HOST_H
#define GITWIRE_HOST_H

#include "requests.h"

#ifdef __cplusplus
extern "C" {
#endif

typedef struct gitwire_host gitwire_host;

/* A host's server at the beginning of a session, with objects of this format, which advertises these features (a sum of GITWIRE_FEATURE_*, or 0).
 * It sends its advertisement first if `advertise` is set. `limit` is how many bytes the texts of a request's argument lines and server options
 * may have together. DONE. BAD_VALUE for a format or a feature that does not exist, and for a limit above GITWIRE_MAXIMUM_LIMIT. OUT_OF_MEMORY. */
GITWIRE_LOOKED_AT
gitwire_result gitwire_host_new(gitwire_host **host, gitwire_format format, uint32_t features, uint32_t limit, bool advertise);

/* The same, but its advertisement names this agent: 1 to 63 printable ASCII characters, none of them a space, as `mirror/3.2`. gitwire_host_new
 * names the library's own agent, `git2/1`, and so does an empty text. BAD_VALUE also for another text. */
GITWIRE_LOOKED_AT
gitwire_result gitwire_host_new_named(gitwire_host **host, gitwire_format format, uint32_t features, uint32_t limit, bool advertise,
	const char *agent, size_t agent_length);

/* As gitwire_server_feed and gitwire_server_close. A request is refused at its first bad packet, before it is ASKED. NOT_NOW while one is ASKED or
 * answered, while a packet waits to be pulled, and after the end: so pull until NEED_INPUT before you feed the others. */
GITWIRE_LOOKED_AT
gitwire_answer gitwire_host_feed(gitwire_host *host, const uint8_t *chunk, size_t chunk_length);
GITWIRE_GIVEN
gitwire_result gitwire_host_close(gitwire_host *host);

/*
 * The next packet to be sent, or what to do instead: until that is done, each call returns the same. PACKET, NEED_INPUT, ENDED_BY_FLUSH,
 * ENDED_BY_CLOSE: as for gitwire_server_pull. ASKED: `offset` is the number of the request's command. NEED_WANT, NEED_WANT_REF, NEED_HAVE,
 * NEED_SIZE: `offset` is the index in the list. NEED_READY, NEED_BOUNDARY, NEED_PACK, NEED_REFERENCE. FAILED: the input was refused; or the request
 * was, by NotOurs, UnknownRef or PackSource at its flush. BUFFER_TOO_SMALL.
 */
GITWIRE_LOOKED_AT
gitwire_answer gitwire_host_pull(gitwire_host *host, uint8_t *buffer, size_t buffer_length);

/* The request that is ASKED or answered, by calls as gitwire_request_command, _flag, _number and _item: NOTHING, 0 or false, if there is none. Once
 * an `ls-refs` request is accepted, its prefixes are in the order of their bytes, without those that begin with another. The library answers a
 * request as it would without its server options: whether one is known and allowed, and what it changes, is the host's to decide while ASKED. */
GITWIRE_LOOKED_AT
gitwire_command gitwire_host_command(gitwire_host *host);
GITWIRE_LOOKED_AT
bool gitwire_host_flag(gitwire_host *host, gitwire_flag flag);
GITWIRE_LOOKED_AT
gitwire_answer gitwire_host_number(gitwire_host *host, gitwire_number which);
GITWIRE_LOOKED_AT
gitwire_answer gitwire_host_item(gitwire_host *host, gitwire_list list, size_t index, char *buffer, size_t buffer_length);

/* Accepts the request that is ASKED, which is answered from now on: DONE. Or refuses it: PACKET, an error packet with this text, and the session
 * is over (NotOurs); a text of more than 65,511 bytes is BadLine. NOT_NOW if none is ASKED. */
GITWIRE_LOOKED_AT
gitwire_result gitwire_host_accept(gitwire_host *host);
GITWIRE_LOOKED_AT
gitwire_answer gitwire_host_refuse(gitwire_host *host, const char *text, size_t text_length, uint8_t *buffer, size_t buffer_length);

/* For `fetch`: whether the store has the wanted object that is asked about; and the object of the wanted reference that is asked for, or a length
 * of 0 if there is none. MORE. If there is no such object or reference, the error packet is to be pulled, and the session is over (NotOurs,
 * UnknownRef). OUT_OF_MEMORY for a reference. */
GITWIRE_LOOKED_AT
gitwire_answer gitwire_host_want(gitwire_host *host, bool has, uint8_t *buffer, size_t buffer_length);
GITWIRE_LOOKED_AT
gitwire_answer gitwire_host_want_ref(gitwire_host *host, const char *id, size_t id_length, uint8_t *buffer, size_t buffer_length);

/* Whether the store has the client's object that is asked about: PACKET, its `ACK`, or MORE. Then whether enough is common to make a pack: PACKET,
 * `ready`, and the pack follows; or the flush that ends the answer. */
GITWIRE_LOOKED_AT
gitwire_answer gitwire_host_have(gitwire_host *host, bool has, uint8_t *buffer, size_t buffer_length);
GITWIRE_LOOKED_AT
gitwire_answer gitwire_host_ready(gitwire_host *host, bool ready, uint8_t *buffer, size_t buffer_length);

/* A line of the shallow boundary, `shallow` or else `unshallow`: PACKET, its line. For the first line that is the section's header, and the line
 * itself is to be pulled before anything else is reported. NOT_SHALLOW for an `unshallow` line of a commit that the request does not call shallow.
 * And the end of the lines: PACKET, or MORE if there was none. */
GITWIRE_LOOKED_AT
gitwire_answer gitwire_host_boundary(gitwire_host *host, bool shallow, const char *id, size_t id_length, uint8_t *buffer, size_t buffer_length);
GITWIRE_LOOKED_AT
gitwire_answer gitwire_host_boundary_end(gitwire_host *host, uint8_t *buffer, size_t buffer_length);

/*
 * Bytes of the pack, or of a text for the client's user: PACKET, and `used` of them are in it, at most 65,515. A further call reports the others.
 * No bytes are MORE; so is a text if the request has `no-progress`, and all of it is used. The pack's end: PACKET, the flush that ends the answer.
 */
GITWIRE_LOOKED_AT
gitwire_answer gitwire_host_pack(gitwire_host *host, const uint8_t *bytes, size_t length, uint8_t *buffer, size_t buffer_length);
GITWIRE_LOOKED_AT
gitwire_answer gitwire_host_progress(gitwire_host *host, const char *text, size_t length, uint8_t *buffer, size_t buffer_length);
GITWIRE_LOOKED_AT
gitwire_answer gitwire_host_pack_end(gitwire_host *host, uint8_t *buffer, size_t buffer_length);

/*
 * For `ls-refs`: any reference of the store, in the order of the bytes of their names. PACKET if the request asks for it, else MORE. A target or a
 * peeled object of length 0 is none. Parts are checked from left to right: BadObjectName, BadRefName. OUT_OF_ORDER if its name does not come after
 * that of the one before it, or it is a `HEAD` that was reported as unborn. OUT_OF_MEMORY. The target of an unborn `HEAD` is reported before any
 * reference, once: after that NOT_NOW. The end of the references: PACKET, the flush that ends the answer.
 */
GITWIRE_LOOKED_AT
gitwire_answer gitwire_host_reference(gitwire_host *host, const char *id, size_t id_length, const char *name, size_t name_length,
	const char *target, size_t target_length, const char *peeled, size_t peeled_length, uint8_t *buffer, size_t buffer_length);
GITWIRE_LOOKED_AT
gitwire_answer gitwire_host_unborn(gitwire_host *host, const char *target, size_t target_length, uint8_t *buffer, size_t buffer_length);
GITWIRE_LOOKED_AT
gitwire_answer gitwire_host_references_end(gitwire_host *host, uint8_t *buffer, size_t buffer_length);

/* For `object-info`: the size of the object that is asked about, if the store has it. PACKET. */
GITWIRE_LOOKED_AT
gitwire_answer gitwire_host_size(gitwire_host *host, bool has_size, uint64_t size, uint8_t *buffer, size_t buffer_length);

/* Reports, while any NEED_.. is asked, that what is asked cannot be had, as when a disk or a process failed. PACKET, and the session is over
 * (PackSource): an error packet, or while NEED_PACK is asked a text on the band of fatal errors. A request that is ASKED can be refused. */
GITWIRE_LOOKED_AT
gitwire_answer gitwire_host_fail(gitwire_host *host, uint8_t *buffer, size_t buffer_length);

/* Frees the server; for NULL it does nothing. */
void gitwire_host_free(gitwire_host *host);

#ifdef __cplusplus
}
#endif

#endif
