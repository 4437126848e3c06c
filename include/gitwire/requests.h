/*
 * Requests, as a server reads them and a client asks them; and a reader of requests. gitwire.h states what holds for every call.
 */
#ifndef GITWIRE_REQUESTS_H
#define GITWIRE_REQUESTS_H

#include "base.h"

#ifdef __cplusplus
extern "C" {
#endif

typedef struct gitwire_request_reader gitwire_request_reader;
typedef struct gitwire_request gitwire_request;

/* Commands of requests. */
typedef enum gitwire_command { GITWIRE_LS_REFS = 1, GITWIRE_FETCH = 2, GITWIRE_OBJECT_INFO = 3 } gitwire_command;

/*
 * A request: what a reader of requests returns, or what a client is to ask. A new request has no arguments. One that a
 * reader returned has the reader's limit. Each list keeps the order of its lines, and repeats.
 *
 * Beside the arguments of its command a request of any command may have server options, texts whose meaning the server knows, as
 * `git fetch --server-option` sends them. A server option comes as a line `server-option=` and the text, which counts to the limit as an
 * argument's line does.
 *
 * A request handle can be without a request: as gitwire_request_empty makes it, and after a client took its request
 * (gitwire_client_ask). Each call below returns NO_REQUEST then, or 0 or false where it returns no code.
 */

/*
 * A request without arguments. `limit` is how many bytes the texts of its argument lines and server options may have together. DONE.
 * BAD_VALUE for a command or a format that does not exist, and for a limit above GITWIRE_MAXIMUM_LIMIT. OUT_OF_MEMORY.
 */
GITWIRE_LOOKED_AT
gitwire_result gitwire_request_new(gitwire_request **request, gitwire_command command, gitwire_format format, uint32_t limit);

/* A handle without a request, for gitwire_request_reader_feed to put one in it. DONE, OUT_OF_MEMORY. */
GITWIRE_LOOKED_AT
gitwire_result gitwire_request_empty(gitwire_request **request);

/*
 * Adds an argument: a line as in gitprotocol-v2(5), without LF, such as `want ` and an object name, `done`, or
 * `ref-prefix refs/`. DONE. FAILED, at offset 0: the error in the line, TooMuchKept or OutOfMemory, and the request is
 * unchanged. NO_REQUEST.
 */
GITWIRE_LOOKED_AT
gitwire_answer gitwire_request_add(gitwire_request *request, const char *line, size_t line_length);

/*
 * Adds a server option after those that the request has: any text, perhaps an empty one. DONE. FAILED, at offset 0: BadLine for a text
 * with NUL or LF, or of more than GITWIRE_SERVER_OPTION_SIZE bytes, TooMuchKept or OutOfMemory, and the request is unchanged. NO_REQUEST.
 * A server that does not advertise GITWIRE_FEATURE_SERVER_OPTION cannot be asked such a request (gitwire_client_ask).
 */
GITWIRE_LOOKED_AT
gitwire_answer gitwire_request_add_server_option(gitwire_request *request, const char *option, size_t option_length);

/*
 * Checks what a reader checks at the end of a request, and changes nothing. DONE, or FAILED, at offset 0, with
 * DeepenConflict, NoWants or NoSize. NO_REQUEST.
 */
GITWIRE_LOOKED_AT
gitwire_answer gitwire_request_end(gitwire_request *request);

/* Its command; its object format. 0 without a request. */
GITWIRE_LOOKED_AT
gitwire_command gitwire_request_command(gitwire_request *request);
GITWIRE_LOOKED_AT
gitwire_format gitwire_request_format(gitwire_request *request);

/* Whether a flag is set. false for a flag that its command does not have, for a number that is no flag, and without a request. */
typedef enum gitwire_flag {
	GITWIRE_FLAG_SYMREFS = 1,
	GITWIRE_FLAG_PEEL = 2,
	GITWIRE_FLAG_DONE = 3,
	GITWIRE_FLAG_THIN_PACK = 4,
	GITWIRE_FLAG_NO_PROGRESS = 5,
	GITWIRE_FLAG_INCLUDE_TAG = 6,
	GITWIRE_FLAG_OFS_DELTA = 7,
	GITWIRE_FLAG_DEEPEN_RELATIVE = 8,
	GITWIRE_FLAG_SIZE = 9,
	GITWIRE_FLAG_UNBORN = 10,
	GITWIRE_FLAG_WAIT_FOR_DONE = 11
} gitwire_flag;
GITWIRE_LOOKED_AT
bool gitwire_request_flag(gitwire_request *request, gitwire_flag flag);

/*
 * The depth in commits (DEEPEN), or the time in seconds since 1970 (DEEPEN_SINCE), of the request: DONE with it in
 * `offset`; of several the last counts. NOTHING if the request has none. BAD_VALUE, NO_REQUEST.
 */
typedef enum gitwire_number { GITWIRE_NUMBER_DEEPEN = 1, GITWIRE_NUMBER_DEEPEN_SINCE = 2 } gitwire_number;
GITWIRE_LOOKED_AT
gitwire_answer gitwire_request_number(gitwire_request *request, gitwire_number which);

/*
 * An item of a list, counted from 0. DONE with `length` bytes in the buffer: an object name is its digits. NOTHING past the
 * end of the list, and for a list that the request's command does not have. GITWIRE_REFERENCE_NAME_SIZE bytes always
 * suffice, and GITWIRE_SERVER_OPTION_SIZE for LIST_SERVER_OPTIONS. BUFFER_TOO_SMALL, BAD_VALUE, NO_REQUEST.
 */
typedef enum gitwire_list {
	GITWIRE_LIST_REF_PREFIXES = 1,
	GITWIRE_LIST_WANTS = 2,
	GITWIRE_LIST_HAVES = 3,
	GITWIRE_LIST_SHALLOWS = 4,
	GITWIRE_LIST_DEEPEN_NOTS = 5,
	GITWIRE_LIST_WANT_REFS = 6,
	GITWIRE_LIST_OIDS = 7,
	GITWIRE_LIST_FILTERS = 8,         /* filter specifications as received, which no call looks into */
	GITWIRE_LIST_SERVER_OPTIONS = 9   /* of every command; no call looks into them */
} gitwire_list;
GITWIRE_LOOKED_AT
gitwire_answer gitwire_request_item(gitwire_request *request, gitwire_list list, size_t index, char *buffer, size_t buffer_length);

/* Frees the handle and its request; for NULL it does nothing. */
void gitwire_request_free(gitwire_request *request);

/*
 * Reads requests: however the bytes fed are cut into chunks, the requests returned are their whole requests, in order. The
 * first error is reported by name and offset, and stays. The texts of a request's argument lines and server options are within the limit.
 */

/*
 * A reader of requests to a server that advertises these features (a sum of GITWIRE_FEATURE_*, or 0) and this format. `limit` is
 * how many bytes the texts of a request's argument lines and server options may have together. DONE. BAD_VALUE for a format or a feature
 * that does not exist, and for a limit above GITWIRE_MAXIMUM_LIMIT. OUT_OF_MEMORY.
 */
GITWIRE_LOOKED_AT
gitwire_result gitwire_request_reader_new(gitwire_request_reader **reader, gitwire_format format, uint32_t features, uint32_t limit);

/*
 * Reads up to the end of a request, a flush instead of one, the end of the chunk or the first error, whichever comes first:
 * `used` is how many bytes it used. Call it again with the others.
 *
 * MORE: the chunk is used up. REQUEST: a whole request, which the request handle has now; what that had is freed. STOP: the
 * peer leaves, and nothing is read after it: NOT_NOW from then on. FAILED: the error at the first bad packet of a request,
 * and again from then on. OUT_OF_MEMORY: there is no memory for what the request handle must have before anything is read;
 * nothing was used or changed, and the call can be made again.
 *
 * Only REQUEST gives the request handle a request that was read. After MORE, NOT_NOW, STOP and FAILED a request handle that
 * had none has an empty request, which nobody sent.
 */
GITWIRE_BOTH_LOOKED_AT
gitwire_answer gitwire_request_reader_feed(gitwire_request_reader *reader, gitwire_request *request,
	const uint8_t *chunk, size_t chunk_length);

/*
 * Reports the end of the input. DONE between two requests, and nothing changes. FAILED inside a request, with Truncated at
 * the end of the last whole packet. NOT_NOW after an error, and once the peer has left.
 */
GITWIRE_GIVEN
gitwire_answer gitwire_request_reader_close(gitwire_request_reader *reader);

/* Frees the reader; for NULL it does nothing. */
void gitwire_request_reader_free(gitwire_request_reader *reader);

GITWIRE_STATIC_ASSERT(sizeof(gitwire_command) == 4 && sizeof(gitwire_flag) == 4 && sizeof(gitwire_number) == 4
	&& sizeof(gitwire_list) == 4, "a number has 32 bits, so no -fshort-enums");

#ifdef __cplusplus
}
#endif

#endif
