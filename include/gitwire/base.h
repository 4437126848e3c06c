/*
 * What each part of gitwire.h stands on: results, errors and what they are called, object formats, features, what a call returns, and texts.
 * gitwire.h states what holds for every call, and what a program has to see to.
 */
#ifndef GITWIRE_BASE_H
#define GITWIRE_BASE_H

#include <stdbool.h>
#include <stddef.h>
#include <stdint.h>

#ifdef __cplusplus
extern "C" {
#define GITWIRE_STATIC_ASSERT static_assert
#else
#define GITWIRE_STATIC_ASSERT _Static_assert
#endif

/* What compilers can check about a call: its first pointer is not NULL, nor the second where that is a handle, and its result is used. */
#if defined(__GNUC__)
#define GITWIRE_GIVEN __attribute__((nonnull(1)))
#define GITWIRE_LOOKED_AT __attribute__((nonnull(1), warn_unused_result))
#define GITWIRE_BOTH_LOOKED_AT __attribute__((nonnull(1, 2), warn_unused_result))
#else
#define GITWIRE_GIVEN
#define GITWIRE_LOOKED_AT
#define GITWIRE_BOTH_LOOKED_AT
#endif

/*
 * Two short calls are defined in the header as well, so that a compiler can put them in place: gitwire_payload and gitwire_event_part. The library
 * has them like every other call, and a compiler that optimizes nothing, or has no such definitions, calls those.
 */
#if defined(__GNUC__) && !defined(GITWIRE_IN_PLACE)
#define GITWIRE_IN_PLACE extern inline __attribute__((gnu_inline))
#endif

/* The version of the library with which this header is installed. */
#define GITWIRE_VERSION "0.3.0"
#define GITWIRE_VERSION_MAJOR 0
#define GITWIRE_VERSION_MINOR 3
#define GITWIRE_VERSION_PATCH 0

/* The version of the library that runs, such as `0.3.0`, with a NUL at its end. The text lasts as long as the library is loaded. */
const char *gitwire_version(void);

/* The maximum length of a payload, and of a packet with its four digits. Buffers of these sizes always suffice. */
#define GITWIRE_PAYLOAD_SIZE 65516
#define GITWIRE_PACKET_SIZE 65520

/* Sizes of buffers that suffice for smaller things. */
#define GITWIRE_OBJECT_NAME_SIZE 64         /* the digits of an object name of either format */
#define GITWIRE_REFERENCE_NAME_SIZE 32000   /* a reference name, and each other item of a request's lists but a server option */
#define GITWIRE_SERVER_OPTION_SIZE 65502    /* a server option */
#define GITWIRE_FAULT_TEXT_SIZE 64          /* the text that gitwire_fault_text writes */
#define GITWIRE_KIND_NAME_SIZE 32           /* the name that gitwire_kind_name writes */
#define GITWIRE_ESCAPE_SIZE 4               /* the escape that gitwire_escape writes for one byte */
#define GITWIRE_AGENT_SIZE 63               /* the name of an agent */
#define GITWIRE_ADVERTISEMENT_SIZE 257      /* the packets that gitwire_put_advertisement writes */

/* A buffer for the texts of all events of a chunk of this length, in gitwire_client_events. */
#define GITWIRE_EVENTS_SIZE(chunk_length) (2 * GITWIRE_PAYLOAD_SIZE + (chunk_length))

/* How many bytes the texts of a request's argument lines and server options may have together: the default limit, and the maximum one. */
#define GITWIRE_DEFAULT_LIMIT 16777216
#define GITWIRE_MAXIMUM_LIMIT 1073741824

/* The result of a call: what it returns, or the `kind` of what it returns. */
typedef enum gitwire_result {
	GITWIRE_DONE = 0,
	GITWIRE_MORE = 1,               /* go on: `used` bytes of the chunk were used, and there is nothing else to report */
	GITWIRE_FAILED = 2,             /* refused: `fault` is why, `offset` where (for a repository's text only `offset`) */
	GITWIRE_NO_REQUEST = 3,         /* the request handle has no request: none came yet, or a client took it */
	GITWIRE_BUFFER_TOO_SMALL = 4,   /* nothing was used or changed */
	GITWIRE_NOT_NOW = 5,            /* the call may not be made at this moment; nothing changed */
	GITWIRE_OUT_OF_MEMORY = 6,
	GITWIRE_BAD_VALUE = 7,          /* a number that means nothing, or a limit above GITWIRE_MAXIMUM_LIMIT */
	GITWIRE_NOTHING = 8,            /* there is no such item */
	/* packets */
	GITWIRE_PAYLOAD = 9,
	GITWIRE_FLUSH = 10,
	GITWIRE_DELIM = 11,
	GITWIRE_RESPONSE_END = 12,
	/* requests */
	GITWIRE_REQUEST = 13,           /* a whole request */
	GITWIRE_STOP = 14,              /* a flush instead of a request: the peer leaves */
	/* what to do next */
	GITWIRE_PACKET = 15,            /* send this packet */
	GITWIRE_NEED_INPUT = 16,        /* bytes from the peer are expected */
	GITWIRE_ENDED_BY_FLUSH = 17,    /* the session ended with a flush alone, and every packet was returned */
	GITWIRE_ENDED_BY_CLOSE = 18,    /* it ended where the input did, between two requests, and every packet was returned */
	GITWIRE_CAN_ASK = 19,           /* a request can be asked, or the conversation left */
	GITWIRE_FINISHED = 20,          /* nothing more is to be sent, and the last packet was returned */
	/* what a client receives */
	GITWIRE_CAPABILITY = 21,        /* a line of the advertisement */
	GITWIRE_OFFERED = 22,           /* the advertisement is whole */
	GITWIRE_REFERENCE = 23,
	GITWIRE_ACK = 24,               /* both sides have this object */
	GITWIRE_NAK = 25,               /* no object that the request lists as the client's is common */
	GITWIRE_READY = 26,             /* enough is common: a pack follows */
	GITWIRE_SHALLOW = 27,           /* the parents of this commit are not sent */
	GITWIRE_UNSHALLOW = 28,         /* this commit had no parents at the client; they are sent now */
	GITWIRE_WANTED_REF = 29,        /* a reference that was requested by its name */
	GITWIRE_INFO = 30,              /* the size of an object */
	GITWIRE_PACK = 31,              /* bytes of the pack */
	GITWIRE_PROGRESS = 32,          /* bytes of a text for the user */
	GITWIRE_ENDED = 33,             /* the response is whole */
	/* what a host is asked */
	GITWIRE_ASKED = 34,             /* a whole request came: gitwire_host_accept, gitwire_host_refuse */
	GITWIRE_NEED_WANT = 35,         /* whether the store has the object at this index of LIST_WANTS: gitwire_host_want */
	GITWIRE_NEED_WANT_REF = 36,     /* the object of the reference at this index of LIST_WANT_REFS: gitwire_host_want_ref */
	GITWIRE_NEED_HAVE = 37,         /* whether the store has the object at this index of LIST_HAVES: gitwire_host_have */
	GITWIRE_NEED_READY = 38,        /* whether enough is common to make a pack: gitwire_host_ready */
	GITWIRE_NEED_BOUNDARY = 39,     /* the next line of the shallow boundary, or its end: gitwire_host_boundary, _boundary_end */
	GITWIRE_NEED_PACK = 40,         /* bytes of the pack or of progress, or the end: gitwire_host_pack, _progress, _pack_end */
	GITWIRE_NEED_REFERENCE = 41,    /* the next reference, or the end: gitwire_host_reference, _unborn, _references_end */
	GITWIRE_NEED_SIZE = 42,         /* the size of the object at this index of LIST_OIDS: gitwire_host_size */
	GITWIRE_OUT_OF_ORDER = 43,      /* a reference does not come after the one reported before it; nothing changed */
	GITWIRE_NOT_SHALLOW = 44,       /* an `unshallow` line of a commit that the request does not call shallow; nothing changed */
	/* what a client receives, too */
	GITWIRE_SECTION = 45,           /* a section of the response to `fetch` begins */
	/* what a checker returns */
	GITWIRE_LINES = 46,             /* lines of the transcript are in the buffer */
	GITWIRE_NEED_REQUESTS = 47,     /* bytes that the client sent are needed, or their end: gitwire_checker_feed, _close */
	GITWIRE_NEED_RESPONSES = 48,    /* bytes that the server sent are needed, or their end: gitwire_checker_feed, _close */
	GITWIRE_CHECKED = 49,           /* the conversation is well-formed and whole */
	GITWIRE_FAILED_REQUESTS = 50,   /* the requests are refused: `fault` is why, `offset` where in them */
	GITWIRE_FAILED_RESPONSES = 51   /* the responses are refused: `fault` is why, `offset` where in them */
} gitwire_result;

/* Why something was refused: `fault` of what is returned, or 0. docs/PROTOCOL.md states the offset of each. */
typedef enum gitwire_fault {
	GITWIRE_FAULT_BAD_DIGIT = 1,
	GITWIRE_FAULT_BAD_LENGTH = 2,
	GITWIRE_FAULT_TOO_LONG = 3,
	GITWIRE_FAULT_TRUNCATED = 4,
	GITWIRE_FAULT_STREAM_TOO_LONG = 5,
	GITWIRE_FAULT_NO_BAND = 6,
	GITWIRE_FAULT_BAD_BAND = 7,
	GITWIRE_FAULT_BAD_CAPABILITY = 8,
	GITWIRE_FAULT_UNKNOWN_COMMAND = 9,
	GITWIRE_FAULT_TWO_COMMANDS = 10,
	GITWIRE_FAULT_NO_COMMAND = 11,
	GITWIRE_FAULT_NOT_ADVERTISED = 12,
	GITWIRE_FAULT_BAD_OBJECT_NAME = 13,
	GITWIRE_FAULT_BAD_REF_NAME = 14,
	GITWIRE_FAULT_BAD_NUMBER = 15,
	GITWIRE_FAULT_DEEPEN_CONFLICT = 16,
	GITWIRE_FAULT_NO_WANTS = 17,
	GITWIRE_FAULT_NO_SIZE = 18,
	GITWIRE_FAULT_WRONG_FORMAT = 19,
	GITWIRE_FAULT_UNKNOWN_ARGUMENT = 20,
	GITWIRE_FAULT_TOO_MUCH_KEPT = 21,
	GITWIRE_FAULT_UNEXPECTED_PACKET = 22,
	GITWIRE_FAULT_REMOTE_ERROR = 23,
	GITWIRE_FAULT_UNKNOWN_REF = 24,
	GITWIRE_FAULT_NOT_OURS = 25,
	GITWIRE_FAULT_PACK_SOURCE = 26,   /* only from a gitwire_host: a gitwire_server has its pack in memory */
	GITWIRE_FAULT_NOT_VERSION_2 = 27,
	GITWIRE_FAULT_UNEXPECTED_SECTION = 28,
	GITWIRE_FAULT_BAD_LINE = 29,
	GITWIRE_FAULT_OUT_OF_MEMORY = 30,
	GITWIRE_FAULT_REMOTE_FATAL = 31,
	/* errors of runs over streams, such as git2show's: they have names and texts, and no call reports them */
	GITWIRE_FAULT_READ_FAULT = 32,
	GITWIRE_FAULT_WRITE_FAULT = 33,
	GITWIRE_FAULT_READ_LIMIT = 34
} gitwire_fault;

/* Object formats. For gitwire_client_new alone GITWIRE_FORMAT_ANY means the one that the server advertises; to other calls it means nothing. */
typedef enum gitwire_format { GITWIRE_SHA1 = 1, GITWIRE_SHA256 = 2, GITWIRE_FORMAT_ANY = 3 } gitwire_format;

/* What a server may advertise beside `agent` and the commands `ls-refs` and `fetch`, which it always advertises: a bit for each.
 * Calls take and return the sum of such bits as a `uint32_t`; to a call a bit that means no feature is a BAD_VALUE. */
typedef enum gitwire_feature {
	GITWIRE_FEATURE_UNBORN = 1,          /* of `ls-refs` */
	GITWIRE_FEATURE_SHALLOW = 2,         /* of `fetch` */
	GITWIRE_FEATURE_REF_IN_WANT = 4,     /* of `fetch` */
	GITWIRE_FEATURE_WAIT_FOR_DONE = 8,   /* of `fetch` */
	GITWIRE_FEATURE_SERVER_OPTION = 16,
	GITWIRE_FEATURE_OBJECT_INFO = 32,
	GITWIRE_FEATURE_FILTER = 64,         /* of `fetch` */
	GITWIRE_FEATURES_ALL = 127
} gitwire_feature;

/* The result of one call. Fields without a meaning are 0. */
typedef struct {
	size_t used;       /* how many bytes of the chunk were used */
	uint64_t offset;   /* an offset in the stream, counted in bytes from 0; or the number that was asked for */
	size_t length;     /* how many bytes are at the front of the buffer; or how many packets or events are in the array */
	gitwire_result kind;
	gitwire_fault fault;
} gitwire_answer;

/* A text that a call returns by where it is, without a NUL at its end. */
typedef struct {
	const char *at;
	size_t length;
} gitwire_text;

/*
 * An error's name, such as `Truncated`, and a sentence that states what it means and what to look at. Each returns a text of
 * the library's own with a NUL at its end, which lasts as long as the library is loaded; an empty one, "", if there is no such
 * error.
 */
const char *gitwire_fault_name(gitwire_fault fault);
const char *gitwire_fault_sentence(gitwire_fault fault);

/*
 * What users see of an error, such as `Truncated at 994`, without a NUL. Returns how many bytes are in the buffer: 0 if there is
 * no such error, or the buffer is too small. GITWIRE_FAULT_TEXT_SIZE bytes suffice.
 */
size_t gitwire_fault_text(gitwire_fault fault, uint64_t offset, char *buffer, size_t buffer_length);

/*
 * The name of a `kind` of what is returned, such as `NeedInput`, for messages, without a NUL. Returns how many bytes are in the
 * buffer: 0 if there is no such kind, or the buffer is too small. GITWIRE_KIND_NAME_SIZE bytes suffice.
 */
size_t gitwire_kind_name(gitwire_result kind, char *buffer, size_t buffer_length);

/*
 * Untrusted bytes as a text that may be shown on a terminal, or be a line of a log, as `git2show show` shows them: LF is
 * `\n`, a backslash is two, other bytes from 0x20 to 0x7e are unchanged, and each other one is `\x` and two digits. The
 * buffer needs at least GITWIRE_ESCAPE_SIZE bytes; as many for each byte always suffice for all.
 *
 * DONE: the escapes of all bytes, `length` in the buffer. MORE: the buffer has space only for those of the first `used`
 * bytes; call it again with the others. BUFFER_TOO_SMALL.
 */
gitwire_answer gitwire_escape(const uint8_t *bytes, size_t bytes_length, char *buffer, size_t buffer_length);

/*
 * Memory of the program's own: from this call on each block that the library needs comes from `allocate`, and goes back by `deallocate`, which
 * get `user` as it is passed here. They are to do what malloc, realloc and free do: a block is aligned for each type of C, NULL refuses, and
 * the block of a refused `reallocate` stays as it was. Each thread that calls the library calls them, perhaps at the same time, and never for 0 bytes.
 * They call nothing of the library. If all three are NULL, as at the start, memory is that of malloc, realloc and free.
 *
 * It is for the whole program: make this call while there is no handle and no other thread is in the library. BAD_VALUE, if some of the
 * three are NULL and others are not; nothing changed then.
 */
typedef void *(*gitwire_allocate)(void *user, size_t size);
typedef void *(*gitwire_reallocate)(void *user, void *block, size_t size);
typedef void (*gitwire_deallocate)(void *user, void *block);
gitwire_result gitwire_set_memory(gitwire_allocate allocate, gitwire_reallocate reallocate, gitwire_deallocate deallocate, void *user);

/* The layout that the library has. */
GITWIRE_STATIC_ASSERT(sizeof(size_t) == 8 && sizeof(void *) == 8 && sizeof(bool) == 1, "the library is of 64 bits");
GITWIRE_STATIC_ASSERT(sizeof(gitwire_result) == 4 && sizeof(gitwire_fault) == 4 && sizeof(gitwire_format) == 4
	&& sizeof(gitwire_feature) == 4, "a number has 32 bits, so no -fshort-enums");
GITWIRE_STATIC_ASSERT(sizeof(gitwire_answer) == 32 && offsetof(gitwire_answer, kind) == 24
	&& offsetof(gitwire_answer, fault) == 28, "gitwire_answer");
GITWIRE_STATIC_ASSERT(sizeof(gitwire_text) == 16 && offsetof(gitwire_text, length) == 8, "gitwire_text");

#ifdef __cplusplus
}
#endif

#endif
