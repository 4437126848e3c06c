/*
 * The client's side of a conversation: however the advertisement and the responses are cut into chunks, the events returned
 * are those of the bytes fed, under what was asked. The first error is reported by name and offset, and stays. The pack is
 * the bytes of PACK, in order. Beside the one request that it is asking, it has one buffer of GITWIRE_PACKET_SIZE bytes. gitwire.h states what
 * holds for every call.
 */
#ifndef GITWIRE_CLIENT_H
#define GITWIRE_CLIENT_H

#include "requests.h"

#ifdef __cplusplus
extern "C" {
#endif

typedef struct gitwire_client gitwire_client;

/*
 * How each response ends: with its flush alone, or with one more packet, the response-end packet that Git's stateless-connect
 * helpers put after each response, gitremote-helpers(7). gitwire_server sends none, nor does Git's server: if a client has this
 * ending, over a connection for each request, its program feeds it `0002` after each response, but not after the advertisement.
 */
typedef enum gitwire_ending { GITWIRE_ENDS_BY_FLUSH = 1, GITWIRE_ENDS_BY_RESPONSE_END = 2 } gitwire_ending;

/*
 * A client before the first byte. One of GITWIRE_FORMAT_ANY takes the object format that the server advertises: SHA-1 if its
 * lines name that or none, and otherwise SHA-256; so its requests are made after the advertisement, in the format that
 * gitwire_client_format returns. DONE. BAD_VALUE for a format or an ending that does not exist. OUT_OF_MEMORY.
 */
GITWIRE_LOOKED_AT
gitwire_result gitwire_client_new(gitwire_client **client, gitwire_format format, gitwire_ending ending);

/*
 * The same, but the client names this agent in each request to a server that names its own: 1 to 63 printable ASCII characters, none
 * of them a space, as `mirror/3.2`. gitwire_client_new names the library's own agent, `git2/1`, and so does an empty text.
 * BAD_VALUE for another text.
 */
GITWIRE_LOOKED_AT
gitwire_result gitwire_client_new_named(gitwire_client **client, gitwire_format format, gitwire_ending ending, const char *agent,
	size_t agent_length);

/*
 * One event. Its parts lie one after another: id, name, text, peeled, of these lengths, 0 for a missing part. For PACK and
 * PROGRESS that is in the chunk, and for other events in the buffer, at `offset` from the beginning of it; gitwire_event_part
 * returns each part.
 *
 *   CAPABILITY   the name is its key, the text its value, if it has one
 *   REFERENCE    id, name, the target of a symbolic reference (text), what an annotated tag peels to (peeled); no id if it is
 *                unborn, as HEAD is while its branch has no commit
 *   SECTION      name: a section of the response to `fetch` begins here; it ends where the next one begins, or with ENDED
 *   ACK, SHALLOW, UNSHALLOW   id
 *   WANTED_REF   id, name
 *   INFO         id; the size, if the server has the object (`has_size`)
 *   PACK, PROGRESS   text: at least one byte, and all that the chunk has of one packet's; the rest comes as further events
 *   OFFERED, NAK, READY, ENDED   nothing
 *
 * An object name is its digits. `has_text` is whether there is a text, which may be empty. Fields without a meaning are 0.
 */
typedef struct {
	size_t used;
	uint64_t offset;   /* where its parts begin, in the chunk or in the buffer; or where it failed */
	size_t id_length;
	size_t name_length;
	size_t text_length;
	size_t peeled_length;
	uint64_t size;
	gitwire_result kind;
	gitwire_fault fault;
	bool has_text;
	bool has_size;
} gitwire_event;

/*
 * A part of an event that a call returned, or put into the array, for this chunk and this buffer: where it is in one of them, and
 * how many bytes it has. So it lasts as long as they are unchanged. `at` is NULL and `length` 0 if the event has no such part;
 * an empty text has a place.
 */
typedef enum gitwire_part {
	GITWIRE_PART_ID = 1,
	GITWIRE_PART_NAME = 2,
	GITWIRE_PART_TEXT = 3,
	GITWIRE_PART_PEELED = 4
} gitwire_part;
GITWIRE_LOOKED_AT
gitwire_text gitwire_event_part(const gitwire_event *event, gitwire_part part, const uint8_t *chunk, const uint8_t *buffer);
#ifdef GITWIRE_IN_PLACE
GITWIRE_IN_PLACE gitwire_text gitwire_event_part(const gitwire_event *event, gitwire_part part, const uint8_t *chunk,
	const uint8_t *buffer)
{
	const uint8_t *parts = event->kind == GITWIRE_PACK || event->kind == GITWIRE_PROGRESS ? chunk : buffer;
	gitwire_text found = { NULL, 0 };
	size_t before = 0;

	switch (part) {
	case GITWIRE_PART_ID:
		found.length = event->id_length;
		break;
	case GITWIRE_PART_NAME:
		before = event->id_length;
		found.length = event->name_length;
		break;
	case GITWIRE_PART_TEXT:
		before = event->id_length + event->name_length;
		found.length = event->text_length;
		break;
	case GITWIRE_PART_PEELED:
		before = event->id_length + event->name_length + event->text_length;
		found.length = event->peeled_length;
		break;
	default:
		break;
	}
	if (found.length > 0 || (part == GITWIRE_PART_TEXT && event->has_text))
		found.at = (const char *)parts + event->offset + before;
	return found;
}
#endif

/*
 * Reads up to an event, the end of the chunk or the first error, whichever comes first: `used` is how many bytes it used.
 * Call it again with the others. A client that expects no input uses nothing, and returns NOT_NOW, or its error again;
 * gitwire_client_pull returns what it waits for. The buffer needs at least GITWIRE_PAYLOAD_SIZE bytes.
 *
 * The bytes of PACK and PROGRESS are not copied: they are the last `text_length` of those used, so they begin at
 * `chunk + used - text_length`, which is `chunk + offset`, and the buffer is unchanged. The parts of all other events lie at the
 * front of the buffer, and their `offset` is 0.
 *
 * MORE, an event, or FAILED, with `offset` where. NOT_NOW, BUFFER_TOO_SMALL.
 */
GITWIRE_LOOKED_AT
gitwire_event gitwire_client_feed(gitwire_client *client, const uint8_t *chunk, size_t chunk_length,
	uint8_t *buffer, size_t buffer_length);

/*
 * Reads on, and fills the array with the events: what gitwire_client_feed would return for them, call after call, but for
 * `used`, which counts from the chunk's beginning up to the event's end, and for `offset`, which is where its parts begin: in
 * the chunk for PACK and PROGRESS, and for other events in the buffer, where they lie one after another. `length` is how many
 * events there are, `used` how many bytes of the chunk were used. Set the array to zeros before the first call: each bool in it
 * has to be 0 or 1.
 *
 * MORE: the chunk is used up; or the array is full, or fewer than GITWIRE_PAYLOAD_SIZE bytes of the buffer are left, and the
 * call is to be made again with the other bytes. CAN_ASK: the last event is the end of the advertisement or of a response,
 * and it is the program's turn. FAILED: the error after these events; nothing was lost. NOT_NOW if no input is expected.
 * BUFFER_TOO_SMALL, for an array without a place too: the buffer needs at least GITWIRE_PAYLOAD_SIZE bytes. One of
 * GITWIRE_EVENTS_SIZE never fills up.
 */
GITWIRE_LOOKED_AT
gitwire_answer gitwire_client_events(gitwire_client *client, const uint8_t *chunk, size_t chunk_length,
	gitwire_event *events, size_t events_length, uint8_t *buffer, size_t buffer_length);

/*
 * What to do next. PACKET: send the `length` bytes in the buffer; each packet is returned once. NEED_INPUT: bytes from the
 * server are expected. CAN_ASK: a request can be asked, or the conversation left. FINISHED: nothing more is to be sent.
 * FAILED: the conversation was refused. The buffer needs at least GITWIRE_PACKET_SIZE bytes. BUFFER_TOO_SMALL.
 */
GITWIRE_LOOKED_AT
gitwire_answer gitwire_client_pull(gitwire_client *client, uint8_t *buffer, size_t buffer_length);

/*
 * Asks a request: its packets are to be pulled next, and its response is expected after them. The client takes the request,
 * and the request's handle has none from then on: DONE. FAILED, at the client's position, in this order: WrongFormat,
 * NotAdvertised, and what gitwire_request_end refuses; the client and the request are unchanged. NOT_NOW if no request can be
 * asked. NO_REQUEST if the request's handle has none.
 */
GITWIRE_BOTH_LOOKED_AT
gitwire_answer gitwire_client_ask(gitwire_client *client, gitwire_request *request);

/* Leaves: the flush that ends the conversation is to be pulled, and no request can be asked any more. DONE, NOT_NOW. */
GITWIRE_GIVEN
gitwire_result gitwire_client_leave(gitwire_client *client);

/*
 * Reports the end of the input, when more was expected: FAILED with Truncated, at the end of the last whole packet. NOT_NOW
 * if no bytes are expected.
 */
GITWIRE_GIVEN
gitwire_answer gitwire_client_close(gitwire_client *client);

/*
 * The server's message for the error that ended the conversation, RemoteError or RemoteFatal: DONE with `length` bytes in
 * the buffer; GITWIRE_PAYLOAD_SIZE bytes always suffice. NOTHING after another error and before any. BUFFER_TOO_SMALL.
 */
GITWIRE_LOOKED_AT
gitwire_answer gitwire_client_message(gitwire_client *client, char *buffer, size_t buffer_length);

/* The conversation's object format, GITWIRE_SHA1 or GITWIRE_SHA256; 0 until the whole advertisement came, and after an error. */
GITWIRE_LOOKED_AT
gitwire_format gitwire_client_format(gitwire_client *client);

/* The sum of the features (GITWIRE_FEATURE_*) that were noted of the advertisement so far, or 0. */
GITWIRE_LOOKED_AT
uint32_t gitwire_client_features(gitwire_client *client);

/* Whether some line of the advertisement so far has this key. false for a number that is no key. */
typedef enum gitwire_key {
	GITWIRE_KEY_AGENT = 1,
	GITWIRE_KEY_LS_REFS = 2,
	GITWIRE_KEY_FETCH = 3,
	GITWIRE_KEY_OBJECT_FORMAT = 4,   /* with any value or none */
	GITWIRE_KEY_SHA1 = 5,            /* the line `object-format=sha1` */
	GITWIRE_KEY_SHA256 = 6           /* the line `object-format=sha256` */
} gitwire_key;
GITWIRE_LOOKED_AT
bool gitwire_client_advertises(gitwire_client *client, gitwire_key key);

/* Frees the client; for NULL it does nothing. */
void gitwire_client_free(gitwire_client *client);

/* The layout that the library has. */
GITWIRE_STATIC_ASSERT(sizeof(gitwire_ending) == 4 && sizeof(gitwire_part) == 4 && sizeof(gitwire_key) == 4,
	"a number has 32 bits, so no -fshort-enums");
GITWIRE_STATIC_ASSERT(sizeof(gitwire_event) == 72 && offsetof(gitwire_event, kind) == 56
	&& offsetof(gitwire_event, fault) == 60 && offsetof(gitwire_event, has_size) == 65, "gitwire_event");

#ifdef __cplusplus
}
#endif

#endif
