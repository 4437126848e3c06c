/*
 * A judge of conversations: what `git2show check` does with two files, for a program that has the bytes of both sides, recorded or
 * while they pass. However the two streams are cut into chunks, the lines of the transcript, the verdict and its offset are those of
 * `git2show check`. Its loop is over what gitwire_checker_pull returns:
 *
 *     LINES            write them where the transcript goes
 *     NEED_REQUESTS    feed bytes that the client sent; if there are no more, close its stream
 *     NEED_RESPONSES   feed bytes that the server sent; if there are no more, close its stream
 *     CHECKED          the conversation is whole
 *     FAILED_REQUESTS, FAILED_RESPONSES   it is refused
 *
 * It needs one stream at a time: the responses up to the end of the advertisement, then in turn a whole request and the response to
 * it, and after the last request the end of the responses. The program keeps what came of the other stream meanwhile. A client may
 * send all that the server advertised, also what the rest of the library does not know. docs/PROTOCOL.md has the rules, git2show(5)
 * the form of the lines. What a peer sent is escaped in them, so they may be shown on a terminal.
 *
 * Beside buffers of a fixed size, some 660 KB, a checker keeps the texts of a request's arguments and server options, within its
 * limit; lines of the advertisement that the library does not know, at most GITWIRE_DEFAULT_LIMIT bytes; and until they are pulled
 * the lines of the transcript for what it does not know of a request. gitwire.h states what holds for every call.
 */
#ifndef GITWIRE_CHECKER_H
#define GITWIRE_CHECKER_H

#include "client.h"

#ifdef __cplusplus
extern "C" {
#endif

typedef struct gitwire_checker gitwire_checker;

/* The streams of a conversation: what the client sends, and what the server sends, its advertisement first. */
typedef enum gitwire_stream { GITWIRE_STREAM_REQUESTS = 1, GITWIRE_STREAM_RESPONSES = 2 } gitwire_stream;

/*
 * A checker before the first byte, of a conversation about a repository of this object format, in which each response ends so.
 * `limit` is how many bytes the texts of a request's argument lines and server options may have together; that of `git2show check`
 * is GITWIRE_DEFAULT_LIMIT. DONE. BAD_VALUE for a format or an ending that does not exist, for GITWIRE_FORMAT_ANY, and for a limit
 * above GITWIRE_MAXIMUM_LIMIT. OUT_OF_MEMORY. This call takes up to 160 KiB of the stack.
 */
GITWIRE_LOOKED_AT
gitwire_result gitwire_checker_new(gitwire_checker **checker, gitwire_format format, gitwire_ending ending, uint32_t limit);

/*
 * Takes bytes of a stream that is needed: MORE, and `used` is how many: all, or those up to where something else is needed. Of a
 * chunk that has bytes it uses at least one, unless the conversation is refused by then. So pull after each feed, and feed the
 * others when that stream is needed again. NOT_NOW, and none is used, if a pull would not return that this stream is needed.
 * BAD_VALUE for a number that means no stream.
 */
GITWIRE_LOOKED_AT
gitwire_answer gitwire_checker_feed(gitwire_checker *checker, gitwire_stream stream, const uint8_t *chunk, size_t chunk_length);

/*
 * Reports the end of a stream that is needed, once all its bytes were used: DONE, and it is not needed again. NOT_NOW, and nothing
 * changed, if a pull would not return that this stream is needed: report the end when it does. BAD_VALUE for a number that means no
 * stream.
 */
GITWIRE_GIVEN
gitwire_result gitwire_checker_close(gitwire_checker *checker, gitwire_stream stream);

/*
 * The next lines of the transcript, or what to do instead. Until that is done, each call returns the same.
 *
 * LINES: `length` bytes of lines in the buffer, as many as fit. Each byte is returned once, in order; the next call goes on with
 * a line that is cut. NEED_REQUESTS, NEED_RESPONSES: bytes of this stream are needed, or its end. CHECKED: the conversation is
 * well-formed and whole, each request was answered, and no byte of the responses is left over. FAILED_REQUESTS, FAILED_RESPONSES:
 * it is refused; `fault` is why, and `offset` where in this stream. A request that may not be asked is an error of the responses,
 * where its response would begin. BUFFER_TOO_SMALL: the buffer has no byte.
 */
GITWIRE_LOOKED_AT
gitwire_answer gitwire_checker_pull(gitwire_checker *checker, char *buffer, size_t buffer_length);

/* Frees the checker; for NULL it does nothing. */
void gitwire_checker_free(gitwire_checker *checker);

/* The layout that the library has. */
GITWIRE_STATIC_ASSERT(sizeof(gitwire_stream) == 4, "a number has 32 bits, so no -fshort-enums");

#ifdef __cplusplus
}
#endif

#endif
