/*
 * A repository in memory, and a server over it. gitwire.h states what holds for every call.
 */
#ifndef GITWIRE_SERVER_H
#define GITWIRE_SERVER_H

#include "base.h"

#ifdef __cplusplus
extern "C" {
#endif

typedef struct gitwire_repository gitwire_repository;
typedef struct gitwire_server gitwire_server;

/*
 * A repository: a few lists in memory, read from a text, and either one pack, or one for fetches without `filter` and one
 * for fetches with it. No call looks into a pack. docs/PROTOCOL.md has the format of the text, which
 * sample/repository-text.sh writes for a Git repository. A repository never changes, and servers share it: each keeps it for
 * as long as it needs it, even after the handle was freed.
 *
 * Threads share the handle: gitwire_server_new may be called for it by several at the same time, without a lock of theirs. It is
 * freed once, when no thread needs it any more; the servers that were made of it may still be used then, each by one thread at a
 * time.
 */

/*
 * A repository with the same pack for every fetch, with `filter` or without. It copies what it keeps: the text and the pack
 * need not last. `*repository` is set to the new handle: DONE. Else it is set to NULL. FAILED: the text is refused, with
 * `offset` the number of its first bad line, from 1, and `fault` 0. OUT_OF_MEMORY.
 */
GITWIRE_LOOKED_AT
gitwire_answer gitwire_repository_new(gitwire_repository **repository, const char *text, size_t text_length,
	const uint8_t *pack, size_t pack_length);

/*
 * The same, but with two packs: `pack` for fetches without `filter`, and `filtered` for those with one or more, whatever
 * these contain and whatever is wanted. So a client that then fetches an object that was left out, by its name and with a
 * `filter`, gets `filtered` once more.
 */
GITWIRE_LOOKED_AT
gitwire_answer gitwire_repository_new_filtered(gitwire_repository **repository, const char *text, size_t text_length,
	const uint8_t *pack, size_t pack_length, const uint8_t *filtered, size_t filtered_length);

/*
 * As gitwire_repository_new, but the pack is lent: the text is copied, the pack is not, so the memory that the call takes does
 * not grow with it. The program keeps the pack where it is, unchanged, until the handle and every server that was made of it are
 * freed, in whatever order; then the pack is the program's to free. It can be a file that is mapped: one that is then made
 * shorter ends the program, with SIGBUS, so a new pack is written to another file and renamed.
 */
GITWIRE_LOOKED_AT
gitwire_answer gitwire_repository_new_lent(gitwire_repository **repository, const char *text, size_t text_length,
	const uint8_t *pack, size_t pack_length);

/*
 * As gitwire_repository_new_filtered, but with both packs lent in this way. They may be the same bytes. NULL for `filtered`, with
 * 0 for its length, is an empty pack for fetches with `filter`, as it is there, and not `pack` for them too.
 */
GITWIRE_LOOKED_AT
gitwire_answer gitwire_repository_new_lent_filtered(gitwire_repository **repository, const char *text, size_t text_length,
	const uint8_t *pack, size_t pack_length, const uint8_t *filtered, size_t filtered_length);

/* Frees the handle, which no other thread uses then: the servers that share its repository keep that. For NULL it does nothing. */
void gitwire_repository_free(gitwire_repository *repository);

/*
 * The server's side of a conversation, over a repository: however the input is cut into chunks, the output is exactly the
 * session that the input calls for. At every return the texts of the argument lines and server options that it keeps have together
 * at most as many bytes as its limit; beside them it has one buffer of GITWIRE_PACKET_SIZE bytes. A server option changes no answer.
 *
 * One pull can take long. For `ls-refs` the first one sorts the prefixes of the request, a million of them in about a
 * second, and each reference is then looked up among them by binary search. For a `fetch` that cuts the history off, each
 * pull of a line of `shallow-info` compares each `unshallow` line of the repository with each `shallow` of the request. The
 * limit bounds how many prefixes and `shallow` lines these can be: a program that serves many clients in one thread sets a
 * low one.
 *
 * It advertises what `git2show serve` does: all features, and the repository's format.
 */

/*
 * A server at the beginning of a session, which sends its advertisement first if `advertise` is set. DONE. BAD_VALUE for a limit
 * above GITWIRE_MAXIMUM_LIMIT. OUT_OF_MEMORY. Other threads may do the same with the repository meanwhile.
 */
GITWIRE_BOTH_LOOKED_AT
gitwire_result gitwire_server_new(gitwire_server **server, const gitwire_repository *repository, uint32_t limit, bool advertise);

/* The same, but its advertisement names this agent, as gitwire_client_new_named has it. BAD_VALUE also for a text that is no agent's name. */
GITWIRE_BOTH_LOOKED_AT
gitwire_result gitwire_server_new_named(gitwire_server **server, const gitwire_repository *repository, uint32_t limit, bool advertise,
	const char *agent, size_t agent_length);

/*
 * Takes bytes of the input: MORE, and `used` is how many: up to the end of a request, a flush instead of one, or an error,
 * or all. NOT_NOW, and none is used, while a packet waits to be pulled and after the end: so pull until NEED_INPUT before
 * you feed the others.
 */
GITWIRE_LOOKED_AT
gitwire_answer gitwire_server_feed(gitwire_server *server, const uint8_t *chunk, size_t chunk_length);

/*
 * Reports the end of the input, when the server needs input: DONE. Between two requests the session ends well, without
 * another packet; inside a request the session is refused as Truncated, and the error packet that reports this is to be pulled.
 * NOT_NOW while a packet waits to be pulled and after the end.
 */
GITWIRE_GIVEN
gitwire_result gitwire_server_close(gitwire_server *server);

/*
 * The next packet to be sent, or what to do instead. Each packet is returned once. The buffer needs at least
 * GITWIRE_PACKET_SIZE bytes.
 *
 * PACKET: `length` bytes in the buffer. NEED_INPUT: nothing is to be sent until more is fed, or the input is closed.
 * ENDED_BY_FLUSH, ENDED_BY_CLOSE: the session ended well, and every packet was returned. FAILED: the session was refused;
 * the last packet returned was an error packet that reports the error, except if the client itself had sent an error packet
 * (RemoteError). BUFFER_TOO_SMALL.
 */
GITWIRE_LOOKED_AT
gitwire_answer gitwire_server_pull(gitwire_server *server, uint8_t *buffer, size_t buffer_length);

/* Frees the server; for NULL it does nothing. */
void gitwire_server_free(gitwire_server *server);

#ifdef __cplusplus
}
#endif

#endif
