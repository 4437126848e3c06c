/*
 * Git's wire protocol, version 2 (fetch side), for programs in C: packets, requests, a server, a client, a judge of
 * conversations, and the packets that a host writes itself. Each call is a method of a library that is proved to meet its
 * contract, but for a few lines in C (c/gitwire.c), which hold the memory of handles and return pointers. docs/PROMISES.md has
 * the promises in full, docs/PROTOCOL.md the rules and the errors. Files are named as in the project's repository;
 * docs/PROMISES.md, docs/PROTOCOL.md, examples/ and sample/repository-text.sh are installed in share/doc/gitwire.
 *
 * The header has a part for each subject, which this file includes; each part can be included alone:
 *
 *     gitwire/base.h       results, errors and what they are called, formats, features, texts; each part includes it
 *     gitwire/packets.h    a reader of packets
 *     gitwire/requests.h   requests, and a reader of requests
 *     gitwire/server.h     a repository in memory, and a server over it
 *     gitwire/host.h       a server over a store of the host's own
 *     gitwire/client.h     a client
 *     gitwire/checker.h    a judge of conversations
 *     gitwire/greeting.h   the first packet of a connection to `git daemon`
 *     gitwire/writer.h     packets that a host writes itself
 *
 * The library is sans-I/O: it reads and writes no stream, starts no thread and keeps nothing but what its handles have. A
 * program feeds it what it has read, in chunks of any size, and writes what it returns. Each side is a loop over what its
 * pull returns, as in examples/daemon.c and examples/list.c:
 *
 *     a server   PACKET       write it to the client
 *                NEED_INPUT   read from the client and feed what came; at the input's end close
 *                ENDED_BY_FLUSH, ENDED_BY_CLOSE, FAILED: the session is over
 *     a client   PACKET       write it to the server
 *                CAN_ASK      ask a request, or leave
 *                NEED_INPUT   read from the server and feed what came, which returns an event; at the input's end close
 *                FINISHED, FAILED: the conversation is over
 *
 * In that same loop, a server over a store of the host's own (gitwire_host) asks for what it needs from the store. A judge of
 * conversations has another loop, as in examples/check.c:
 *
 *     a checker  LINES        write them where the transcript goes
 *                NEED_REQUESTS, NEED_RESPONSES   feed bytes of that stream; at its end close it
 *                CHECKED, FAILED_REQUESTS, FAILED_RESPONSES: the verdict
 *
 * For every call:
 *
 *   - It returns, whatever the bytes are. A code reports a call that is not allowed at the moment, a buffer that is too
 *     small, a number that means nothing and a request handle without a request; nothing was used or changed then. Instead of
 *     a code, gitwire_request_flag, gitwire_host_flag and gitwire_client_advertises return false, gitwire_request_command,
 *     gitwire_request_format, gitwire_host_command, gitwire_client_format, gitwire_client_features, gitwire_fault_text and
 *     gitwire_kind_name 0, and gitwire_fault_name and gitwire_fault_sentence an empty text. A feed when no input is expected
 *     uses nothing, and returns NOT_NOW or the earlier error: a loop that feeds until all is used might not end.
 *   - Each kind of number is an enum: one in the place of another is an error in C++, and in C a warning of -Wextra or
 *     -Wenum-conversion. In each but gitwire_result 0 means nothing; so does a number of 32 bits that is not listed.
 *   - What is text is passed as `char`: lines, names, object names as their digits, messages. Bytes of the protocol are
 *     `uint8_t`: chunks, packets, packs. A text is a pointer and a length, without a NUL at its end. A buffer is where a call
 *     writes: a pointer and how many bytes are there. The call writes at the front of the buffer and reports how many bytes it
 *     wrote; the bytes after them are unchanged. A chunk is the bytes that one call is fed.
 *   - An array is where a call writes several packets or events: a pointer and how many places are there. The call fills
 *     places from the first on and reports how many; the others are unchanged.
 *
 * Each kind of handle is made and freed as follows.
 *
 *   - A call `_new` sets its first argument to a new handle: DONE. Else it sets it to NULL: OUT_OF_MEMORY, if there is no
 *     memory for it, or BAD_VALUE. What was there before the call is not looked at, and not freed.
 *   - A call `_free` frees a handle and what it has. For NULL it does nothing.
 *
 * A program has to see to the following, since no call can:
 *
 *   - A handle is what a call `_new`, or gitwire_request_empty, has set. Free each handle once, when it is no longer needed;
 *     after that no call gets it.
 *   - No pointer to a handle, to a handle's place, to an event or to a packet of an array is NULL, except in the calls `_free`.
 *   - One thread at a time uses a handle, even for a call that only asks, since each call writes to its handles; but threads share
 *     a repository's handle without a lock, until one of them frees it, and servers of one repository may be used at the same time.
 *     A handle may go from one thread to another by a lock, a thread's start or end, or an atomic of sequentially consistent order.
 *   - Each text, buffer and array has its whole length at its pointer, and no pointer is NULL if the length is above 0. No
 *     buffer or array overlaps a text, another buffer or array, or a handle, and no two handles of a call are the same. Nobody
 *     else writes to a text or touches a buffer or an array while the call runs.
 *   - A pack that a repository is lent (gitwire_repository_new_lent) lasts, unchanged, until the handle and every server that was
 *     made of it are freed.
 *   - Each bool of an array of events is 0 or 1 before the call, as in zeroed memory.
 *   - The stack has space for a call. The tests make each call in a thread with the 16 KiB of PTHREAD_STACK_MIN, but for
 *     gitwire_checker_new, which takes up to 160 KiB.
 *   - malloc, realloc and free are those of one allocator, which aligns as the C standard requires, and so are the calls that
 *     gitwire_set_memory names in their place. No call is made from a signal handler, nor in the child of a fork of a process
 *     with more than one thread.
 *
 * This header is for C11, C++11 and later. Neither `gitwire_answer` nor `gitwire_event`, which stand in arrays, changes before
 * 1.0, nor does a number or a call that is here: later versions only add to them.
 *
 * Since 0.2.0 nearly every call is made in another way, so a program has to be changed and compiled again; CHANGELOG.md, in the
 * project's repository, has the list.
 */
#ifndef GITWIRE_H
#define GITWIRE_H

#include "gitwire/base.h"
#include "gitwire/checker.h"
#include "gitwire/client.h"
#include "gitwire/greeting.h"
#include "gitwire/host.h"
#include "gitwire/packets.h"
#include "gitwire/requests.h"
#include "gitwire/server.h"
#include "gitwire/writer.h"

#endif
