/*
 * Asks for a pack and receives the answer on standard input, as crates/bench_machines does after the word `client`, and prints the same
 * line: by calls of the library for C, which give the events of a chunk in an array, while the bytes of the pack stay in the chunk. It is
 * measured beside client.c, which reads the same answer without a library and gathers each packet.
 */
#include <gitwire.h>

#include <errno.h>
#include <stdbool.h>
#include <string.h>
#include <unistd.h>

#include "pack_counts.h"

#define CHUNK_BYTES 65536
#define MOST_EVENTS 256

static uint8_t bytes[CHUNK_BYTES], buffer[GITWIRE_EVENTS_SIZE(CHUNK_BYTES)];
static gitwire_event events[MOST_EVENTS];
static size_t at, end;           /* the bytes of the chunk that are still to be used */
static gitwire_client *client;
static gitwire_request *request;
static bool has_asked;

static bool add(const char *line)
{
	return gitwire_request_add(request, line, strlen(line)).kind == GITWIRE_DONE;
}

/* A client, and a request for the pack of one object. */
static bool begin(void)
{
	return gitwire_client_new(&client, GITWIRE_SHA1, GITWIRE_ENDS_BY_FLUSH) == GITWIRE_DONE
		&& gitwire_request_new(&request, GITWIRE_FETCH, GITWIRE_SHA1, GITWIRE_DEFAULT_LIMIT) == GITWIRE_DONE
		&& add("want 1111111111111111111111111111111111111111") && add("done");
}

static bool tell_fault(gitwire_answer answer)
{
	fprintf(stderr, "bench_machines: %s at %" PRIu64 "\n", gitwire_fault_name(answer.fault), answer.offset);
	return false;
}

/* Reads the next chunk, if one was used up. At the end of the input the client is closed, if it expected more. */
static bool read_chunk(void)
{
	ssize_t count;

	if (at < end)
		return true;
	do
		count = read(STDIN_FILENO, bytes, sizeof bytes);
	while (count < 0 && errno == EINTR);
	if (count < 0)
		return false;
	if (count == 0)
		return tell_fault(gitwire_client_close(client));
	at = 0;
	end = (size_t)count;
	return true;
}

/* Receives what the chunk contains, up to the end of the advertisement or of the response. */
static bool hear(void)
{
	gitwire_answer answer = { .kind = GITWIRE_MORE };

	while (at < end && answer.kind == GITWIRE_MORE) {
		const uint8_t *chunk = bytes + at;

		answer = gitwire_client_events(client, chunk, end - at, events, MOST_EVENTS, buffer, sizeof buffer);
		at += answer.used;
		for (size_t i = 0; i < answer.length; i++)
			if (events[i].kind == GITWIRE_PACK) {
				gitwire_text pack = gitwire_event_part(&events[i], GITWIRE_PART_TEXT, chunk, buffer);

				count_pack((const uint8_t *)pack.at, pack.length);
			}
	}
	return answer.kind != GITWIRE_FAILED || tell_fault(answer);
}

/* Asks the request, and leaves after its response. */
static bool go_on(void)
{
	gitwire_answer answer;

	if (has_asked)
		return gitwire_client_leave(client) == GITWIRE_DONE;
	has_asked = true;
	answer = gitwire_client_ask(client, request);
	return answer.kind == GITWIRE_DONE || tell_fault(answer);
}

int main(void)
{
	gitwire_answer answer;

	if (!begin())
		return 1;
	while ((answer = gitwire_client_pull(client, buffer, sizeof buffer)).kind != GITWIRE_FINISHED) {
		if (answer.kind == GITWIRE_FAILED)
			return !tell_fault(answer);
		if (answer.kind == GITWIRE_CAN_ASK && !go_on())
			return 1;
		if (answer.kind == GITWIRE_NEED_INPUT && !(read_chunk() && hear()))
			return 1;
	}
	print_counts();
	gitwire_client_free(client);
	gitwire_request_free(request);
	return 0;
}
