/*
 * What the clients of this folder share: `git upload-pack` of a folder, over two pipes, and how they report errors. Each defines PROGRAM
 * before it: the name that its error messages begin with.
 */
#include <gitwire.h>

#include <inttypes.h>
#include <stdbool.h>
#include <stdio.h>
#include <stdlib.h>
#include <sys/wait.h>

#include "shown.h"
#include "start_program.h"

static int to_server, from_server;
static const uint8_t *chunk;                /* the bytes of the server that are still to be used */
static size_t chunk_length;
static uint8_t buffer[GITWIRE_PACKET_SIZE]; /* where the library writes */

static int report(const char *what)
{
	fprintf(stderr, PROGRAM ": %s\n", what);
	return 1;
}

/* Reports why the conversation was refused: the error by name and offset, and the server's message for it, or else what the error means. */
static int refuse(gitwire_client *client, gitwire_answer answer)
{
	char message[GITWIRE_PAYLOAD_SIZE];
	gitwire_answer sent = gitwire_client_message(client, message, sizeof message);

	fflush(stdout);
	fprintf(stderr, PROGRAM ": %s at %" PRIu64, gitwire_fault_name(answer.fault), answer.offset);
	if (sent.kind == GITWIRE_DONE) {
		fputs(": ", stderr);
		show_bytes(stderr, message, sent.length - (sent.length > 0 && message[sent.length - 1] == '\n'));
		fputc('\n', stderr);
	} else {
		fprintf(stderr, "\n%s\n", gitwire_fault_sentence(answer.fault));
	}
	return 1;
}

/* Adds an argument to a request: a word and a value. Returns why it is refused, or 0. */
static gitwire_fault add(gitwire_request *request, const char *word, const char *value)
{
	char line[GITWIRE_REFERENCE_NAME_SIZE + 100];
	int length = snprintf(line, sizeof line, "%s%s", word, value);

	if (length < 0 || (size_t)length >= sizeof line)
		return GITWIRE_FAULT_BAD_LINE;
	return gitwire_request_add(request, line, (size_t)length).fault;
}

/* Starts the server as a process of its own. */
static bool start_server(char *folder)
{
	char git[] = "git", command[] = "upload-pack", end[] = "--"; /* execvp() takes no constant words */
	char *words[] = { git, command, end, folder, NULL };

	setenv("GIT_PROTOCOL", "version=2", 1);
	return start_program(words, &to_server, &from_server) >= 0;
}

static void end_server(void)
{
	close(to_server);
	close(from_server);
	wait(NULL);
}

/* Sends the packet of this length in the buffer. False, and reported, if the server cannot be written to. */
static bool write_packet(size_t length)
{
	ssize_t count = 0;

	for (size_t at = 0; at < length; at += (size_t)count) {
		count = write(to_server, buffer + at, length - at);
		if (count <= 0)
			return !report("the server cannot be written to");
	}
	return true;
}

/* Reads the next chunk, once the last was used up. False, and reported, if none comes. */
static bool read_chunk(gitwire_client *client)
{
	static uint8_t bytes[65536];
	ssize_t count;

	if (chunk_length > 0)
		return true;
	count = read(from_server, bytes, sizeof bytes);
	if (count < 0)
		report("the server cannot be read from");
	else if (count == 0)
		refuse(client, gitwire_client_close(client));
	chunk = bytes;
	chunk_length = count > 0 ? (size_t)count : 0;
	return count > 0;
}
