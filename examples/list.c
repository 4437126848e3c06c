/*
 * Asks `git upload-pack` for the references of a repository, through two pipes, and prints what `git ls-remote --symref` does:
 *
 *     list [--sha256] FOLDER [PREFIX..]
 *
 * Only references are asked for whose names begin with one of the prefixes. Bytes of a name that are not printable ASCII are escaped.
 */
#define _POSIX_C_SOURCE 200809L
#define PROGRAM "list"
#include "upload_pack.h"

#include <string.h>

/*
 * Makes the request: the references of these prefixes, with the targets of symbolic ones and the objects that tags peel to. Returns why it
 * is refused, or 0.
 */
static gitwire_fault make_request(gitwire_request **request, gitwire_format format, char **prefixes)
{
	gitwire_fault fault;

	if (gitwire_request_new(request, GITWIRE_LS_REFS, format, GITWIRE_DEFAULT_LIMIT) != GITWIRE_DONE)
		return GITWIRE_FAULT_OUT_OF_MEMORY;
	fault = add(*request, "peel", "");
	if (fault == 0)
		fault = add(*request, "symrefs", "");
	for (; fault == 0 && *prefixes != NULL; prefixes++)
		fault = add(*request, "ref-prefix ", *prefixes);
	return fault;
}

/* Prints a part of a reference, and what comes after it. */
static void show(const gitwire_event *event, gitwire_part part, const char *end)
{
	gitwire_text text = gitwire_event_part(event, part, chunk, buffer);

	show_bytes(stdout, text.at, text.length);
	fputs(end, stdout);
}

static void show_reference(const gitwire_event *event)
{
	if (event->has_text) {
		fputs("ref: ", stdout);
		show(event, GITWIRE_PART_TEXT, "\t");
		show(event, GITWIRE_PART_NAME, "\n");
	}
	show(event, GITWIRE_PART_ID, "\t");
	show(event, GITWIRE_PART_NAME, "\n");
	if (event->peeled_length > 0) {
		show(event, GITWIRE_PART_PEELED, "\t");
		show(event, GITWIRE_PART_NAME, "^{}\n");
	}
}

/* Does what has to be done next, until everything was sent and received. Returns the exit status. */
static int converse(gitwire_client *client, gitwire_request *request)
{
	for (;;) {
		gitwire_answer next = gitwire_client_pull(client, buffer, sizeof buffer);
		gitwire_event event;

		switch (next.kind) {
		case GITWIRE_PACKET:
			if (!write_packet(next.length))
				return 1;
			break;
		case GITWIRE_CAN_ASK:
			next = gitwire_client_ask(client, request);
			if (next.kind == GITWIRE_NO_REQUEST) /* the client has taken it, and the server has answered it */
				gitwire_client_leave(client);
			else if (next.kind != GITWIRE_DONE)
				return refuse(client, next);
			break;
		case GITWIRE_NEED_INPUT:
			if (!read_chunk(client))
				return 1;
			event = gitwire_client_feed(client, chunk, chunk_length, buffer, sizeof buffer);
			if (event.kind == GITWIRE_REFERENCE)
				show_reference(&event);
			chunk += event.used;
			chunk_length -= event.used;
			break;
		case GITWIRE_FINISHED:
			return 0;
		default:
			return refuse(client, next);
		}
	}
}

int main(int count, char **words)
{
	bool is_sha256 = count > 1 && strcmp(words[1], "--sha256") == 0;
	gitwire_format format = is_sha256 ? GITWIRE_SHA256 : GITWIRE_SHA1;
	gitwire_client *client = NULL;
	gitwire_request *request = NULL;
	gitwire_fault fault;
	int status;

	words += 1 + is_sha256;
	if (*words == NULL) {
		fputs("usage: list [--sha256] FOLDER [PREFIX..]\n", stderr);
		return 2;
	}
	fault = make_request(&request, format, words + 1);
	if (fault == GITWIRE_FAULT_OUT_OF_MEMORY || gitwire_client_new(&client, format, GITWIRE_ENDS_BY_FLUSH) != GITWIRE_DONE) {
		status = report("no memory");
	} else if (fault != 0) {
		status = report("a prefix is too long");
	} else if (!start_server(*words)) {
		status = report("no server");
	} else {
		status = converse(client, request);
		end_server();
	}
	gitwire_request_free(request);
	gitwire_client_free(client);
	return fflush(stdout) != 0 || ferror(stdout) ? report("the output cannot be written") : status;
}
