/*
 * Fetches a pack from `git upload-pack`, through two pipes: the objects that a reference of a repository reaches, into a file.
 *
 *     fetch FOLDER REFERENCE PACK
 *
 * REFERENCE is a whole name, as `HEAD` or `refs/heads/main`; its object is printed. The object format is the one that the server advertises. The
 * server's progress is shown if standard error is a terminal, with the bytes escaped that could control it. `git index-pack` takes the pack.
 */
#define _POSIX_C_SOURCE 200809L
#define PROGRAM "fetch"
#include "upload_pack.h"

#include <string.h>

/* What to ask. */
enum step { LIST, GET, LEAVE };

/* A fetch, from the request for the reference to the last byte of the pack. */
struct fetch {
	gitwire_client *client;
	const char *reference;
	char id[GITWIRE_OBJECT_NAME_SIZE + 1]; /* the reference's object, once the server has sent it */
	enum step next;
	FILE *pack;
};

/* Makes the next request, in the format that the server has advertised: the reference's object, or the pack of that object. */
static bool make_request(const struct fetch *fetch, gitwire_request **request)
{
	gitwire_command command = fetch->next == LIST ? GITWIRE_LS_REFS : GITWIRE_FETCH;

	if (gitwire_request_new(request, command, gitwire_client_format(fetch->client), GITWIRE_DEFAULT_LIMIT) != GITWIRE_DONE)
		return false;
	if (command == GITWIRE_LS_REFS)
		return add(*request, "ref-prefix ", fetch->reference) == 0;
	return add(*request, "want ", fetch->id) == 0 && add(*request, "ofs-delta", "") == 0 && add(*request, "done", "") == 0;
}

/* Asks the next request, or leaves. Returns the exit status, or -1 to continue. */
static int ask_next(struct fetch *fetch)
{
	gitwire_request *request;
	gitwire_answer answer;
	bool is_made;

	if (fetch->next == LEAVE) {
		gitwire_client_leave(fetch->client);
		return -1;
	}
	if (fetch->next == GET && fetch->id[0] == '\0')
		return report("no such reference");
	is_made = make_request(fetch, &request);
	if (is_made)
		answer = gitwire_client_ask(fetch->client, request);
	gitwire_request_free(request); /* the client has what it asks */
	if (!is_made)
		return report("a reference that cannot be asked for");
	fetch->next = fetch->next == LIST ? GET : LEAVE;
	return answer.kind == GITWIRE_DONE ? -1 : refuse(fetch->client, answer);
}

/* Shows a part of the server's progress, with all escaped but what ends a line: LF, or CR, after which the next line takes its place. */
static void show_progress(gitwire_text text)
{
	for (size_t at = 0, end; at < text.length; at = end + 1) {
		for (end = at; end < text.length && text.at[end] != '\n' && text.at[end] != '\r';)
			end++;
		show_bytes(stderr, text.at + at, end - at);
		if (end < text.length)
			fputc(text.at[end], stderr);
	}
}

/* Takes an event of the server. False if the pack cannot be written. */
static bool take(struct fetch *fetch, const gitwire_event *event)
{
	gitwire_text id = gitwire_event_part(event, GITWIRE_PART_ID, chunk, buffer);
	gitwire_text name = gitwire_event_part(event, GITWIRE_PART_NAME, chunk, buffer);
	gitwire_text text = gitwire_event_part(event, GITWIRE_PART_TEXT, chunk, buffer);

	if (event->kind == GITWIRE_PACK)
		return fwrite(text.at, 1, text.length, fetch->pack) == text.length;
	if (event->kind == GITWIRE_PROGRESS && isatty(STDERR_FILENO))
		show_progress(text);
	if (event->kind == GITWIRE_REFERENCE && id.length > 0 && name.length == strlen(fetch->reference)
		&& memcmp(name.at, fetch->reference, name.length) == 0)
		memcpy(fetch->id, id.at, id.length); /* of a reference that is not unborn */
	return true;
}

/* Does what has to be done next, until everything was sent and received. Returns the exit status. */
static int converse(struct fetch *fetch)
{
	int status = -1;

	while (status < 0) {
		gitwire_answer next = gitwire_client_pull(fetch->client, buffer, sizeof buffer);
		gitwire_event event;

		switch (next.kind) {
		case GITWIRE_PACKET:
			if (!write_packet(next.length))
				return 1;
			break;
		case GITWIRE_CAN_ASK:
			status = ask_next(fetch);
			break;
		case GITWIRE_NEED_INPUT:
			if (!read_chunk(fetch->client))
				return 1;
			event = gitwire_client_feed(fetch->client, chunk, chunk_length, buffer, sizeof buffer);
			if (!take(fetch, &event))
				return report("the pack cannot be written");
			chunk += event.used;
			chunk_length -= event.used;
			break;
		case GITWIRE_FINISHED:
			return 0;
		default:
			return refuse(fetch->client, next);
		}
	}
	return status;
}

/* Fetches into the file of this name. Returns the exit status. */
static int fetch_into(struct fetch *fetch, char *folder, const char *name)
{
	int status;

	if (gitwire_client_new(&fetch->client, GITWIRE_FORMAT_ANY, GITWIRE_ENDS_BY_FLUSH) != GITWIRE_DONE)
		return report("no memory");
	fetch->pack = fopen(name, "wb");
	if (fetch->pack == NULL)
		return report("the pack cannot be opened");
	if (start_server(folder)) {
		status = converse(fetch);
		end_server();
	} else {
		status = report("no server");
	}
	if (fclose(fetch->pack) != 0 && status == 0)
		status = report("the pack cannot be written");
	return status;
}

int main(int count, char **words)
{
	struct fetch fetch = { NULL, NULL, "", LIST, NULL };
	int status;

	if (count != 4) {
		fputs("usage: fetch FOLDER REFERENCE PACK\n", stderr);
		return 2;
	}
	fetch.reference = words[2];
	status = fetch_into(&fetch, words[1], words[3]);
	gitwire_client_free(fetch.client);
	if (status == 0 && (puts(fetch.id) < 0 || fflush(stdout) != 0))
		status = report("the output cannot be written");
	return status;
}
