/*
 * Checks a recorded conversation, and prints the lines of its transcript, as `git2show check` does. If it is refused, the stream, the error and
 * its offset are reported, and the status is 1.
 *
 *     check [--sha256] [--stateless] [--chunk N] REQUESTS RESPONSES
 *
 * REQUESTS is a file of what the client sent, and RESPONSES of what the server sent, its advertisement first. With --stateless each response
 * ends with a response-end packet. N is how many bytes are read and fed at a time: at most 65,536, which is the default.
 */
#include <gitwire.h>

#include <inttypes.h>
#include <stdio.h>
#include <stdlib.h>
#include <string.h>

#define MOST_BYTES 65536

/* What one side sent: the file, and the bytes of it that were read and are not used yet. */
struct side {
	FILE *file;
	size_t at, end;
	uint8_t bytes[MOST_BYTES];
};

static struct side client, server;

static int report(const char *what)
{
	fflush(stdout);
	fprintf(stderr, "check: %s\n", what);
	return 1;
}

/* Reports an error by its stream, its name and its offset. */
static int refuse(const char *stream, gitwire_answer answer)
{
	fflush(stdout);
	fprintf(stderr, "check: %s: %s at %" PRIu64 "\n", stream, gitwire_fault_name(answer.fault), answer.offset);
	return 1;
}

/* Feeds what waits of a stream, or else what is read, or its end. What the checker does not use now waits. Returns whether the file can be read. */
static bool feed(gitwire_checker *checker, gitwire_stream stream, struct side *side, size_t most)
{
	if (side->at == side->end) {
		side->at = 0;
		side->end = fread(side->bytes, 1, most, side->file);
		if (ferror(side->file))
			return false;
	}
	if (side->end == 0)
		gitwire_checker_close(checker, stream);
	else
		side->at += gitwire_checker_feed(checker, stream, side->bytes + side->at, side->end - side->at).used;
	return true;
}

/* Checks all, and returns the exit status. */
static int check(gitwire_checker *checker, size_t most)
{
	char lines[4096];

	for (;;) {
		gitwire_answer answer = gitwire_checker_pull(checker, lines, sizeof lines);

		switch (answer.kind) {
		case GITWIRE_LINES:
			fwrite(lines, 1, answer.length, stdout);
			break;
		case GITWIRE_NEED_REQUESTS:
			if (!feed(checker, GITWIRE_STREAM_REQUESTS, &client, most))
				return report("the requests cannot be read");
			break;
		case GITWIRE_NEED_RESPONSES:
			if (!feed(checker, GITWIRE_STREAM_RESPONSES, &server, most))
				return report("the responses cannot be read");
			break;
		case GITWIRE_FAILED_REQUESTS:
			return refuse("requests", answer);
		case GITWIRE_FAILED_RESPONSES:
			return refuse("responses", answer);
		default: /* GITWIRE_CHECKED */
			return 0;
		}
	}
}

/* The number that a word is, or 0. */
static size_t number_of(const char *word)
{
	char *end;
	size_t number = strtoul(word, &end, 10);

	return *end == 0 ? number : 0;
}

int main(int count, char **words)
{
	gitwire_format format = GITWIRE_SHA1;
	gitwire_ending ending = GITWIRE_ENDS_BY_FLUSH;
	size_t most = MOST_BYTES;
	bool is_known = true;
	gitwire_checker *checker;
	int status, at = 1;

	for (; at < count && strncmp(words[at], "--", 2) == 0; at++) {
		if (strcmp(words[at], "--sha256") == 0)
			format = GITWIRE_SHA256;
		else if (strcmp(words[at], "--stateless") == 0)
			ending = GITWIRE_ENDS_BY_RESPONSE_END;
		else if (strcmp(words[at], "--chunk") == 0 && at + 1 < count)
			most = number_of(words[++at]);
		else
			is_known = false;
	}
	if (!is_known || most < 1 || most > MOST_BYTES || count - at != 2) {
		fputs("usage: check [--sha256] [--stateless] [--chunk N] REQUESTS RESPONSES\n", stderr);
		return 2;
	}
	client.file = fopen(words[at], "rb");
	server.file = fopen(words[at + 1], "rb");
	if (client.file == NULL || server.file == NULL)
		return report("a file cannot be opened");
	if (gitwire_checker_new(&checker, format, ending, GITWIRE_DEFAULT_LIMIT) != GITWIRE_DONE)
		return report("no memory");
	status = check(checker, most);
	gitwire_checker_free(checker);
	fclose(client.file);
	fclose(server.file);
	return fflush(stdout) != 0 || ferror(stdout) ? report("the output cannot be written") : status;
}
