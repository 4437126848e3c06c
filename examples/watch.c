/*
 * Runs between a client and its server, passes on what either sends, and prints the transcript of both, the lines of `git2show check`:
 *
 *     watch [--sha256] [--transcript FILE] COMMAND [WORD..]
 *
 * The client is on standard input and output, and COMMAND starts the server. The transcript goes to standard error, or to the named file. A
 * packet goes on once it is whole and judged. The first that is malformed, or is not allowed where it comes, is reported by name and offset,
 * to the client too; it does not go on, nor does what comes after it, and the conversation ends.
 *
 *     git clone --upload-pack "watch git upload-pack" "file://$PWD/FOLDER" CLONE
 *
 * The client has its turn until a request is whole, and the server until it has answered: what one sends before its turn waits. For each
 * side there is a buffer of one packet, and one in the library, beside what a checker keeps, gitwire_checker(3). There is no limit on time: if
 * untrusted clients can reach the host, it has to limit each turn.
 */
#define _POSIX_C_SOURCE 200809L
#include <gitwire.h>

#include "start_program.h"

#include <errno.h>
#include <limits.h>
#include <poll.h>
#include <stdio.h>
#include <stdlib.h>
#include <string.h>
#include <sys/wait.h>

/* What one side sends to the other. */
struct stream {
	const char *name;
	gitwire_stream number;
	gitwire_result turn, refused;       /* what the checker needs at this side's turn, and its verdict against this side */
	int from, to;                       /* -1 once it has ended; -1 once nobody reads it any more */
	gitwire_packet_reader *packets;     /* finds where a packet ends */
	size_t judged, read, end;           /* of the bytes here: how many may go on, were read as packets, have come */
	uint8_t bytes[GITWIRE_PACKET_SIZE];
};

static struct stream requests = {
	"requests", GITWIRE_STREAM_REQUESTS, GITWIRE_NEED_REQUESTS, GITWIRE_FAILED_REQUESTS, STDIN_FILENO, -1, NULL, 0, 0, 0, { 0 },
};
static struct stream responses = {
	"responses", GITWIRE_STREAM_RESPONSES, GITWIRE_NEED_RESPONSES, GITWIRE_FAILED_RESPONSES, -1, STDOUT_FILENO, NULL, 0, 0, 0, { 0 },
};
static gitwire_checker *checker;
static gitwire_answer next;             /* what the checker needs, or the verdict */
static uint64_t request_at;             /* where the client's request begins, the unfinished or else the next one */
static bool has_left;                   /* the client asks no more */
static bool on_band;                    /* the server's last packet was one of a side band */
static FILE *transcript;
static uint8_t buffer[GITWIRE_PACKET_SIZE]; /* for the library: a payload that nobody looks at, or the packet of a report */

static int report(const char *what)
{
	fprintf(stderr, "watch: %s\n", what);
	return 1;
}

/* Receives bytes, as many as fit, or the end of the stream. */
static void take_in(struct stream *stream)
{
	ssize_t count = read(stream->from, stream->bytes + stream->end, sizeof stream->bytes - stream->end);

	if (count > 0)
		stream->end += (size_t)count;
	else if (count == 0 || (errno != EINTR && errno != EAGAIN)) {
		close(stream->from);
		stream->from = -1;
	}
}

/* Drops bytes that may go on: they did, or nobody reads them. */
static void drop(struct stream *stream, size_t count)
{
	stream->judged -= count;
	stream->read -= count;
	stream->end -= count;
	memmove(stream->bytes, stream->bytes + count, stream->end);
}

/* Passes on what may go on, as much as a pipe takes without waiting. Returns whether somebody reads it. */
static bool pass_on(struct stream *stream)
{
	ssize_t count = write(stream->to, stream->bytes, stream->judged < PIPE_BUF ? stream->judged : PIPE_BUF);

	if (count < 0)
		return errno == EINTR || errno == EAGAIN;
	drop(stream, (size_t)count);
	return true;
}

/* Passes on all that may go on, as long as somebody reads it. */
static void pass_all_on(struct stream *stream)
{
	struct pollfd ready = { stream->to, POLLOUT, 0 };

	while (stream->to >= 0 && stream->judged > 0)
		if ((poll(&ready, 1, -1) < 0 && errno != EINTR) || !pass_on(stream))
			return;
}

static void refuse(const struct stream *stream, gitwire_fault fault, uint64_t offset)
{
	next.kind = stream->refused;
	next.fault = fault;
	next.offset = offset;
}

static bool is_refused(void)
{
	return next.kind == requests.refused || next.kind == responses.refused;
}

/* Whether what is refused reports an error to the other side, and so has to reach it. */
static bool reports_an_error(void)
{
	return next.fault == GITWIRE_FAULT_REMOTE_ERROR || next.fault == GITWIRE_FAULT_REMOTE_FATAL;
}

/* Writes the lines that the checker has, and notes what it needs after them. */
static void take_lines(void)
{
	char lines[4096];

	while ((next = gitwire_checker_pull(checker, lines, sizeof lines)).kind == GITWIRE_LINES)
		fwrite(lines, 1, next.length, transcript);
}

/* Feeds the checker, at this side's turn, what comes after the judged bytes, up to this place. */
static void feed(const struct stream *stream, size_t end)
{
	size_t at = stream->judged;

	while (at < end && next.kind == stream->turn) {
		at += gitwire_checker_feed(checker, stream->number, stream->bytes + at, end - at).used;
		take_lines();
	}
}

/* Judges the packet that ends where the reading of packets has come to. */
static void judge_packet(struct stream *stream, gitwire_answer packet)
{
	size_t length = stream->read - stream->judged;
	uint8_t first = length > 4 ? stream->bytes[stream->judged + 4] : 0;

	if (packet.kind == GITWIRE_FAILED)
		refuse(stream, packet.fault, packet.offset);
	else if (next.kind != stream->turn)
		refuse(stream, GITWIRE_FAULT_REMOTE_ERROR, packet.offset); /* the server may refuse a request that is not whole */
	else
		feed(stream, stream->read);
	if (stream == &requests && next.kind == responses.refused)
		refuse(stream, next.fault, request_at); /* it may not be asked */
	if (is_refused() && !reports_an_error())
		return;
	if (stream == &requests && next.kind == responses.turn) {
		has_left = packet.offset == request_at; /* by a flush in the place of a request */
		request_at = packet.offset + length;
	}
	if (stream == &responses)
		on_band = first == GITWIRE_BAND_PACK || first == GITWIRE_BAND_PROGRESS;
	stream->judged = stream->read;
}

/* Whether the next packet of a stream may be judged: at its turn, and an error packet of the server at any time. */
static bool has_turn(const struct stream *stream)
{
	const uint8_t *text = stream->bytes + stream->judged + 4;

	return next.kind == stream->turn
		|| (stream == &responses && stream->end - stream->judged >= 8 && memcmp(text, "ERR ", 4) == 0);
}

/* Judges the packets of a stream that are whole, and its end once they are judged, if it is its turn. */
static void judge(struct stream *stream)
{
	gitwire_answer packet;

	if (has_left)
		feed(stream, stream->end); /* nothing may follow the last response, not even a part of a packet */
	while (!is_refused() && stream->read < stream->end && (stream->read > stream->judged || has_turn(stream))) {
		packet = gitwire_packet_reader_feed(stream->packets, stream->bytes + stream->read, stream->end - stream->read, buffer,
			sizeof buffer);
		stream->read += packet.used;
		if (packet.kind != GITWIRE_MORE)
			judge_packet(stream, packet);
	}
	if (is_refused() || stream->from >= 0 || stream->read < stream->end)
		return;
	packet = gitwire_packet_reader_close(stream->packets);
	if (packet.kind == GITWIRE_FAILED) {
		refuse(stream, packet.fault, packet.offset);
	} else if (next.kind == stream->turn) {
		gitwire_checker_close(checker, stream->number);
		take_lines();
		has_left |= stream == &requests;
	}
}

/* Reports to the client, where its user sees it, why the conversation ends: inside a pack on a side band, otherwise in an error packet. */
static void report_to_client(const char *text, size_t length)
{
	gitwire_writer *writer;
	gitwire_answer answer;

	if (gitwire_writer_new(&writer) != GITWIRE_DONE)
		return;
	if (on_band)
		answer = gitwire_put_band(writer, GITWIRE_BAND_FATAL, (const uint8_t *)text, length, buffer, sizeof buffer);
	else
		answer = gitwire_put_error(writer, text, length, buffer, sizeof buffer);
	if (answer.kind == GITWIRE_DONE && write(responses.to, buffer, answer.length) < 0)
		report("the client is gone");
	gitwire_writer_free(writer);
}

/* Ends the conversation: what was judged goes on, and so does an error that one side sent to the other. */
static int end_refused(void)
{
	char text[GITWIRE_FAULT_TEXT_SIZE];
	size_t length = gitwire_fault_text(next.fault, next.offset, text, sizeof text);

	fprintf(stderr, "watch: %s: %.*s\n", next.kind == requests.refused ? requests.name : responses.name, (int)length, text);
	pass_all_on(&responses);
	if (reports_an_error())
		pass_all_on(&requests);
	else
		report_to_client(text, length);
	return 1;
}

/* The server receives no more: what the client sends now goes nowhere. */
static void close_server(void)
{
	if (requests.to >= 0)
		close(requests.to);
	requests.to = -1;
	drop(&requests, requests.judged);
}

/* What to wait for: bytes, if they fit, and somebody who reads those that may go on. */
static void await(const struct stream *stream, struct pollfd *polled)
{
	struct pollfd input = { stream->end < sizeof stream->bytes ? stream->from : -1, POLLIN, 0 };
	struct pollfd output = { stream->judged > 0 ? stream->to : -1, POLLOUT, 0 };

	polled[0] = input;
	polled[1] = output;
}

/* Passes on what both send until the server ends. Returns the exit status. */
static int watch(void)
{
	take_lines();
	for (;;) {
		struct pollfd polled[4];

		judge(&requests);
		judge(&responses);
		fflush(transcript);
		if (is_refused())
			return end_refused();
		if (responses.from < 0 && responses.end == 0 && next.kind != responses.turn)
			return 0;
		if (requests.to < 0 || (requests.judged == 0 && has_left))
			close_server();
		await(&requests, polled);
		await(&responses, polled + 2);
		if (poll(polled, 4, -1) < 0 && errno != EINTR)
			return report(strerror(errno));
		if (polled[0].revents)
			take_in(&requests);
		if (polled[1].revents && !pass_on(&requests))
			close_server();
		if (polled[2].revents)
			take_in(&responses);
		if (polled[3].revents && !pass_on(&responses))
			return report("the client is gone");
	}
}

/* Watches the server that this command starts. Returns the exit status. */
static int watch_server(char **command)
{
	pid_t server = start_program(command, &requests.to, &responses.from);
	int status;

	if (server < 0)
		return report("no server");
	status = watch();
	close_server();
	if (responses.from >= 0)
		close(responses.from);
	if (status != 0)
		kill(server, SIGTERM); /* it may be waiting for a client that is gone */
	waitpid(server, NULL, 0);
	return status;
}

int main(int count, char **words)
{
	gitwire_format format = GITWIRE_SHA1;
	const char *name = NULL;
	int status, at = 1;

	transcript = stderr;
	for (; at < count && strncmp(words[at], "--", 2) == 0; at++) {
		if (strcmp(words[at], "--sha256") == 0)
			format = GITWIRE_SHA256;
		else if (strcmp(words[at], "--transcript") == 0 && at + 1 < count)
			name = words[++at];
		else
			break;
	}
	if (at == count || words[at][0] == '-') {
		fputs("usage: watch [--sha256] [--transcript FILE] COMMAND [WORD..]\n", stderr);
		return 2;
	}
	if (name != NULL && (transcript = fopen(name, "w")) == NULL)
		return report("the transcript cannot be opened");
	setvbuf(transcript, NULL, _IOFBF, BUFSIZ); /* it is flushed before each wait */
	if (gitwire_checker_new(&checker, format, GITWIRE_ENDS_BY_FLUSH, GITWIRE_DEFAULT_LIMIT) != GITWIRE_DONE
		|| gitwire_packet_reader_new(&requests.packets) != GITWIRE_DONE
		|| gitwire_packet_reader_new(&responses.packets) != GITWIRE_DONE)
		status = report("no memory");
	else
		status = watch_server(words + at);
	gitwire_checker_free(checker);
	gitwire_packet_reader_free(requests.packets);
	gitwire_packet_reader_free(responses.packets);
	if (fflush(transcript) != 0 || ferror(transcript))
		status = report("the transcript cannot be written");
	if (name != NULL)
		fclose(transcript);
	return status;
}
