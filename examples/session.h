/* A session of a server over the store: what it sends, the parts of a request, and how it ends if something fails. */
#include <gitwire.h>

#include <errno.h>
#include <poll.h>
#include <stdint.h>
#include <string.h>
#include <unistd.h>

static gitwire_host *host;
static char text[GITWIRE_REFERENCE_NAME_SIZE + 1];
static uint8_t output[8 * GITWIRE_PACKET_SIZE]; /* the bytes to be sent, and after them space for a packet */
static size_t output_length;
static unsigned timeout; /* how many seconds a client may take to send or receive some bytes, or 0 */

/* Whether a read or a write can be tried again: a signal came, or the other end has none to give or to take yet, which is waited for. */
static bool can_try_again(int end, short events)
{
	struct pollfd ready = { end, events, 0 };

	if (errno != EAGAIN)
		return errno == EINTR;
	return poll(&ready, 1, -1) >= 0 || errno == EINTR;
}

/* Sends all that there is to send. To a client with a time limit it sends only so much at once: a write ends when all of it is taken. */
static void flush_output(void)
{
	for (size_t at = 0; at < output_length;) {
		size_t left = output_length - at;
		ssize_t written;

		alarm(timeout);
		written = write(STDOUT_FILENO, output + at, timeout > 0 && left > 8192 ? 8192 : left);
		if (written < 0 && !can_try_again(STDOUT_FILENO, POLLOUT))
			stop("the answer cannot be written");
		at += written < 0 ? 0 : (size_t)written;
	}
	if (output_length > 0)
		alarm(0);
	output_length = 0;
}

/* Where the next packet goes. */
static uint8_t *buffer(void)
{
	if (sizeof output - output_length < GITWIRE_PACKET_SIZE)
		flush_output();
	return output + output_length;
}

/* Keeps what a call wrote there, if anything. Any other result means that this program is wrong. */
static void give(gitwire_answer answer)
{
	if (answer.kind != GITWIRE_PACKET && answer.kind != GITWIRE_MORE)
		stop("a call that may not be made now");
	output_length += answer.length;
}

/* Sends the packets that follow a report, up to the next question. */
static void give_following(void)
{
	gitwire_answer next;

	while ((next = gitwire_host_pull(host, buffer(), GITWIRE_PACKET_SIZE)).kind == GITWIRE_PACKET)
		give(next);
}

/* The answer to a question cannot be found: the session is over. The client receives that at any question, and before a request is accepted. */
__attribute__((noreturn)) static void fail(const char *what)
{
	static const char reason[] = "the repository cannot be read";
	gitwire_answer answer;

	if (host != NULL) { /* or else the session has not begun */
		answer = gitwire_host_fail(host, buffer(), GITWIRE_PACKET_SIZE);
		if (answer.kind == GITWIRE_NOT_NOW)
			answer = gitwire_host_refuse(host, reason, sizeof reason - 1, buffer(), GITWIRE_PACKET_SIZE);
		if (answer.kind == GITWIRE_PACKET)
			give(answer);
	}
	fprintf(stderr, PROGRAM ": %s\n", what);
	flush_output();
	exit(1);
}

/* The item of a list of the request, in `text` with a NUL after it, or NULL past the list's end. */
static const char *item(gitwire_list list, uint64_t at)
{
	gitwire_answer answer = gitwire_host_item(host, list, at, text, sizeof text - 1);

	if (answer.kind != GITWIRE_DONE)
		return NULL;
	text[answer.length] = 0;
	return strlen(text) == answer.length ? text : ""; /* a text with a NUL in it names nothing */
}
