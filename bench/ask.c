/*
 * Asks a server of Git's protocol, version 2, and measures it:
 *
 *     ask PROGRAM [ARGUMENT..] < REQUEST
 *
 * Starts the program, waits for its advertisement, sends it the request, and waits for the answer and for the program's end. Prints one
 * line: `start answer packets peak`. `start` is the time in microseconds until the end of the advertisement, `answer` the time from the
 * request to the end of the answer, `packets` counts the answer's data packets, and `peak` is the program's maximum resident set in KiB.
 */
#include <stdlib.h>
#include <sys/resource.h>
#include <sys/wait.h>
#include <time.h>

#include "pkt_line.h"

static struct reader reader;

static void stop(const char *why)
{
	fprintf(stderr, "ask: %s\n", why);
	exit(1);
}

static uint64_t microseconds(void)
{
	struct timespec now;

	clock_gettime(CLOCK_MONOTONIC, &now);
	return (uint64_t)now.tv_sec * 1000000 + (uint64_t)now.tv_nsec / 1000;
}

/* Starts the program. Its output is our standard input, and it reads what is written to the descriptor. */
static int start(char **program)
{
	int to[2], from[2];

	if (pipe(to) < 0 || pipe(from) < 0)
		stop("no pipe");
	pid_t child = fork();
	if (child < 0)
		stop("no process");
	if (child == 0) {
		dup2(to[0], STDIN_FILENO);
		dup2(from[1], STDOUT_FILENO);
		close(to[1]);
		close(from[0]);
		execvp(program[0], program);
		stop("the program does not start");
	}
	dup2(from[0], STDIN_FILENO);
	close(to[0]);
	close(from[1]);
	return to[1];
}

/* Reads the whole request, and sets its length. */
static char *read_request(size_t *length)
{
	size_t room = 4096;
	char *request = NULL;
	ssize_t count;

	*length = 0;
	do {
		room *= 2;
		request = realloc(request, room);
		if (!request)
			stop("no memory");
		do {
			count = read(STDIN_FILENO, request + *length, room - *length);
			if (count < 0)
				stop("no request");
			*length += (size_t)count;
		} while (count > 0 && *length < room);
	} while (count > 0);
	return request;
}

/* Sends the request. The program answers nothing before it has read all of it. */
static void send(int to, const char *request, size_t length)
{
	while (length > 0) {
		ssize_t count = write(to, request, length);
		if (count <= 0)
			stop("the program does not read");
		request += count;
		length -= (size_t)count;
	}
	close(to);
}

/* Reads up to a flush, and counts the data packets before it. */
static uint64_t read_message(void)
{
	uint64_t packets = 0;
	enum packet packet;

	while ((packet = next_packet(&reader)) == DATA)
		packets++;
	if (packet != FLUSH)
		stop("the program's output is no message");
	return packets;
}

/* Waits for the program's end, which has to be a good one. Returns its maximum resident set in KiB. */
static long wait_for_end(void)
{
	struct rusage usage;
	int status;

	if (next_packet(&reader) != NO_PACKET)
		stop("the program writes more than its answer");
	if (wait4(-1, &status, 0, &usage) < 0 || status != 0)
		stop("the program failed");
	return usage.ru_maxrss;
}

int main(int argc, char **argv)
{
	size_t length;
	char *request = read_request(&length);

	if (argc < 2 || length == 0) {
		fputs("usage: ask PROGRAM [ARGUMENT..] < REQUEST\n", stderr);
		return 2;
	}
	prepare_digits();
	uint64_t begin = microseconds();
	int to = start(argv + 1);
	read_message();
	uint64_t asked = microseconds();
	send(to, request, length);
	uint64_t packets = read_message();
	uint64_t answered = microseconds();
	printf("%" PRIu64 " %" PRIu64 " %" PRIu64 " %ld\n", asked - begin, answered - asked, packets, wait_for_end());
	return 0;
}
