/*
 * A client of daemon.c: its state, and its turn, in which it sends requests and receives answers. If a folder of Git is served, a process
 * of `upload-pack` takes the client over after its first packet.
 *
 * Whatever it does, it takes no more memory than a `struct client`, a buffer of one packet in the library, and there what MOST_KEPT bytes
 * of a request's arguments take.
 */
#include <gitwire.h>

#include <errno.h>
#include <fcntl.h>
#include <inttypes.h>
#include <limits.h>
#include <poll.h>
#include <signal.h>
#include <stdio.h>
#include <sys/prctl.h>
#include <sys/socket.h>
#include <sys/wait.h>
#include <string.h>
#include <time.h>
#include <unistd.h>

/* The maximum number of clients at a time. */
#ifndef MOST_CLIENTS
#define MOST_CLIENTS 128
#endif

/*
 * The maximum number of bytes in the texts of a request's argument lines and server options. For a clone Git sends a line for each
 * reference, `want-ref` and its name, or `want` and its object. So 300,000 references fit with names of 74 bytes on average, or with an
 * object each, in either format. A request with more is refused.
 *
 * This limits the memory that a client can take with its slot until it is answered: 25 MB, and 11 for 300,000 names of 22 bytes. In
 * addition a slot takes 200 KB, and before a request comes only these. So MOST_CLIENTS slots can take 3.3 GB: if that is too much, have
 * fewer of them, or a lower limit. With -DMOST_KEPT=1048576 some 20,000 references fit, and a slot takes little more than 1 MB.
 *
 * While one client's packet is made the others wait: at most for as long as it takes to sort the prefixes that fit within this limit, which
 * is about a second for 1,700,000 of them, or to compare each `unshallow` line of the text with each `shallow` line of the request. If the
 * text has many such lines, a lower limit is better.
 */
#ifndef MOST_KEPT
#define MOST_KEPT 25165824
#endif

/* How many packets are made for a client before the others have their turn: a small request can be answered by a flush alone. */
enum { MOST_PULLS = 64 };

/* What a client is at; NOBODY is in a slot that is free. */
enum phase { NOBODY, GREETING, SERVING, ENDING, LEAVING, HANDED_OVER };

struct client {
	enum phase phase;
	int connection;                           /* -1 once it is handed over */
	pid_t process;                            /* the process that has it then */
	time_t deadline;
	time_t since;                             /* when the wait for a whole request of it began */
	bool wants_input, input_ended;            /* all input is used, and more is needed; no more comes */
	gitwire_packet_reader *packets;           /* while GREETING */
	gitwire_server *server;                   /* from SERVING on */
	size_t in_at, in_end, out_at, out_end;    /* the bytes not used yet, and those not sent yet */
	uint8_t in[16384], out[2 * GITWIRE_PACKET_SIZE];
};

static gitwire_repository *repository; /* one for all */
static char served_path[4096];         /* what clients call it */
static const char *folder;             /* or a folder of Git, and how many seconds `upload-pack` is to wait for a client */
static char timeout[40];
static gitwire_writer *writer; /* of error packets */
static time_t patience;

static time_t seconds(void)
{
	struct timespec moment;

	clock_gettime(CLOCK_MONOTONIC, &moment);
	return moment.tv_sec;
}

/* An error by its name and offset, and for a limit how much that allows, valid until the next call. */
static const char *text_of(gitwire_answer answer)
{
	static char text[GITWIRE_FAULT_TEXT_SIZE + 100];
	int length = snprintf(text, sizeof text, "%s at %" PRIu64, gitwire_fault_name(answer.fault), answer.offset);

	if (answer.fault == GITWIRE_FAULT_TOO_MUCH_KEPT)
		snprintf(text + length, sizeof text - (size_t)length, ": this server takes no more than %d bytes of arguments in a request", MOST_KEPT);
	return text;
}

/* Reports on standard error what happened to a client, unless the write would wait for a reader. */
static void report(const char *what, const char *why)
{
	struct pollfd errors = { STDERR_FILENO, POLLOUT, 0 };

	if (poll(&errors, 1, 0) == 1 && errors.revents & POLLOUT)
		fprintf(stderr, "daemon: %s%s\n", what, why);
}

static void forget(struct client *c)
{
	gitwire_packet_reader_free(c->packets);
	gitwire_server_free(c->server);
	c->packets = NULL;
	c->server = NULL;
	close(c->connection);
	c->phase = NOBODY;
}

/* Puts an error packet after the bytes that wait to be sent. */
static void put_error(struct client *c, const char *why)
{
	c->out_end += gitwire_put_error(writer, why, strlen(why), c->out + c->out_end, sizeof c->out - c->out_end).length;
}

/* Makes an error packet the last that is sent. */
static void refuse(struct client *c, const char *why)
{
	report("refused: ", why);
	put_error(c, why);
	c->phase = ENDING;
}

/* Closes a client whose session is not over, and sends it the reason, unless bytes still wait to be sent: they may end inside a packet. */
static void dismiss(struct client *c, const char *what, const char *why)
{
	report(what, "");
	if (c->out_end == 0 && c->phase != LEAVING) {
		put_error(c, why);
		send(c->connection, c->out, c->out_end, 0);
	}
	forget(c);
}

/* Gives the connection to a process of `upload-pack`, which ends when this one does. */
static void hand_over(struct client *c)
{
	pid_t here = getpid();

	c->process = fork();
	if (c->process == 0) {
		if (prctl(PR_SET_PDEATHSIG, SIGTERM) != 0 || getppid() != here || fcntl(c->connection, F_SETFL, 0) != 0)
			_exit(127);
		signal(SIGINT, SIG_DFL);
		signal(SIGPIPE, SIG_DFL);
		dup2(c->connection, STDIN_FILENO);
		dup2(c->connection, STDOUT_FILENO);
		execlp("upload-pack", "upload-pack", "--strict", timeout, "--", folder, (char *)NULL);
		_exit(127);
	}
	if (c->process < 0) {
		refuse(c, "no process can be made");
		return;
	}
	close(c->connection);
	c->connection = -1;
	c->phase = HANDED_OVER;
	c->wants_input = false;
}

/* Frees the slot of a client whose process has ended. */
static void see_off(struct client *c)
{
	char status[40];
	int ended;

	if (waitpid(c->process, &ended, WNOHANG) != c->process)
		return;
	snprintf(status, sizeof status, "%d", WIFEXITED(ended) ? WEXITSTATUS(ended) : 128 + WTERMSIG(ended));
	if (ended != 0)
		report("upload-pack ended with status ", status);
	c->phase = NOBODY;
}

/* Why a first packet of this payload is not served, or NULL. */
static const char *why_not(const uint8_t *payload, size_t length)
{
	gitwire_greeting greeting = gitwire_greeting_read(payload, length);

	if (greeting.kind != GITWIRE_DONE)
		return "the first packet is no greeting as in gitprotocol-pack(5)";
	if (greeting.service != GITWIRE_UPLOAD_PACK || greeting.path_length != strlen(served_path)
		|| memcmp(payload + greeting.path, served_path, greeting.path_length) != 0)
		return "nothing but the fetch side of one repository is served here";
	return greeting.wants_version_2 ? NULL : "nothing but version 2 of the protocol is served here";
}

/* Reads on to the end of the first packet, whose payload goes to where the answer will be. The bytes after it stay in the connection. */
static void greet(struct client *c)
{
	gitwire_answer answer = gitwire_packet_reader_feed(c->packets, c->in, c->in_end, c->out, sizeof c->out);
	const char *why;

	if (answer.used > 0)
		c->input_ended |= recv(c->connection, c->in, answer.used, 0) != (ssize_t)answer.used;
	c->in_end = 0;
	if (answer.kind == GITWIRE_MORE && !c->input_ended)
		return;
	if (answer.kind == GITWIRE_MORE)
		answer = gitwire_packet_reader_close(c->packets);
	gitwire_packet_reader_free(c->packets);
	c->packets = NULL;
	if (answer.kind == GITWIRE_DONE) { /* nothing was asked */
		c->phase = ENDING;
	} else if (answer.kind == GITWIRE_FAILED) {
		refuse(c, text_of(answer));
	} else if ((why = why_not(c->out, answer.length)) != NULL) {
		refuse(c, why);
	} else if (folder != NULL) {
		hand_over(c);
	} else if (gitwire_server_new(&c->server, repository, MOST_KEPT, true) != GITWIRE_DONE) {
		refuse(c, "no memory");
	} else {
		c->phase = SERVING;
	}
}

/* Whether a packet of a server is an error packet, which is its last one, and reports why it refuses. */
static bool is_error(const uint8_t *packet, size_t length)
{
	return length >= 8 && memcmp(packet + 4, "ERR ", 4) == 0;
}

/* Ends a session that was refused. An error packet of the client is not answered with another. */
static void end_refused(struct client *c, gitwire_answer answer)
{
	report("a session ended with ", text_of(answer));
	if (answer.fault != GITWIRE_FAULT_REMOTE_ERROR)
		put_error(c, text_of(answer));
	c->phase = ENDING;
}

/*
 * Takes the packets that the server has to send, as long as a whole one fits and the turn lasts, and feeds it the input. Its error packet
 * is replaced by one that also states how much a limit allows: the next pull returns the error.
 */
static void serve(struct client *c)
{
	c->wants_input = false;
	for (int i = 0; i < MOST_PULLS && sizeof c->out - c->out_end >= GITWIRE_PACKET_SIZE && !c->wants_input; i++) {
		uint8_t *packet = c->out + c->out_end;
		gitwire_answer answer = gitwire_server_pull(c->server, packet, sizeof c->out - c->out_end);

		if (answer.kind == GITWIRE_PACKET) {
			c->out_end += is_error(packet, answer.length) ? 0 : answer.length;
		} else if (answer.kind == GITWIRE_FAILED) {
			end_refused(c, answer);
			return;
		} else if (answer.kind != GITWIRE_NEED_INPUT) {
			c->phase = ENDING;
			return;
		} else if (c->in_at < c->in_end) {
			c->in_at += gitwire_server_feed(c->server, c->in + c->in_at, c->in_end - c->in_at).used;
		} else if (c->input_ended) {
			gitwire_server_close(c->server);
		} else {
			c->wants_input = true;
		}
	}
}

/* What is expected from a client: first that it takes the bytes to be sent, and only then that it sends more. */
static short awaited(const struct client *c)
{
	return c->wants_input && c->out_end == 0 ? POLLIN : POLLOUT;
}

/* Whether bytes were sent or received; then a client in its session gets its full time again. A client with a broken connection is forgotten. */
static bool has_moved(struct client *c, ssize_t count)
{
	if (count < 0 && errno != EAGAIN && errno != EINTR)
		forget(c);
	if (count >= 0 && c->phase != GREETING && c->phase != LEAVING)
		c->deadline = seconds() + patience;
	return count >= 0;
}

/* One turn of a client: at most one read, MOST_PULLS packets and one write, so that no client holds up the others. */
static void turn(struct client *c)
{
	ssize_t count;

	if (awaited(c) == POLLIN) {
		count = recv(c->connection, c->in, sizeof c->in, c->phase == GREETING ? MSG_PEEK : 0);
		if (!has_moved(c, count))
			return;
		c->in_at = 0;
		c->in_end = (size_t)count;
		c->input_ended = count == 0;
	}
	if (c->phase == GREETING)
		greet(c);
	if (c->phase == SERVING)
		serve(c);
	if (c->out_end > 0) {
		count = send(c->connection, c->out + c->out_at, c->out_end - c->out_at, 0);
		if (!has_moved(c, count))
			return;
		c->out_at += (size_t)count;
		if (c->out_at < c->out_end)
			return;
		c->out_at = c->out_end = 0;
		c->since = seconds();
	}
	if (c->phase == ENDING) { /* all is sent: what the client still sends is read and dropped, so that it can read to the end */
		c->phase = LEAVING;
		c->wants_input = true;
		shutdown(c->connection, SHUT_WR);
	}
	if (c->phase == LEAVING && c->input_ended)
		forget(c);
}

/* Starts with a client that has connected. */
static void begin(struct client *c, int connection)
{
	c->phase = GREETING;
	c->connection = connection;
	c->since = seconds();
	c->deadline = c->since + patience;
	c->wants_input = true;
	c->input_ended = false;
	c->in_at = c->in_end = c->out_at = c->out_end = 0;
	if (gitwire_packet_reader_new(&c->packets) != GITWIRE_DONE)
		refuse(c, "no memory");
}
