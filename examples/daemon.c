/*
 * Serves one repository to many clients over TCP, in one thread:
 *
 *     daemon ADDRESS PORT SECONDS NAME FOLDER
 *     daemon ADDRESS PORT SECONDS NAME TEXT PACK [FILTERED]
 *
 * ADDRESS is one of the loopback network. PORT 0 is any free port; the line on standard output has its number. NAME is how clients name the
 * repository. FOLDER is one of Git's own: each client of it is handed over to a process of `upload-pack` (upload-pack.c), found on the
 * path. Or TEXT is a repository text, and PACK the pack of every fetch; a fetch with a filter gets FILTERED instead, if there is one. A
 * client that has not sent its first packet within so many SECONDS is closed, and so is one that then neither reads nor writes for as long.
 * Packs are mapped and not copied: write a new one to another file and rename that, since a file that is made shorter ends the daemon.
 * SIGINT ends it.
 *
 * There is a slot for each of MOST_CLIENTS. If another client comes, the one that has been expected to send a whole request for the longest time
 * is closed: so clients that send little keep nobody out. A client that takes an answer, however slowly, keeps its slot, and so does one of
 * FOLDER from its first packet on, if it sends or takes a byte within so many SECONDS: if untrusted clients can reach the host, it has to give
 * each address few slots, and limit the time of each session. MOST_KEPT, in client.h, sets the memory that a client may take with its slot.
 *
 * A client above a limit receives an error packet that states the limit and how much it allows: of a request, of time, of clients.
 */
#ifndef _GNU_SOURCE /* g++ defines it */
#define _GNU_SOURCE
#endif
#define PROGRAM "daemon"
#include "common.h"

#include <arpa/inet.h>
#include <fcntl.h>
#include <signal.h>
#include <sys/mman.h>
#include <sys/stat.h>

#include "client.h"

enum { TICK = 500 /* milliseconds */ };

/* The minimum number of seconds for which a request is waited for, whoever comes. */
enum { LEAST_SECONDS = 1 };

/* A pack, which the repository is lent. Of no bytes there is nothing to map. */
struct pack {
	uint8_t *bytes;
	size_t length;
	bool is_mapped;
};

static struct pack pack, filtered;
static struct client clients[MOST_CLIENTS]; /* of zeros: NOBODY */
static volatile sig_atomic_t is_over;

/* Closes the client that has been expected to send a whole request for the longest time. Returns its slot, or NULL if there is no such client. */
static struct client *close_slowest(void)
{
	struct client *slowest = NULL;
	time_t latest = seconds() - LEAST_SECONDS;
	char why[100];

	for (struct client *c = clients; c < clients + MOST_CLIENTS; c++)
		if (c->phase != NOBODY && awaited(c) == POLLIN && c->since < latest && (slowest == NULL || c->since < slowest->since))
			slowest = c;
	if (slowest != NULL) {
		snprintf(why, sizeof why, "this server takes no more than %d clients at a time, and another one came", MOST_CLIENTS);
		dismiss(slowest, "a client was closed for another", why);
	}
	return slowest;
}

/* A slot that is free, or is made free; NULL if there is none. */
static struct client *free_slot(void)
{
	for (struct client *c = clients; c < clients + MOST_CLIENTS; c++)
		if (c->phase == NOBODY)
			return c;
	return close_slowest();
}

/* Accepts a client that connects. False if there is no slot, or no descriptor. */
static bool welcome(int listener)
{
	struct client *slot = free_slot();
	int connection = -1;

	if (slot != NULL)
		connection = accept4(listener, NULL, NULL, SOCK_NONBLOCK | SOCK_CLOEXEC);
	if (connection >= 0)
		begin(slot, connection);
	else if (slot != NULL && errno == EMFILE)
		return close_slowest() != NULL;
	return connection >= 0;
}

/* Closes a client whose time is over. */
static void end_late(struct client *c)
{
	char why[100];

	snprintf(why, sizeof why, "this server waits for a client no longer than %lld seconds", (long long)patience);
	dismiss(c, "a client was too slow", why);
}

/* Gives each client its turn if bytes can be received or sent, and closes the clients whose time is over. */
static void give_turns(const struct pollfd *polled)
{
	time_t now = seconds();

	for (int i = 0; i < MOST_CLIENTS; i++) {
		struct client *c = &clients[i];

		if (c->phase == HANDED_OVER)
			see_off(c);
		else if (polled[i].revents)
			turn(c);
		if (c->phase != NOBODY && c->phase != HANDED_OVER && c->deadline < now) /* judged after its turn, which may extend it */
			end_late(c);
	}
}

/* What poll() has to wait for at a descriptor; at -1 for nothing. */
static struct pollfd polled_for(int descriptor, short events)
{
	struct pollfd polled = { descriptor, events, 0 };

	return polled;
}

/* Serves until SIGINT. The end of a client's time, and a SIGINT that comes between two waits, are noticed within a tick. */
static void run(int listener)
{
	struct pollfd polled[MOST_CLIENTS + 1];
	bool is_open = true; /* if not, one wait omits the listener, which would end each wait while there is no slot for a client that connects */

	while (!is_over) {
		for (int i = 0; i < MOST_CLIENTS; i++) {
			struct client *c = &clients[i];

			polled[i] = polled_for(c->phase == NOBODY ? -1 : c->connection, awaited(c));
		}
		polled[MOST_CLIENTS] = polled_for(is_open ? listener : -1, POLLIN);
		if (poll(polled, MOST_CLIENTS + 1, TICK) >= 0) {
			give_turns(polled);
			is_open = !polled[MOST_CLIENTS].revents || welcome(listener);
		} else if (errno != EINTR) {
			stop(strerror(errno));
		}
	}
}

/* Maps a whole file, or ends the program. What is no file, as a pipe, is read. */
static struct pack open_pack(const char *name)
{
	struct pack opened = { NULL, 0, false };
	struct stat status;
	int file;

	if (stat(name, &status) != 0 || !S_ISREG(status.st_mode)) {
		opened.bytes = (uint8_t *)read_file(name, &opened.length);
		return opened;
	}
	file = open(name, O_RDONLY | O_CLOEXEC);
	if (file < 0 || fstat(file, &status) != 0)
		stop("a file cannot be opened");
	opened.length = (size_t)status.st_size;
	if (opened.length > 0) {
		opened.bytes = (uint8_t *)mmap(NULL, opened.length, PROT_READ, MAP_PRIVATE, file, 0);
		opened.is_mapped = opened.bytes != MAP_FAILED;
		if (!opened.is_mapped)
			stop("a file cannot be mapped");
	}
	close(file);
	return opened;
}

/* No server of the repository is left then. */
static void close_pack(struct pack *opened)
{
	if (opened->is_mapped)
		munmap(opened->bytes, opened->length);
	else
		free(opened->bytes);
}

/* Without a name of a filtered pack there is one pack for all. */
static void open_repository(const char *text_name, const char *pack_name, const char *filtered_name)
{
	size_t text_length;
	char *text = read_file(text_name, &text_length);
	gitwire_answer answer;
	char why[64] = "no memory";

	pack = open_pack(pack_name);
	if (filtered_name != NULL) {
		filtered = open_pack(filtered_name);
		answer = gitwire_repository_new_lent_filtered(&repository, text, text_length, pack.bytes, pack.length, filtered.bytes, filtered.length);
	} else {
		answer = gitwire_repository_new_lent(&repository, text, text_length, pack.bytes, pack.length);
	}
	free(text);
	if (answer.kind == GITWIRE_FAILED)
		snprintf(why, sizeof why, "BadRepo at %llu", (unsigned long long)answer.offset);
	if (answer.kind != GITWIRE_DONE)
		stop(why);
}

static void open_folder(const char *name)
{
	if (access(name, X_OK) != 0)
		stop("the folder cannot be read");
	folder = name;
	snprintf(timeout, sizeof timeout, "--timeout=%lld", (long long)patience);
}

static int listen_at(const char *address, uint16_t port, const char *name)
{
	struct sockaddr_in at;
	int listener = socket(AF_INET, SOCK_STREAM | SOCK_NONBLOCK | SOCK_CLOEXEC, 0), yes = 1;
	socklen_t size = sizeof at;

	memset(&at, 0, sizeof at);
	at.sin_family = AF_INET;
	at.sin_port = htons(port);
	if (inet_pton(AF_INET, address, &at.sin_addr) != 1 || ntohl(at.sin_addr.s_addr) >> 24 != 127)
		stop("the address is not of the loopback network");
	if (listener < 0 || setsockopt(listener, SOL_SOCKET, SO_REUSEADDR, &yes, sizeof yes) != 0
		|| bind(listener, (struct sockaddr *)&at, sizeof at) != 0 || listen(listener, MOST_CLIENTS) != 0
		|| getsockname(listener, (struct sockaddr *)&at, &size) != 0)
		stop(strerror(errno));
	printf("git://%s:%d/%s\n", address, ntohs(at.sin_port), name);
	fflush(stdout);
	return listener;
}

static long number_of(const char *word, long least, long most)
{
	char *end;
	long number = strtol(word, &end, 10);

	if (end == word || *end != 0 || number < least || number > most)
		stop("a number is none, or out of its range");
	return number;
}

static void end(int number)
{
	is_over = number;
}

int main(int count, char **words)
{
	if (count < 6 || count > 8) {
		fputs("usage: daemon ADDRESS PORT SECONDS NAME FOLDER, or daemon ADDRESS PORT SECONDS NAME TEXT PACK [FILTERED]\n", stderr);
		return 2;
	}
	patience = number_of(words[3], 1, 86400);
	if (snprintf(served_path, sizeof served_path, "/%s", words[4]) >= (int)sizeof served_path)
		stop("the name is too long");
	signal(SIGINT, end);
	signal(SIGCHLD, SIG_DFL); /* whoever started this may have ignored it, and then no end of a process could be waited for */
	signal(SIGPIPE, SIG_IGN); /* a broken connection is noticed by a write that fails; the reader of standard error may be gone too */
	if (count == 6)
		open_folder(words[5]);
	else
		open_repository(words[5], words[6], words[7]); /* after the last word comes a NULL */
	if (gitwire_writer_new(&writer) != GITWIRE_DONE)
		stop("no memory");
	int listener = listen_at(words[1], (uint16_t)number_of(words[2], 0, 65535), words[4]);
	run(listener);
	for (struct client *c = clients; c < clients + MOST_CLIENTS; c++)
		if (c->phase != NOBODY && c->phase != HANDED_OVER)
			forget(c);
	close(listener);
	gitwire_repository_free(repository);
	close_pack(&pack);
	close_pack(&filtered);
	gitwire_writer_free(writer);
	return 0;
}
