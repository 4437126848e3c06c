/*
 * Servers of one repository in several threads at once, each with a client that lists it: first in two, then in four. Every handle is made, used and
 * freed in one thread alone, except for the repository's, which all of them share without a lock. It is built with the thread sanitizer too. The
 * status is 1 if a client receives anything else than the references, or a server fails.
 */
#include <gitwire.h>

#include <pthread.h>
#include <stdio.h>
#include <string.h>

#define ONE "1111111111111111111111111111111111111111"
#define ROUNDS 50
#define MOST_THREADS 4

static const char text[] = "format sha1\n" "ref " ONE " HEAD symref-target:refs/heads/main\n" "ref " ONE " refs/heads/main\n";
static gitwire_repository *repository;

/* What one thread has. */
struct side {
	gitwire_server *server;
	gitwire_client *client;
	uint8_t packet[GITWIRE_PACKET_SIZE], buffer[GITWIRE_PAYLOAD_SIZE];
	int references;
	bool failed;
};

static bool begin(struct side *side)
{
	return gitwire_server_new(&side->server, repository, 1000, true) == GITWIRE_DONE
		&& gitwire_client_new(&side->client, GITWIRE_SHA1, GITWIRE_ENDS_BY_FLUSH) == GITWIRE_DONE;
}

/* Gives the client a packet of the server, and counts the references in it. */
static void receive(struct side *side, size_t length)
{
	for (size_t used = 0; used < length;) {
		const uint8_t *chunk = side->packet + used;
		gitwire_event event = gitwire_client_feed(side->client, chunk, length - used, side->buffer, sizeof side->buffer);
		gitwire_text name = gitwire_event_part(&event, GITWIRE_PART_NAME, chunk, side->buffer);

		used += event.used;
		if (event.kind == GITWIRE_REFERENCE && (name.length == 4 || name.length == 15))
			side->references++;
		if (event.kind == GITWIRE_FAILED || event.kind == GITWIRE_NOT_NOW) {
			side->failed = true;
			return;
		}
	}
}

/* Lists once: what the client has to send goes to the server, and what that sends to the client. */
static void list(struct side *side, gitwire_request *request)
{
	while (!side->failed) {
		gitwire_answer answer = gitwire_client_pull(side->client, side->packet, sizeof side->packet);

		if (answer.kind == GITWIRE_FINISHED)
			return;
		if (answer.kind == GITWIRE_PACKET)
			side->failed = gitwire_server_feed(side->server, side->packet, answer.length).used != answer.length;
		else if (answer.kind == GITWIRE_CAN_ASK && gitwire_client_ask(side->client, request).kind != GITWIRE_DONE)
			side->failed = gitwire_client_leave(side->client) != GITWIRE_DONE;
		else if (answer.kind == GITWIRE_NEED_INPUT) {
			answer = gitwire_server_pull(side->server, side->packet, sizeof side->packet);
			side->failed = answer.kind != GITWIRE_PACKET;
			if (!side->failed)
				receive(side, answer.length);
		}
	}
}

/* Lists once over a server of its own. */
static void serve_once(struct side *side)
{
	gitwire_request *request = NULL;

	side->server = NULL;
	side->client = NULL;
	side->failed = !begin(side) || gitwire_request_new(&request, GITWIRE_LS_REFS, GITWIRE_SHA1, 100) != GITWIRE_DONE;
	list(side, request);
	gitwire_request_free(request);
	gitwire_client_free(side->client);
	gitwire_server_free(side->server);
}

/* Lists often. A further server is left to the thread that frees the repository's handle. */
static void *list_often(void *of_side)
{
	struct side *side = of_side;

	for (int i = 0; i < ROUNDS && !side->failed; i++)
		serve_once(side);
	side->failed |= gitwire_server_new(&side->server, repository, 1000, true) != GITWIRE_DONE;
	return NULL;
}

/* Serves one repository in so many threads, and frees its handle before the last servers. False if a client received anything else. */
static bool serve_in(int count)
{
	static struct side sides[MOST_THREADS];
	pthread_t threads[MOST_THREADS];
	bool is_well = true;

	memset(sides, 0, sizeof sides);
	if (gitwire_repository_new(&repository, text, strlen(text), NULL, 0).kind != GITWIRE_DONE)
		return false;
	for (int i = 0; i < count; i++)
		if (pthread_create(&threads[i], NULL, list_often, &sides[i]) != 0)
			return false;
	for (int i = 0; i < count; i++)
		if (pthread_join(threads[i], NULL) != 0)
			return false;
	gitwire_repository_free(repository);
	for (int i = 0; i < count; i++) {
		is_well &= !sides[i].failed && sides[i].references == 2 * ROUNDS;
		if (!is_well)
			printf("thread %d of %d: %d references\n", i, count, sides[i].references);
		is_well &= gitwire_server_pull(sides[i].server, sides[i].packet, sizeof sides[i].packet).kind == GITWIRE_PACKET;
		gitwire_server_free(sides[i].server);
	}
	return is_well;
}

int main(void)
{
	return serve_in(2) && serve_in(MOST_THREADS) ? 0 : 1;
}
