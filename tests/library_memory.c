/*
 * The program's own memory: each block of each kind of handle comes from its calls and goes back to them, none from malloc, and what they refuse is
 * reported. Linked with --wrap=malloc, --wrap=realloc and --wrap=free, so that a block from elsewhere is seen. The status is 1 if something is not as
 * the header states.
 */
#include <gitwire.h>

#include <stdio.h>
#include <stdlib.h>

#define ONE "1111111111111111111111111111111111111111"

void *__real_malloc(size_t size);
void *__real_realloc(void *block, size_t size);
void __real_free(void *block);
void *__wrap_malloc(size_t size);
void *__wrap_realloc(void *block, size_t size);
void __wrap_free(void *block);

/* How many blocks there are, how many requests were made of the program's calls, after how many one is refused, and for how many bytes they were. */
struct pool {
	long live, asked, most;
	size_t bytes;
};

enum { LARGE = 64 << 20 };

static const uint8_t large[LARGE]; /* a pack */
static size_t received;   /* how many bytes of a pack came */
static long by_library;   /* how many calls reached the C library */
static int failures;

void *__wrap_malloc(size_t size)
{
	by_library++;
	return __real_malloc(size);
}

void *__wrap_realloc(void *block, size_t size)
{
	by_library++;
	return __real_realloc(block, size);
}

void __wrap_free(void *block)
{
	by_library++;
	__real_free(block);
}

static void *allocate(void *user, size_t size)
{
	struct pool *pool = user;

	if (size == 0 || ++pool->asked > pool->most)
		return NULL;
	pool->live++;
	pool->bytes += size;
	return __real_malloc(size);
}

static void *reallocate(void *user, void *block, size_t size)
{
	struct pool *pool = user;

	pool->bytes += size;
	return block == NULL || size == 0 || ++pool->asked > pool->most ? NULL : __real_realloc(block, size);
}

static void deallocate(void *user, void *block)
{
	((struct pool *)user)->live -= block != NULL;
	__real_free(block);
}

static void expect(bool holds, const char *what)
{
	if (!holds && failures++ == 0)
		fprintf(stderr, "library_memory: not so: %s\n", what);
}

/* What the server has to send goes to the client: how many references it receives, or -1 if either failed. */
static int answered(gitwire_server *server, gitwire_client *client)
{
	static uint8_t packet[GITWIRE_PACKET_SIZE], buffer[GITWIRE_PAYLOAD_SIZE];
	int references = 0;

	for (;;) {
		gitwire_answer answer = gitwire_server_pull(server, packet, sizeof packet);

		if (answer.kind != GITWIRE_PACKET)
			return answer.kind == GITWIRE_NEED_INPUT ? references : -1;
		for (size_t used = 0; used < answer.length;) {
			gitwire_event event = gitwire_client_feed(client, packet + used, answer.length - used, buffer, sizeof buffer);

			used += event.used;
			references += event.kind == GITWIRE_REFERENCE;
			received += event.kind == GITWIRE_PACK ? event.text_length : 0;
			if (event.kind == GITWIRE_FAILED || event.kind == GITWIRE_NOT_NOW)
				return -1;
		}
	}
}

/* What the client has to send goes to the server: whether it was taken. */
static bool asked(gitwire_client *client, gitwire_server *server)
{
	static uint8_t packet[GITWIRE_PACKET_SIZE];

	for (;;) {
		gitwire_answer answer = gitwire_client_pull(client, packet, sizeof packet);

		if (answer.kind != GITWIRE_PACKET)
			return answer.kind == GITWIRE_NEED_INPUT;
		if (gitwire_server_feed(server, packet, answer.length).kind != GITWIRE_MORE)
			return false;
	}
}

/* A client that lists a reference of a server, each over the memory that is set: whether all of it went well. */
static bool lists(void)
{
	static const char text[] = "format sha1\n" "ref " ONE " HEAD symref-target:refs/heads/main\n" "ref " ONE " refs/heads/main\n";
	gitwire_repository *repository;
	gitwire_server *server = NULL;
	gitwire_client *client = NULL;
	gitwire_request *request = NULL;
	gitwire_checker *checker = NULL;
	bool is_well = gitwire_repository_new(&repository, text, sizeof text - 1, NULL, 0).kind == GITWIRE_DONE
		&& gitwire_server_new(&server, repository, 1000, true) == GITWIRE_DONE
		&& gitwire_client_new(&client, GITWIRE_SHA1, GITWIRE_ENDS_BY_FLUSH) == GITWIRE_DONE
		&& gitwire_request_new(&request, GITWIRE_LS_REFS, GITWIRE_SHA1, 1000) == GITWIRE_DONE
		&& gitwire_request_add(request, "ref-prefix refs/", 16).kind == GITWIRE_DONE
		&& gitwire_request_end(request).kind == GITWIRE_DONE
		&& answered(server, client) == 0
		&& gitwire_client_ask(client, request).kind == GITWIRE_DONE
		&& asked(client, server)
		&& answered(server, client) == 1
		&& gitwire_checker_new(&checker, GITWIRE_SHA1, GITWIRE_ENDS_BY_FLUSH, 1000) == GITWIRE_DONE;

	gitwire_checker_free(checker);
	gitwire_request_free(request);
	gitwire_client_free(client);
	gitwire_server_free(server);
	gitwire_repository_free(repository);
	return is_well;
}

/* A client that fetches a pack, which a server is lent: whether it received as many bytes as that has. */
static bool fetches_lent(size_t length)
{
	static const char text[] = "format sha1\n" "object " ONE " 230\n";
	gitwire_repository *repository;
	gitwire_server *server = NULL;
	gitwire_client *client = NULL;
	gitwire_request *request = NULL;
	bool is_well = gitwire_repository_new_lent(&repository, text, sizeof text - 1, large, length).kind == GITWIRE_DONE
		&& gitwire_server_new(&server, repository, 1000, true) == GITWIRE_DONE
		&& gitwire_client_new(&client, GITWIRE_SHA1, GITWIRE_ENDS_BY_FLUSH) == GITWIRE_DONE
		&& gitwire_request_new(&request, GITWIRE_FETCH, GITWIRE_SHA1, 1000) == GITWIRE_DONE
		&& gitwire_request_add(request, "want " ONE, 45).kind == GITWIRE_DONE
		&& gitwire_request_add(request, "done", 4).kind == GITWIRE_DONE
		&& gitwire_request_end(request).kind == GITWIRE_DONE
		&& answered(server, client) == 0
		&& gitwire_client_ask(client, request).kind == GITWIRE_DONE
		&& asked(client, server);

	gitwire_repository_free(repository);
	received = 0;
	is_well = is_well && answered(server, client) == 0 && received == length;
	gitwire_request_free(request);
	gitwire_client_free(client);
	gitwire_server_free(server);
	return is_well;
}

/* A pack that is lent takes no memory, however large it is: as many bytes are requested as with one of a byte. */
static void try_lent_packs(struct pool *pool)
{
	size_t bytes;

	*pool = (struct pool){ .most = 1000000 };
	expect(fetches_lent(1) && pool->bytes > 0, "a pack of a byte is lent");
	bytes = pool->bytes;
	*pool = (struct pool){ .most = 1000000 };
	expect(fetches_lent(LARGE), "a pack of 64 MiB is lent");
	expect(pool->bytes == bytes, "a pack that is lent takes no memory");
	expect(pool->live == 0, "all is given back after it");
}

int main(void)
{
	struct pool pool = { .most = 1000000 };
	long all;

	expect(gitwire_set_memory(allocate, NULL, deallocate, &pool) == GITWIRE_BAD_VALUE, "a call that is missing is refused");
	expect(gitwire_set_memory(NULL, NULL, deallocate, &pool) == GITWIRE_BAD_VALUE, "two calls that are missing are refused");
	expect(lists() && pool.asked == 0 && by_library > 0, "a refused call changes nothing");
	expect(gitwire_set_memory(allocate, reallocate, deallocate, &pool) == GITWIRE_DONE, "three calls are taken");
	by_library = 0;
	expect(lists() && pool.asked > 4, "the library asks the program for memory");
	expect(pool.live == 0, "it gives all back");
	expect(by_library == 0, "it asks nobody else");
	all = pool.asked;
	for (long most = 0; most < all; most++) {
		pool = (struct pool){ .most = most };
		expect(!lists(), "what is refused is reported");
		expect(pool.live == 0, "all is given back then");
	}
	try_lent_packs(&pool);
	pool = (struct pool){ .most = all };
	expect(lists(), "as much as is needed suffices");
	expect(gitwire_set_memory(NULL, NULL, NULL, NULL) == GITWIRE_DONE, "the C library's calls can be had back");
	by_library = 0;
	expect(lists() && by_library > 0 && pool.asked == all, "and are asked then");
	return failures > 0;
}
