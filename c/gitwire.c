/*
 * The part of the library that is written in C, since Rattle exports nothing of the kind: memory, also for handles, the lock of a repository's,
 * texts that last, and where the parts of an event and a payload are. Nothing here is proved. It is linked with libgitwire.a, whose calls `_init`,
 * `_clear`, `_lend`, `_words` and `_text` below are not in the header.
 */

/* The calls that the header defines as well are defined here for whoever calls them. */
#define GITWIRE_IN_PLACE
#include <gitwire.h>

#include <pthread.h>
#include <stdlib.h>
#include <string.h>

static void *by_malloc(void *user, size_t size)
{
	(void)user;
	return malloc(size);
}

static void *by_realloc(void *user, void *block, size_t size)
{
	(void)user;
	return realloc(block, size);
}

static void by_free(void *user, void *block)
{
	(void)user;
	free(block);
}

/* Where memory comes from: the C library, unless the program has named calls of its own. */
static struct {
	gitwire_allocate allocate;
	gitwire_reallocate reallocate;
	gitwire_deallocate deallocate;
	void *user;
} memory = { by_malloc, by_realloc, by_free, NULL };

gitwire_result gitwire_set_memory(gitwire_allocate allocate, gitwire_reallocate reallocate, gitwire_deallocate deallocate, void *user)
{
	bool is_named = allocate != NULL;

	if ((reallocate != NULL) != is_named || (deallocate != NULL) != is_named)
		return GITWIRE_BAD_VALUE;
	memory.allocate = is_named ? allocate : by_malloc;
	memory.reallocate = is_named ? reallocate : by_realloc;
	memory.deallocate = is_named ? deallocate : by_free;
	memory.user = user;
	return GITWIRE_DONE;
}

/*
 * What the proved library calls for memory, in the place of the kit's liblibc_c.a, which calls malloc, realloc and free. A block of no bytes
 * gets as many as its alignment, so that NULL is a refusal alone. No alignment is above 16. Rattle's result has a bool and a pointer.
 */
struct tried {
	uint64_t is_done;
	void *block;
};

struct tried rattle_alloc(size_t size, size_t alignment);
struct tried rattle_alloc(size_t size, size_t alignment)
{
	void *block = memory.allocate(memory.user, size > 0 ? size : alignment);

	return (struct tried){ block != NULL, block };
}

struct tried rattle_realloc(void *block, size_t kept, size_t size, size_t alignment);
struct tried rattle_realloc(void *block, size_t kept, size_t size, size_t alignment)
{
	void *moved = memory.reallocate(memory.user, block, size > 0 ? size : alignment);

	(void)kept;
	return (struct tried){ moved != NULL, moved };
}

void rattle_dealloc(void *block);
void rattle_dealloc(void *block)
{
	memory.deallocate(memory.user, block);
}

/* What the library's calls take by the address of a handle. Zeroed memory has nothing in it. */
struct handle {
	void *at;
	bool is_made;
};
GITWIRE_STATIC_ASSERT(sizeof(struct handle) == 2 * sizeof(void *) && offsetof(struct handle, is_made) == sizeof(void *), "a handle");

/*
 * A repository's handle, and a lock, which a call has while it takes a share of the repository for a server: so threads need none of their own. The
 * shares are counted by the library, atomically: a server is freed without the lock.
 */
struct gitwire_repository {
	struct handle handle;
	pthread_mutex_t lock;
};

/* Gets memory for a handle with nothing in it, or NULL. */
static void *new_handle(void)
{
	struct handle *made = memory.allocate(memory.user, sizeof *made);

	if (made != NULL)
		*made = (struct handle){ NULL, false };
	return made;
}

/* Gives the memory of a handle back, if there is one. */
static void drop_handle(void *made)
{
	if (made != NULL)
		memory.deallocate(memory.user, made);
}

/* Gets memory for a handle, lets `init` give it something, and sets `place` to it, or to NULL if that was not DONE. */
#define MAKE(place, init) \
	do { \
		gitwire_result result = GITWIRE_OUT_OF_MEMORY; \
		void *made = new_handle(); \
		if (made != NULL) \
			result = init; \
		if (result != GITWIRE_DONE) { \
			drop_handle(made); \
			made = NULL; \
		} \
		*place = made; \
		return result; \
	} while (0)

/* Defines the call `_free` of a kind of handle. */
#define FREES(kind) \
	void kind##_clear(kind *handle); \
	void kind##_free(kind *handle) \
	{ \
		if (handle == NULL) \
			return; \
		kind##_clear(handle); \
		drop_handle(handle); \
	}

FREES(gitwire_packet_reader)
FREES(gitwire_request_reader)
FREES(gitwire_request)
FREES(gitwire_server)
FREES(gitwire_host)
FREES(gitwire_client)
FREES(gitwire_checker)
FREES(gitwire_writer)

gitwire_result gitwire_packet_reader_init(gitwire_packet_reader *reader);
gitwire_result gitwire_packet_reader_new(gitwire_packet_reader **reader)
{
	MAKE(reader, gitwire_packet_reader_init(made));
}

gitwire_result gitwire_request_reader_init(gitwire_request_reader *reader, gitwire_format format, uint32_t features, uint32_t limit);
gitwire_result gitwire_request_reader_new(gitwire_request_reader **reader, gitwire_format format, uint32_t features, uint32_t limit)
{
	MAKE(reader, gitwire_request_reader_init(made, format, features, limit));
}

gitwire_result gitwire_request_init(gitwire_request *request, gitwire_command command, gitwire_format format, uint32_t limit);
gitwire_result gitwire_request_new(gitwire_request **request, gitwire_command command, gitwire_format format, uint32_t limit)
{
	MAKE(request, gitwire_request_init(made, command, format, limit));
}

gitwire_result gitwire_request_empty(gitwire_request **request)
{
	MAKE(request, GITWIRE_DONE);
}

gitwire_result gitwire_server_init(gitwire_server *server, struct handle *repository, uint32_t limit, bool advertise, const char *agent,
	size_t agent_length);

/* Gives a server a share of the repository. The handle, whose memory is never constant, is the same afterwards. */
static gitwire_result init_server(gitwire_server *server, const gitwire_repository *repository, uint32_t limit, bool advertise,
	const char *agent, size_t agent_length)
{
	gitwire_repository *shared = (gitwire_repository *)repository;
	gitwire_result result;

	pthread_mutex_lock(&shared->lock);
	result = gitwire_server_init(server, &shared->handle, limit, advertise, agent, agent_length);
	pthread_mutex_unlock(&shared->lock);
	return result;
}

gitwire_result gitwire_server_new_named(gitwire_server **server, const gitwire_repository *repository, uint32_t limit, bool advertise,
	const char *agent, size_t agent_length)
{
	MAKE(server, init_server(made, repository, limit, advertise, agent, agent_length));
}

/* An empty name of an agent is the library's own. */
gitwire_result gitwire_server_new(gitwire_server **server, const gitwire_repository *repository, uint32_t limit, bool advertise)
{
	return gitwire_server_new_named(server, repository, limit, advertise, "", 0);
}

gitwire_result gitwire_host_init(gitwire_host *host, gitwire_format format, uint32_t features, uint32_t limit, bool advertise,
	const char *agent, size_t agent_length);
gitwire_result gitwire_host_new_named(gitwire_host **host, gitwire_format format, uint32_t features, uint32_t limit, bool advertise,
	const char *agent, size_t agent_length)
{
	MAKE(host, gitwire_host_init(made, format, features, limit, advertise, agent, agent_length));
}

gitwire_result gitwire_host_new(gitwire_host **host, gitwire_format format, uint32_t features, uint32_t limit, bool advertise)
{
	return gitwire_host_new_named(host, format, features, limit, advertise, "", 0);
}

gitwire_result gitwire_client_init(gitwire_client *client, gitwire_format format, gitwire_ending ending, const char *agent,
	size_t agent_length);
gitwire_result gitwire_client_new_named(gitwire_client **client, gitwire_format format, gitwire_ending ending, const char *agent,
	size_t agent_length)
{
	MAKE(client, gitwire_client_init(made, format, ending, agent, agent_length));
}

gitwire_result gitwire_client_new(gitwire_client **client, gitwire_format format, gitwire_ending ending)
{
	return gitwire_client_new_named(client, format, ending, "", 0);
}

gitwire_result gitwire_checker_init(gitwire_checker *checker, gitwire_format format, gitwire_ending ending, uint32_t limit);
gitwire_result gitwire_checker_new(gitwire_checker **checker, gitwire_format format, gitwire_ending ending, uint32_t limit)
{
	MAKE(checker, gitwire_checker_init(made, format, ending, limit));
}

gitwire_result gitwire_writer_init(gitwire_writer *writer);
gitwire_result gitwire_writer_new(gitwire_writer **writer)
{
	MAKE(writer, gitwire_writer_init(made));
}

gitwire_answer gitwire_put_advertisement(gitwire_writer *writer, gitwire_format format, uint32_t features, uint8_t *buffer,
	size_t buffer_length)
{
	return gitwire_put_advertisement_named(writer, format, features, "", 0, buffer, buffer_length);
}

/* Memory for a repository's handle with nothing in it, and its lock; NULL if there is no memory. */
static gitwire_repository *new_repository(void)
{
	gitwire_repository *made = memory.allocate(memory.user, sizeof *made);

	if (made == NULL)
		return NULL;
	made->handle = (struct handle){ NULL, false };
	if (pthread_mutex_init(&made->lock, NULL) == 0)
		return made;
	drop_handle(made);
	return NULL;
}

/* Keeps a repository's handle if it was made, and otherwise frees it. */
static gitwire_answer kept(gitwire_repository **repository, gitwire_repository *made, gitwire_answer answer)
{
	if (answer.kind != GITWIRE_DONE) {
		gitwire_repository_free(made);
		made = NULL;
	}
	*repository = made;
	return answer;
}

static const gitwire_answer no_memory = { .kind = GITWIRE_OUT_OF_MEMORY };

gitwire_answer gitwire_repository_init(struct handle *repository, const char *text, size_t text_length, const uint8_t *pack, size_t pack_length);
gitwire_answer gitwire_repository_new(gitwire_repository **repository, const char *text, size_t text_length, const uint8_t *pack,
	size_t pack_length)
{
	gitwire_repository *made = new_repository();

	return kept(repository, made, made == NULL ? no_memory : gitwire_repository_init(&made->handle, text, text_length, pack, pack_length));
}

gitwire_answer gitwire_repository_init_filtered(struct handle *repository, const char *text, size_t text_length, const uint8_t *pack,
	size_t pack_length, const uint8_t *filtered, size_t filtered_length);
gitwire_answer gitwire_repository_new_filtered(gitwire_repository **repository, const char *text, size_t text_length, const uint8_t *pack,
	size_t pack_length, const uint8_t *filtered, size_t filtered_length)
{
	gitwire_repository *made = new_repository();

	return kept(repository, made, made == NULL ? no_memory : gitwire_repository_init_filtered(&made->handle, text, text_length, pack,
		pack_length, filtered, filtered_length));
}

gitwire_answer gitwire_repository_init_lent(struct handle *repository, const char *text, size_t text_length, const uint8_t *pack,
	size_t pack_length);
gitwire_answer gitwire_repository_new_lent(gitwire_repository **repository, const char *text, size_t text_length, const uint8_t *pack,
	size_t pack_length)
{
	gitwire_repository *made = new_repository();

	return kept(repository, made, made == NULL ? no_memory : gitwire_repository_init_lent(&made->handle, text, text_length, pack, pack_length));
}

gitwire_answer gitwire_repository_init_lent_filtered(struct handle *repository, const char *text, size_t text_length, const uint8_t *pack,
	size_t pack_length, const uint8_t *filtered, size_t filtered_length);
gitwire_answer gitwire_repository_new_lent_filtered(gitwire_repository **repository, const char *text, size_t text_length, const uint8_t *pack,
	size_t pack_length, const uint8_t *filtered, size_t filtered_length)
{
	gitwire_repository *made = new_repository();

	return kept(repository, made, made == NULL ? no_memory : gitwire_repository_init_lent_filtered(&made->handle, text, text_length, pack,
		pack_length, filtered, filtered_length));
}

void gitwire_repository_clear(struct handle *repository);
void gitwire_repository_free(gitwire_repository *repository)
{
	if (repository == NULL)
		return;
	gitwire_repository_clear(&repository->handle);
	pthread_mutex_destroy(&repository->lock);
	drop_handle(repository);
}

/* What a reader lends. */
struct lent {
	const uint8_t *bytes;
	size_t length;
};

void gitwire_packet_reader_lend(gitwire_packet_reader *reader, struct lent *payload);
const uint8_t *gitwire_packet_reader_held(gitwire_packet_reader *reader)
{
	struct lent payload = { NULL, 0 };

	gitwire_packet_reader_lend(reader, &payload);
	return payload.bytes;
}

void gitwire_version_text(gitwire_text *text);
const char *gitwire_version(void)
{
	gitwire_text text = { "", 0 };

	gitwire_version_text(&text);
	return text.at;
}

/* The name of an error and its sentence, each with a NUL at its end; both are empty if there is no such error. */
void gitwire_fault_words(gitwire_fault fault, gitwire_text *text);
const char *gitwire_fault_name(gitwire_fault fault)
{
	gitwire_text text = { "", 0 };

	gitwire_fault_words(fault, &text);
	return text.at;
}

const char *gitwire_fault_sentence(gitwire_fault fault)
{
	const char *name = gitwire_fault_name(fault);

	return name + strlen(name) + 1;
}
