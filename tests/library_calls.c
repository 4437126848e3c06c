/*
 * Calls each function of the library at least once, as the header states: what it returns if all is well, and if it may not be called like
 * this. It prints each expectation that does not hold; the status is 1 if there is one.
 *
 * What the calls do is proved. What is tested here is that C and the library agree about it: how arguments and results are passed, the
 * order of fields and numbers, that memory is freed once (built with a sanitizer, and under valgrind), and that a small stack is enough.
 *
 * The calls of requests are in library_requests.c, those of a checker in library_checker.c, those that write a packet or a text in library_writers.c.
 */
#include "library_calls.h"

static void try_packets(void)
{
	gitwire_packet_reader *reader = NULL;

	gitwire_packet_reader_free(reader);
	EXPECT(gitwire_packet_reader_new(&reader) == GITWIRE_DONE && reader != NULL);
	EXPECT(tells(gitwire_packet_reader_feed(reader, BYTES("0000"), buffer, GITWIRE_PAYLOAD_SIZE - 1), GITWIRE_BUFFER_TOO_SMALL, 0, 0, 0));
	EXPECT(tells(gitwire_packet_reader_feed(reader, BYTES("0008word00000001"), buffer, GITWIRE_PAYLOAD_SIZE), GITWIRE_PAYLOAD, 8, 0, 4));
	EXPECT(memcmp(buffer, "word#", 5) == 0);
	EXPECT(tells(gitwire_packet_reader_feed(reader, BYTES("0000"), BUFFER), GITWIRE_FLUSH, 4, 8, 0));
	EXPECT(tells(gitwire_packet_reader_feed(reader, BYTES("0001"), BUFFER), GITWIRE_DELIM, 4, 12, 0));
	EXPECT(tells(gitwire_packet_reader_feed(reader, BYTES("0002"), BUFFER), GITWIRE_RESPONSE_END, 4, 16, 0));
	EXPECT(tells(gitwire_packet_reader_feed(reader, BYTES("0004"), BUFFER), GITWIRE_PAYLOAD, 4, 20, 0));
	EXPECT(tells(gitwire_packet_reader_feed(reader, NULL, 0, BUFFER), GITWIRE_MORE, 0, 0, 0));
	EXPECT(tells(gitwire_packet_reader_close(reader), GITWIRE_DONE, 0, 0, 0));
	EXPECT(tells(gitwire_packet_reader_feed(reader, BYTES("0008wo"), BUFFER), GITWIRE_MORE, 6, 0, 0));
	EXPECT(tells_fault(gitwire_packet_reader_close(reader), GITWIRE_FAULT_TRUNCATED, 0, 24));
	EXPECT(tells_fault(gitwire_packet_reader_feed(reader, BYTES("rd"), BUFFER), GITWIRE_FAULT_TRUNCATED, 0, 24));
	gitwire_packet_reader_free(reader);
	EXPECT(gitwire_packet_reader_new(&reader) == GITWIRE_DONE);
	EXPECT(tells_fault(gitwire_packet_reader_feed(reader, BYTES("00x0"), BUFFER), GITWIRE_FAULT_BAD_DIGIT, 3, 2));
	EXPECT(tells_fault(gitwire_packet_reader_close(reader), GITWIRE_FAULT_BAD_DIGIT, 0, 2));
	gitwire_packet_reader_free(reader);
	memset(buffer, '#', sizeof buffer);
}

#define LS_REFS "0014command=ls-refs\n" "0001" "0009peel\n" "0000"
#define SMALL_TEXT "format sha1\n" \
	"ref " ONE " HEAD symref-target:refs/heads/main\n" \
	"ref " ONE " refs/heads/main\n" \
	"ref " TWO " refs/tags/v1 peeled:" ONE "\n" \
	"object " ONE " 230\n" \
	"object " TWO " 140\n" \
	"ready 1\n" \
	"shallow " ONE "\n" \
	"unshallow " TWO "\n"

static void try_a_server(void)
{
	gitwire_repository *repository = NULL;
	gitwire_server *server = NULL, *other = NULL;
	gitwire_answer answer;

	gitwire_repository_free(repository);
	gitwire_server_free(server);
	EXPECT(tells(gitwire_repository_new(&repository, NULL, 0, NULL, 0), GITWIRE_FAILED, 0, 1, 0) && repository == NULL);
	answer = gitwire_repository_new(&repository, TEXT("format sha1\nref here\n"), BYTES("PACK"));
	EXPECT(tells(answer, GITWIRE_FAILED, 0, 2, 0) && repository == NULL);
	EXPECT(tells(gitwire_repository_new(&repository, TEXT(SMALL_TEXT), BYTES("PACK")), GITWIRE_DONE, 0, 0, 0) && repository != NULL);
	EXPECT(gitwire_server_new(&server, repository, GITWIRE_MAXIMUM_LIMIT + 1, true) == GITWIRE_BAD_VALUE && server == NULL);
	EXPECT(gitwire_server_new(&server, repository, 100, true) == GITWIRE_DONE && server != NULL);
	EXPECT(gitwire_server_new(&other, repository, 100, false) == GITWIRE_DONE);
	gitwire_repository_free(repository); /* the servers keep it */
	EXPECT(tells(gitwire_server_pull(server, buffer, GITWIRE_PACKET_SIZE - 1), GITWIRE_BUFFER_TOO_SMALL, 0, 0, 0));
	EXPECT(tells(gitwire_server_feed(server, BYTES(LS_REFS)), GITWIRE_NOT_NOW, 0, 0, 0));
	EXPECT(tells(gitwire_server_feed(server, NULL, 0), GITWIRE_NOT_NOW, 0, 0, 0));
	EXPECT(gitwire_server_close(server) == GITWIRE_NOT_NOW);
	answer = gitwire_server_pull(server, BUFFER);
	EXPECT(tells(answer, GITWIRE_PACKET, 0, 0, 14) && memcmp(buffer, "000eversion 2\n#", 15) == 0);
	while (answer.kind == GITWIRE_PACKET)
		answer = gitwire_server_pull(server, BUFFER);
	EXPECT(tells(answer, GITWIRE_NEED_INPUT, 0, 0, 0));
	EXPECT(tells(gitwire_server_feed(server, BYTES(LS_REFS LS_REFS)), GITWIRE_MORE, strlen(LS_REFS), 0, 0));
	answer = gitwire_server_pull(server, BUFFER);
	EXPECT(tells(answer, GITWIRE_PACKET, 0, 0, 50) && memcmp(buffer, "0032" ONE " HEAD\n", 50) == 0);
	while (answer.kind == GITWIRE_PACKET)
		answer = gitwire_server_pull(server, BUFFER);
	EXPECT(tells(gitwire_server_feed(server, BYTES("0000")), GITWIRE_MORE, 4, 0, 0));
	EXPECT(tells(gitwire_server_pull(server, BUFFER), GITWIRE_ENDED_BY_FLUSH, 0, 0, 0));
	EXPECT(tells(gitwire_server_feed(server, BYTES("0000")), GITWIRE_NOT_NOW, 0, 0, 0));
	EXPECT(gitwire_server_close(server) == GITWIRE_NOT_NOW);
	gitwire_server_free(server);
	memset(buffer, '#', sizeof buffer);
	EXPECT(tells(gitwire_server_pull(other, BUFFER), GITWIRE_NEED_INPUT, 0, 0, 0));
	EXPECT(gitwire_server_close(other) == GITWIRE_DONE);
	EXPECT(tells(gitwire_server_pull(other, BUFFER), GITWIRE_ENDED_BY_CLOSE, 0, 0, 0));
	gitwire_server_free(other);
}

static void try_a_refused_session(void)
{
	gitwire_repository *repository = NULL;
	gitwire_server *server = NULL;
	gitwire_answer answer;

	EXPECT(tells(gitwire_repository_new(&repository, TEXT("format sha256"), NULL, 0), GITWIRE_DONE, 0, 0, 0));
	EXPECT(gitwire_server_new(&server, repository, 100, false) == GITWIRE_DONE);
	EXPECT(tells(gitwire_server_feed(server, BYTES("0014command=ls-refs\n0009peel\n")), GITWIRE_MORE, 29, 0, 0));
	answer = gitwire_server_pull(server, BUFFER);
	EXPECT(tells(answer, GITWIRE_PACKET, 0, 0, 28) && memcmp(buffer, "001cERR NotAdvertised at 20\n", 28) == 0);
	EXPECT(tells_fault(gitwire_server_pull(server, BUFFER), GITWIRE_FAULT_NOT_ADVERTISED, 0, 20));
	EXPECT(tells_fault(gitwire_server_pull(server, BUFFER), GITWIRE_FAULT_NOT_ADVERTISED, 0, 20));
	gitwire_repository_free(repository);
	gitwire_server_free(server);
	memset(buffer, '#', sizeof buffer);
}

/* A server and a client that talk to each other, and what the client receives: an event to a line. */
struct talk {
	gitwire_server *server;
	gitwire_client *client;
	char heard[4096];
	size_t length;
};

/* Notes an event of this chunk, whose other texts are in the buffer. */
static void hear(struct talk *t, gitwire_event e, const uint8_t *chunk)
{
	static const char *const names[] = { [GITWIRE_CAPABILITY] = "capability", [GITWIRE_OFFERED] = "offered",
		[GITWIRE_REFERENCE] = "reference", [GITWIRE_ACK] = "ack", [GITWIRE_NAK] = "nak", [GITWIRE_READY] = "ready",
		[GITWIRE_SHALLOW] = "shallow", [GITWIRE_UNSHALLOW] = "unshallow", [GITWIRE_WANTED_REF] = "wanted", [GITWIRE_INFO] = "info",
		[GITWIRE_PACK] = "pack", [GITWIRE_PROGRESS] = "progress", [GITWIRE_ENDED] = "ended",
		[GITWIRE_SECTION] = "section" };
	bool is_passed = e.kind == GITWIRE_PACK || e.kind == GITWIRE_PROGRESS;

	EXPECT(e.kind < sizeof names / sizeof *names && names[e.kind] != NULL && e.fault == 0);
	EXPECT(e.offset == (is_passed ? e.used - e.text_length : 0));
	t->length += (size_t)sprintf(t->heard + t->length, "%s", names[e.kind]);
	for (gitwire_part number = GITWIRE_PART_ID; number <= GITWIRE_PART_PEELED; number++) {
		gitwire_text part = gitwire_event_part(&e, number, chunk, buffer);

		EXPECT((part.at != NULL) == (part.length > 0 || (number == GITWIRE_PART_TEXT && e.has_text)));
		if (part.length > 0)
			t->length += (size_t)sprintf(t->heard + t->length, " %.*s", (int)part.length, part.at);
	}
	EXPECT(gitwire_event_part(&e, (gitwire_part)0, chunk, buffer).at == NULL && gitwire_event_part(&e, (gitwire_part)5, chunk, buffer).at == NULL);
	if (e.has_text)
		t->length += (size_t)sprintf(t->heard + t->length, " has-text");
	if (e.has_size)
		t->length += (size_t)sprintf(t->heard + t->length, " size %llu", (unsigned long long)e.size);
	t->length += (size_t)sprintf(t->heard + t->length, "\n");
}

/* Passes on what each side has to send, until a request can be asked or everything was sent. Returns the kind that the client returns then. */
static gitwire_result go_on(struct talk *t)
{
	static uint8_t packet[GITWIRE_PACKET_SIZE];
	gitwire_answer answer;

	t->length = 0;
	for (;;) {
		answer = gitwire_client_pull(t->client, packet, sizeof packet);
		if (answer.kind == GITWIRE_PACKET) {
			EXPECT(gitwire_server_feed(t->server, packet, answer.length).used == answer.length);
			continue;
		}
		if (answer.kind != GITWIRE_NEED_INPUT)
			return answer.kind;
		answer = gitwire_server_pull(t->server, packet, sizeof packet);
		if (answer.kind != GITWIRE_PACKET)
			return answer.kind;
		for (size_t used = 0; used < answer.length;) {
			gitwire_event event = gitwire_client_feed(t->client, packet + used, answer.length - used, BUFFER);
			if (event.kind == GITWIRE_FAILED)
				return GITWIRE_FAILED;
			if (event.kind != GITWIRE_MORE)
				hear(t, event, packet + used);
			used += event.used;
		}
	}
}

/* Asks a request of these lines, up to a NULL, and returns what the client returns for it. */
static gitwire_answer ask(struct talk *t, gitwire_command command, const char *const *lines)
{
	gitwire_request *request = NULL;
	gitwire_answer answer;

	EXPECT(gitwire_request_new(&request, command, GITWIRE_SHA1, GITWIRE_DEFAULT_LIMIT) == GITWIRE_DONE);
	for (; *lines != NULL; lines++)
		EXPECT(gitwire_request_add(request, TEXT(*lines)).kind == GITWIRE_DONE);
	answer = gitwire_client_ask(t->client, request);
	EXPECT(gitwire_request_end(request).kind == (answer.kind == GITWIRE_DONE ? GITWIRE_NO_REQUEST : GITWIRE_DONE));
	gitwire_request_free(request);
	return answer;
}

/* What is received for a request of these lines. */
static bool hears(struct talk *t, gitwire_command command, const char *const *lines, const char *wanted)
{
	EXPECT(tells(ask(t, command, lines), GITWIRE_DONE, 0, 0, 0));
	EXPECT(go_on(t) == GITWIRE_CAN_ASK);
	if (t->length == strlen(wanted) && memcmp(t->heard, wanted, t->length) == 0)
		return true;
	printf("heard:\n%.*s", (int)t->length, t->heard);
	return false;
}

/* Begins with this repository, whose handle is freed. */
static void begin_talk_over(struct talk *t, gitwire_repository *repository)
{
	*t = (struct talk){ .server = NULL };
	EXPECT(gitwire_server_new(&t->server, repository, 1000, true) == GITWIRE_DONE);
	EXPECT(gitwire_client_new(&t->client, GITWIRE_SHA1, GITWIRE_ENDS_BY_FLUSH) == GITWIRE_DONE);
	gitwire_repository_free(repository);
}

static void begin_talk(struct talk *t)
{
	gitwire_repository *repository = NULL;

	EXPECT(tells(gitwire_repository_new(&repository, TEXT(SMALL_TEXT), BYTES("PACK")), GITWIRE_DONE, 0, 0, 0));
	begin_talk_over(t, repository);
}

static void try_a_conversation(void)
{
	static const char *const references[] = { "peel", "symrefs", NULL }, *const sizes[] = { "size", "oid " TWO,
		"oid 3333333333333333333333333333333333333333", NULL };
	static const char *const common[] = { "want " ONE, "have 3333333333333333333333333333333333333333", NULL };
	static const char *const shallow[] = { "want-ref refs/tags/v1", "have " ONE, "shallow " TWO, "deepen 1", NULL };
	static const char *const nothing[] = { NULL };
	struct talk t;

	begin_talk(&t);
	EXPECT(gitwire_client_leave(t.client) == GITWIRE_NOT_NOW);
	EXPECT(ask(&t, GITWIRE_LS_REFS, nothing).kind == GITWIRE_NOT_NOW);
	EXPECT(go_on(&t) == GITWIRE_CAN_ASK);
	t.heard[t.length] = 0;
	EXPECT(strcmp(t.heard, "capability agent git2/1 has-text\n" "capability ls-refs unborn has-text\n"
		"capability fetch shallow ref-in-want wait-for-done filter has-text\n" "capability server-option\n"
		"capability object-format sha1 has-text\n"
		"capability object-info\n" "offered\n") == 0);
	EXPECT(gitwire_client_features(t.client) == GITWIRE_FEATURES_ALL);
	for (gitwire_key key = GITWIRE_KEY_AGENT; key <= GITWIRE_KEY_SHA256; key++)
		EXPECT(gitwire_client_advertises(t.client, key) == (key != GITWIRE_KEY_SHA256));
	EXPECT(gitwire_client_close(t.client).kind == GITWIRE_NOT_NOW);
	EXPECT(gitwire_client_message(t.client, CHARACTERS).kind == GITWIRE_NOTHING);
	EXPECT(hears(&t, GITWIRE_LS_REFS, references, "reference " ONE " HEAD refs/heads/main has-text\n"
		"reference " ONE " refs/heads/main\n" "reference " TWO " refs/tags/v1 " ONE "\n" "ended\n"));
	EXPECT(hears(&t, GITWIRE_OBJECT_INFO, sizes, "info " TWO " size 140\n"
		"info 3333333333333333333333333333333333333333\n" "ended\n"));
	EXPECT(hears(&t, GITWIRE_FETCH, common, "section acknowledgments\n" "nak\n" "ended\n"));
	EXPECT(hears(&t, GITWIRE_FETCH, shallow, "section acknowledgments\n" "ack " ONE "\n" "ready\n"
		"section shallow-info\n" "shallow " ONE "\n" "unshallow " TWO "\n"
		"section wanted-refs\n" "wanted " TWO " refs/tags/v1\n" "section packfile\n" "pack PACK has-text\n" "ended\n"));
	EXPECT(gitwire_client_leave(t.client) == GITWIRE_DONE);
	EXPECT(gitwire_client_leave(t.client) == GITWIRE_NOT_NOW);
	EXPECT(go_on(&t) == GITWIRE_FINISHED);
	EXPECT(tells(gitwire_server_pull(t.server, BUFFER), GITWIRE_ENDED_BY_FLUSH, 0, 0, 0));
	gitwire_client_free(t.client);
	gitwire_server_free(t.server);
	memset(buffer, '#', sizeof buffer);
}

/* Feeds the client these bytes of a server. Returns whether exactly these events come. */
static bool hears_of(struct talk *t, const char *bytes, const char *wanted)
{
	const uint8_t *chunk = (const uint8_t *)bytes;
	size_t length = strlen(bytes);

	t->length = 0;
	for (size_t used = 0; used < length;) {
		gitwire_event event = gitwire_client_feed(t->client, chunk + used, length - used, BUFFER);
		if (event.used == 0)
			return false;
		if (event.kind != GITWIRE_MORE)
			hear(t, event, chunk + used);
		used += event.used;
	}
	return t->length == strlen(wanted) && memcmp(t->heard, wanted, t->length) == 0;
}

/* A section without lines is seen: it begins, and then the next one does. */
static void try_an_empty_section(void)
{
	static const char *const lines[] = { "want " ONE, "done", NULL };
	static uint8_t packet[GITWIRE_PACKET_SIZE];
	struct talk t = { .server = NULL };

	EXPECT(gitwire_client_new(&t.client, GITWIRE_SHA1, GITWIRE_ENDS_BY_FLUSH) == GITWIRE_DONE);
	EXPECT(hears_of(&t, "000eversion 2\n" "000afetch\n" "0000", "capability fetch\n" "offered\n"));
	EXPECT(tells(ask(&t, GITWIRE_FETCH, lines), GITWIRE_DONE, 0, 0, 0));
	while (gitwire_client_pull(t.client, packet, sizeof packet).kind == GITWIRE_PACKET)
		;
	EXPECT(hears_of(&t, "0011shallow-info\n" "0001" "000dpackfile\n" "0000", "section shallow-info\n" "section packfile\n" "ended\n"));
	gitwire_client_free(t.client);
	memset(buffer, '#', sizeof buffer);
}

/* Asks for a pack without filters, then with some, and then without again. Returns whether exactly these come. */
static bool gives_packs(gitwire_repository *repository, const char *pack, const char *filtered)
{
	static const char *const wants[] = { "want " ONE, "done", NULL }, *const filters[] = { "want " ONE, "filter blob:none",
		"filter tree:0", "done", NULL };
	char heard[100], heard_filtered[100];
	struct talk t;
	bool are_they;

	snprintf(heard, sizeof heard, "section packfile\n%sended\n", pack);
	snprintf(heard_filtered, sizeof heard_filtered, "section packfile\n%sended\n", filtered);
	begin_talk_over(&t, repository);
	EXPECT(go_on(&t) == GITWIRE_CAN_ASK);
	are_they = hears(&t, GITWIRE_FETCH, wants, heard) && hears(&t, GITWIRE_FETCH, filters, heard_filtered)
		&& hears(&t, GITWIRE_FETCH, wants, heard);
	gitwire_client_free(t.client);
	gitwire_server_free(t.server);
	return are_they;
}

/* A repository may have a pack of its own for fetches with a filter, which may be empty; otherwise there is one for all. */
static void try_filtered_packs(void)
{
	gitwire_repository *repository = NULL;

	EXPECT(tells(gitwire_repository_new_filtered(&repository, NULL, 0, NULL, 0, NULL, 0), GITWIRE_FAILED, 0, 1, 0) && repository == NULL);
	EXPECT(tells(gitwire_repository_new_filtered(&repository, TEXT(SMALL_TEXT), BYTES("PACK"), BYTES("TINY")), GITWIRE_DONE, 0, 0, 0));
	EXPECT(gives_packs(repository, "pack PACK has-text\n", "pack TINY has-text\n"));
	EXPECT(tells(gitwire_repository_new_filtered(&repository, TEXT(SMALL_TEXT), BYTES("PACK"), NULL, 0), GITWIRE_DONE, 0, 0, 0));
	EXPECT(gives_packs(repository, "pack PACK has-text\n", ""));
	EXPECT(tells(gitwire_repository_new_filtered(&repository, TEXT(SMALL_TEXT), NULL, 0, BYTES("TINY")), GITWIRE_DONE, 0, 0, 0));
	EXPECT(gives_packs(repository, "", "pack TINY has-text\n"));
	EXPECT(tells(gitwire_repository_new(&repository, TEXT(SMALL_TEXT), BYTES("PACK")), GITWIRE_DONE, 0, 0, 0));
	EXPECT(gives_packs(repository, "pack PACK has-text\n", "pack PACK has-text\n"));
	EXPECT(tells(gitwire_repository_new_filtered(&repository, TEXT("format sha1\nref"), BYTES("PACK"), BYTES("TINY")), GITWIRE_FAILED,
		0, 2, 0) && repository == NULL);
	memset(buffer, '#', sizeof buffer);
}

/* A pack of these bytes, which the caller frees. */
static uint8_t *lent(const char *bytes)
{
	uint8_t *pack = malloc(strlen(bytes));

	EXPECT(pack != NULL);
	return memcpy(pack, bytes, strlen(bytes));
}

/*
 * Packs that are lent: they are sent by servers that go on after the handle was freed, and freed after these. Under a sanitizer and under
 * valgrind no call touches them afterwards.
 */
static void try_lent_packs(void)
{
	gitwire_repository *repository = NULL;
	uint8_t *pack = lent("PACK"), *filtered = lent("TINY");

	EXPECT(tells(gitwire_repository_new_lent(&repository, NULL, 0, NULL, 0), GITWIRE_FAILED, 0, 1, 0) && repository == NULL);
	EXPECT(tells(gitwire_repository_new_lent(&repository, TEXT("format sha1\nref here\n"), pack, 4), GITWIRE_FAILED, 0, 2, 0));
	EXPECT(repository == NULL);
	EXPECT(tells(gitwire_repository_new_lent(&repository, TEXT(SMALL_TEXT), pack, 4), GITWIRE_DONE, 0, 0, 0));
	EXPECT(gives_packs(repository, "pack PACK has-text\n", "pack PACK has-text\n"));
	EXPECT(tells(gitwire_repository_new_lent(&repository, TEXT(SMALL_TEXT), NULL, 0), GITWIRE_DONE, 0, 0, 0));
	EXPECT(gives_packs(repository, "", ""));
	EXPECT(tells(gitwire_repository_new_lent_filtered(&repository, TEXT(SMALL_TEXT), pack, 4, filtered, 4), GITWIRE_DONE, 0, 0, 0));
	EXPECT(gives_packs(repository, "pack PACK has-text\n", "pack TINY has-text\n"));
	EXPECT(tells(gitwire_repository_new_lent_filtered(&repository, TEXT(SMALL_TEXT), pack, 4, pack, 4), GITWIRE_DONE, 0, 0, 0));
	EXPECT(gives_packs(repository, "pack PACK has-text\n", "pack PACK has-text\n"));
	EXPECT(tells(gitwire_repository_new_lent_filtered(&repository, TEXT(SMALL_TEXT), pack, 4, NULL, 0), GITWIRE_DONE, 0, 0, 0));
	EXPECT(gives_packs(repository, "pack PACK has-text\n", ""));
	EXPECT(tells(gitwire_repository_new_lent_filtered(&repository, TEXT(SMALL_TEXT), NULL, 0, filtered, 4), GITWIRE_DONE, 0, 0, 0));
	EXPECT(gives_packs(repository, "", "pack TINY has-text\n"));
	EXPECT(tells(gitwire_repository_new_lent_filtered(&repository, TEXT("format sha1\nref"), pack, 4, filtered, 4), GITWIRE_FAILED,
		0, 2, 0) && repository == NULL);
	EXPECT(memcmp(pack, "PACK", 4) == 0 && memcmp(filtered, "TINY", 4) == 0);
	free(pack);
	free(filtered);
	memset(buffer, '#', sizeof buffer);
}

/* What comes beside a pack, and a fatal error in its middle, with its message. */
static void try_bands(void)
{
	static const char *const wants[] = { "want " ONE, "done", NULL };
	static const uint8_t progress[] = "0008\00250%", pack[] = "0009\001PACK";
	struct talk t;
	gitwire_event event;

	begin_talk(&t);
	EXPECT(go_on(&t) == GITWIRE_CAN_ASK);
	EXPECT(tells(ask(&t, GITWIRE_FETCH, wants), GITWIRE_DONE, 0, 0, 0));
	while (gitwire_client_pull(t.client, BUFFER).kind == GITWIRE_PACKET)
		;
	t.length = 0;
	EXPECT(gitwire_client_feed(t.client, BYTES("000dpackfile\n"), BUFFER).kind == GITWIRE_SECTION);
	hear(&t, gitwire_client_feed(t.client, progress, sizeof progress - 1, BUFFER), progress);
	hear(&t, gitwire_client_feed(t.client, pack, sizeof pack - 1, BUFFER), pack);
	t.heard[t.length] = 0;
	EXPECT(strcmp(t.heard, "progress 50% has-text\n" "pack PACK has-text\n") == 0);
	event = gitwire_client_feed(t.client, BYTES("0009\003gone"), BUFFER);
	EXPECT(event.kind == GITWIRE_FAILED && event.fault == GITWIRE_FAULT_REMOTE_FATAL && event.used == 9);
	memset(buffer, '#', sizeof buffer);
	EXPECT(wrote(gitwire_client_message(t.client, CHARACTERS), "gone"));
	gitwire_client_free(t.client);
	gitwire_server_free(t.server);
}

/* An event whose text is the last of the bytes used of the chunk; the buffer is unchanged. */
static bool lies_in(gitwire_event event, const char *chunk, gitwire_result kind, size_t used, const char *text)
{
	static uint8_t kept[sizeof buffer];
	gitwire_text part = gitwire_event_part(&event, GITWIRE_PART_TEXT, (const uint8_t *)chunk, buffer);

	memset(kept, '#', sizeof kept);
	return event.kind == kind && event.used == used && event.has_text && event.text_length == strlen(text)
		&& event.id_length == 0 && event.name_length == 0 && event.peeled_length == 0
		&& event.offset == used - event.text_length && part.at == chunk + event.offset && part.length == event.text_length
		&& memcmp(part.at, text, part.length) == 0
		&& memcmp(buffer, kept, sizeof buffer) == 0;
}

/* Bytes of the pack and of the progress stay in the chunk, however it is cut; the texts of other events go to the buffer. */
static void try_bands_in_place(void)
{
	static const char *const wants[] = { "want " ONE, "done", NULL };
	static const char pack[] = "0008\00250%0009\001PACK";
	struct talk t;
	gitwire_event event;

	begin_talk(&t);
	EXPECT(go_on(&t) == GITWIRE_CAN_ASK);
	EXPECT(tells(ask(&t, GITWIRE_FETCH, wants), GITWIRE_DONE, 0, 0, 0));
	while (gitwire_client_pull(t.client, BUFFER).kind == GITWIRE_PACKET)
		;
	EXPECT(gitwire_client_feed(t.client, BYTES("000dpackfile\n"), BUFFER).kind == GITWIRE_SECTION);
	memset(buffer, '#', sizeof buffer);
	event = gitwire_client_feed(t.client, (const uint8_t *)pack, 15, BUFFER);
	EXPECT(lies_in(event, pack, GITWIRE_PROGRESS, 8, "50%"));
	event = gitwire_client_feed(t.client, (const uint8_t *)pack + 8, 7, BUFFER);
	EXPECT(lies_in(event, pack + 8, GITWIRE_PACK, 7, "PA"));
	event = gitwire_client_feed(t.client, (const uint8_t *)pack + 15, 2, BUFFER);
	EXPECT(lies_in(event, pack + 15, GITWIRE_PACK, 2, "CK"));
	event = gitwire_client_feed(t.client, BYTES("0000"), BUFFER);
	EXPECT(event.kind == GITWIRE_ENDED && event.used == 4);
	EXPECT(gitwire_client_feed(t.client, BYTES("0000"), buffer, GITWIRE_PAYLOAD_SIZE - 1).kind == GITWIRE_BUFFER_TOO_SMALL);
	gitwire_client_free(t.client);
	EXPECT(gitwire_client_new(&t.client, GITWIRE_SHA1, GITWIRE_ENDS_BY_FLUSH) == GITWIRE_DONE);
	EXPECT(gitwire_client_feed(t.client, BYTES("000eversion 2\n"), BUFFER).kind == GITWIRE_MORE);
	event = gitwire_client_feed(t.client, BYTES("0013agent=git/2.39\n"), BUFFER);
	EXPECT(event.kind == GITWIRE_CAPABILITY && event.name_length == 5 && memcmp(buffer, "agentgit/2.3", 12) == 0);
	gitwire_client_free(t.client);
	gitwire_server_free(t.server);
	memset(buffer, '#', sizeof buffer);
}

static void try_refusals_of_a_client(void)
{
	gitwire_client *client = NULL;
	gitwire_request *request = NULL;
	gitwire_event event;

	gitwire_client_free(client);
	EXPECT(gitwire_client_new(&client, 0, GITWIRE_ENDS_BY_FLUSH) == GITWIRE_BAD_VALUE && client == NULL);
	EXPECT(gitwire_client_new(&client, GITWIRE_SHA1, 0) == GITWIRE_BAD_VALUE && client == NULL);
	EXPECT(gitwire_client_new(&client, GITWIRE_SHA1, GITWIRE_ENDS_BY_RESPONSE_END) == GITWIRE_DONE);
	EXPECT(gitwire_client_pull(client, buffer, GITWIRE_PACKET_SIZE - 1).kind == GITWIRE_BUFFER_TOO_SMALL);
	EXPECT(gitwire_client_feed(client, BYTES("000eversion 2\n"), buffer, GITWIRE_PAYLOAD_SIZE - 1).kind == GITWIRE_BUFFER_TOO_SMALL);
	event = gitwire_client_feed(client, BYTES("000eversion 2\n" "0009size\n" "0000"), BUFFER);
	EXPECT(event.kind == GITWIRE_CAPABILITY && event.used == 23 && event.name_length == 4 && !event.has_text);
	event = gitwire_client_feed(client, BYTES("0000"), BUFFER);
	EXPECT(event.kind == GITWIRE_OFFERED && event.used == 4);
	event = gitwire_client_feed(client, BYTES("0000"), BUFFER); /* it waits for no input */
	EXPECT(event.kind == GITWIRE_NOT_NOW && event.used == 0);
	EXPECT(gitwire_request_empty(&request) == GITWIRE_DONE);
	EXPECT(gitwire_client_ask(client, request).kind == GITWIRE_NO_REQUEST);
	gitwire_request_free(request);
	EXPECT(gitwire_request_new(&request, GITWIRE_LS_REFS, GITWIRE_SHA1, 0) == GITWIRE_DONE);
	EXPECT(tells_fault(gitwire_client_ask(client, request), GITWIRE_FAULT_NOT_ADVERTISED, 0, 27));
	gitwire_request_free(request);
	EXPECT(gitwire_request_new(&request, GITWIRE_LS_REFS, GITWIRE_SHA256, 0) == GITWIRE_DONE);
	EXPECT(tells_fault(gitwire_client_ask(client, request), GITWIRE_FAULT_WRONG_FORMAT, 0, 27));
	EXPECT(gitwire_request_format(request) == GITWIRE_SHA256);
	gitwire_request_free(request);
	gitwire_client_free(client);
	EXPECT(gitwire_client_new(&client, GITWIRE_SHA1, GITWIRE_ENDS_BY_FLUSH) == GITWIRE_DONE);
	event = gitwire_client_feed(client, BYTES("000cERR gone"), BUFFER);
	EXPECT(event.kind == GITWIRE_FAILED && event.used == 12 && event.fault == GITWIRE_FAULT_REMOTE_ERROR && event.offset == 0);
	event = gitwire_client_feed(client, BYTES("0000"), BUFFER);
	EXPECT(event.kind == GITWIRE_FAILED && event.used == 0 && event.fault == GITWIRE_FAULT_REMOTE_ERROR && event.offset == 0);
	EXPECT(tells_fault(gitwire_client_pull(client, BUFFER), GITWIRE_FAULT_REMOTE_ERROR, 0, 0));
	memset(buffer, '#', sizeof buffer);
	EXPECT(wrote(gitwire_client_message(client, CHARACTERS), "gone"));
	EXPECT(gitwire_client_message(client, (char *)buffer, 3).kind == GITWIRE_BUFFER_TOO_SMALL);
	EXPECT(gitwire_client_close(client).kind == GITWIRE_NOT_NOW);
	gitwire_client_free(client);
	EXPECT(gitwire_client_new(&client, GITWIRE_SHA1, GITWIRE_ENDS_BY_FLUSH) == GITWIRE_DONE);
	EXPECT(gitwire_client_feed(client, BYTES("000eversion 2\n" "00"), BUFFER).used == 16);
	EXPECT(tells_fault(gitwire_client_close(client), GITWIRE_FAULT_TRUNCATED, 0, 14));
	gitwire_client_free(client);
	memset(buffer, '#', sizeof buffer);
}

/* Each line is noted by its own keys and features, and by no others. */
static void try_what_is_noted(void)
{
	enum { AGENT = 1 << GITWIRE_KEY_AGENT, LS_REFS_KEY = 1 << GITWIRE_KEY_LS_REFS, FETCH_KEY = 1 << GITWIRE_KEY_FETCH,
		FORMAT = 1 << GITWIRE_KEY_OBJECT_FORMAT, SHA1 = 1 << GITWIRE_KEY_SHA1, SHA256 = 1 << GITWIRE_KEY_SHA256 };
	static const struct {
		const char *line;
		int keys;
		uint32_t features;
	} cases[] = {
		{ "agent=git/2", AGENT, 0 }, { "ls-refs", LS_REFS_KEY, 0 }, { "fetch", FETCH_KEY, 0 },
		{ "ls-refs=unborn", LS_REFS_KEY, GITWIRE_FEATURE_UNBORN }, { "fetch=shallow", FETCH_KEY, GITWIRE_FEATURE_SHALLOW },
		{ "fetch=ref-in-want", FETCH_KEY, GITWIRE_FEATURE_REF_IN_WANT },
		{ "fetch=wait-for-done", FETCH_KEY, GITWIRE_FEATURE_WAIT_FOR_DONE }, { "fetch=filter", FETCH_KEY, GITWIRE_FEATURE_FILTER },
		{ "server-option", 0, GITWIRE_FEATURE_SERVER_OPTION }, { "object-info", 0, GITWIRE_FEATURE_OBJECT_INFO },
		{ "object-format", FORMAT, 0 }, { "object-format=sha1", FORMAT | SHA1, 0 }, { "object-format=sha256", FORMAT | SHA256, 0 },
	};
	static uint8_t packet[GITWIRE_PACKET_SIZE];

	for (size_t i = 0; i < sizeof cases / sizeof *cases; i++) {
		gitwire_client *client = NULL;
		gitwire_answer line = gitwire_put_line(writer, TEXT(cases[i].line), packet, sizeof packet);

		EXPECT(gitwire_client_new(&client, GITWIRE_SHA1, GITWIRE_ENDS_BY_FLUSH) == GITWIRE_DONE);
		EXPECT(gitwire_client_features(client) == 0 && !gitwire_client_advertises(client, GITWIRE_KEY_AGENT));
		EXPECT(gitwire_client_feed(client, BYTES("000eversion 2\n"), BUFFER).kind == GITWIRE_MORE);
		EXPECT(gitwire_client_feed(client, packet, line.length, BUFFER).kind == GITWIRE_CAPABILITY);
		EXPECT(gitwire_client_features(client) == cases[i].features);
		for (unsigned key = 0; key < 30; key++)
			EXPECT(gitwire_client_advertises(client, (gitwire_key)key) == ((cases[i].keys >> key & 1) == 1));
		EXPECT(!gitwire_client_advertises(client, (gitwire_key)(256 + GITWIRE_KEY_AGENT)));
		gitwire_client_free(client);
	}
	memset(buffer, '#', sizeof buffer);
}

/* A client of any format takes the one that the server advertises; it cannot be asked for before the advertisement is whole, or after an error. */
static void try_any_format(void)
{
	static const struct {
		const char *lines;
		gitwire_format format; /* 0 if the advertisement is refused */
	} cases[] = {
		{ "", GITWIRE_SHA1 }, { "0017object-format=sha1\n", GITWIRE_SHA1 }, { "0019object-format=sha256\n", GITWIRE_SHA256 },
		{ "0019object-format=sha256\n" "0017object-format=sha1\n", GITWIRE_SHA1 },
		{ "0017object-format=sha9\n" "0019object-format=sha256\n", GITWIRE_SHA256 }, { "0017object-format=sha9\n", (gitwire_format)0 },
	};
	static gitwire_event events[8];
	static uint8_t texts[GITWIRE_EVENTS_SIZE(99)];

	for (size_t i = 0; i < 2 * (sizeof cases / sizeof *cases); i++) {
		gitwire_format format = cases[i / 2].format;
		gitwire_client *client = NULL;
		char advertisement[99];
		size_t length = (size_t)sprintf(advertisement, "000eversion 2\n" "000cls-refs\n" "%s" "0000", cases[i / 2].lines);

		EXPECT(gitwire_client_new(&client, GITWIRE_FORMAT_ANY, GITWIRE_ENDS_BY_FLUSH) == GITWIRE_DONE);
		for (size_t used = 0; used < length;) { /* all in one call, or a byte in each */
			const uint8_t *chunk = (const uint8_t *)advertisement + used;

			EXPECT(gitwire_client_format(client) == 0);
			used += i % 2 == 0 ? gitwire_client_events(client, chunk, length, events, 8, texts, sizeof texts).used
				: gitwire_client_feed(client, chunk, 1, BUFFER).used;
		}
		EXPECT(gitwire_client_format(client) == format);
		if (format != 0) {
			gitwire_request *request = NULL;

			EXPECT(gitwire_request_new(&request, GITWIRE_LS_REFS, format, GITWIRE_DEFAULT_LIMIT) == GITWIRE_DONE);
			EXPECT(gitwire_client_ask(client, request).kind == GITWIRE_DONE && gitwire_client_format(client) == format);
			gitwire_request_free(request);
		} else {
			EXPECT(tells_fault(gitwire_client_pull(client, BUFFER), GITWIRE_FAULT_WRONG_FORMAT, 0, length - 4));
		}
		gitwire_client_free(client);
	}
	memset(buffer, '#', sizeof buffer);
}

/* The handles with a limit. */
static void try_each_value_with(gitwire_format format, gitwire_repository *repository, uint32_t limit)
{
	for (gitwire_command command = GITWIRE_LS_REFS; command <= GITWIRE_OBJECT_INFO; command++) {
		gitwire_request *request = NULL;

		EXPECT(gitwire_request_new(&request, command, format, limit) == GITWIRE_DONE);
		EXPECT(gitwire_request_command(request) == command && gitwire_request_format(request) == format);
		gitwire_request_free(request);
	}
	for (int advertise = 0; advertise < 2; advertise++) {
		gitwire_server *server = NULL;

		EXPECT(gitwire_server_new(&server, repository, limit, advertise == 1) == GITWIRE_DONE);
		gitwire_server_free(server);
	}
	for (uint32_t features = 0; features <= GITWIRE_FEATURES_ALL; features++) {
		gitwire_request_reader *reader = NULL;

		EXPECT(gitwire_request_reader_new(&reader, format, features, limit) == GITWIRE_DONE);
		gitwire_request_reader_free(reader);
	}
}

/* Each handle is made with each value that it may have, also with the limits of these. */
static void try_each_value(void)
{
	static const gitwire_format formats[] = { GITWIRE_SHA1, GITWIRE_SHA256 };
	static const gitwire_ending endings[] = { GITWIRE_ENDS_BY_FLUSH, GITWIRE_ENDS_BY_RESPONSE_END };
	static const uint32_t limits[] = { 0, 1, GITWIRE_DEFAULT_LIMIT, GITWIRE_MAXIMUM_LIMIT };
	for (int i = 0; i < 2; i++) {
		const char *text = formats[i] == GITWIRE_SHA1 ? "format sha1\n" : "format sha256\n";
		gitwire_repository *repository = NULL;

		EXPECT(gitwire_repository_new(&repository, TEXT(text), NULL, 0).kind == GITWIRE_DONE);
		for (int j = 0; j < 2; j++) {
			gitwire_client *client = NULL;

			EXPECT(gitwire_client_new(&client, formats[i], endings[j]) == GITWIRE_DONE);
			gitwire_client_free(client);
		}
		for (int k = 0; k < 4; k++)
			try_each_value_with(formats[i], repository, limits[k]);
		gitwire_repository_free(repository);
	}
}

/* A number that means nothing is refused, 0 and those that would mean something if their higher bits were cut off. */
static void try_numbers_that_mean_nothing(void)
{
	static const unsigned numbers[] = { 0, 100, 255, 256, 257, 258, 259, 65536, 65537, 0x01000001, 0x80000001, 0xffffffff };
	gitwire_request *request = NULL, *other = NULL;
	gitwire_request_reader *reader = NULL;
	gitwire_client *client = NULL;

	EXPECT(gitwire_request_new(&other, GITWIRE_LS_REFS, GITWIRE_FORMAT_ANY, 0) == GITWIRE_BAD_VALUE && other == NULL);
	EXPECT(gitwire_request_reader_new(&reader, GITWIRE_FORMAT_ANY, 0, 0) == GITWIRE_BAD_VALUE && reader == NULL);
	EXPECT(tells(gitwire_put_ack(writer, GITWIRE_FORMAT_ANY, TEXT(ONE), BUFFER), GITWIRE_BAD_VALUE, 0, 0, 0));
	EXPECT(gitwire_request_new(&request, GITWIRE_FETCH, GITWIRE_SHA1, 100) == GITWIRE_DONE);
	EXPECT(tells(gitwire_request_add(request, TEXT("done")), GITWIRE_DONE, 0, 0, 0));
	for (size_t i = 0; i < sizeof numbers / sizeof *numbers; i++) {
		unsigned number = numbers[i];

		EXPECT(gitwire_client_new(&client, (gitwire_format)number, GITWIRE_ENDS_BY_FLUSH) == GITWIRE_BAD_VALUE && client == NULL);
		EXPECT(gitwire_client_new(&client, GITWIRE_SHA1, (gitwire_ending)number) == GITWIRE_BAD_VALUE && client == NULL);
		EXPECT(gitwire_request_reader_new(&reader, (gitwire_format)number, 0, 0) == GITWIRE_BAD_VALUE && reader == NULL);
		EXPECT(gitwire_request_new(&other, (gitwire_command)number, GITWIRE_SHA1, 0) == GITWIRE_BAD_VALUE && other == NULL);
		EXPECT(gitwire_request_new(&other, GITWIRE_LS_REFS, (gitwire_format)number, 0) == GITWIRE_BAD_VALUE && other == NULL);
		EXPECT(!gitwire_request_flag(request, (gitwire_flag)number));
		EXPECT(tells(gitwire_request_number(request, (gitwire_number)number), GITWIRE_BAD_VALUE, 0, 0, 0));
		EXPECT(tells(gitwire_request_item(request, (gitwire_list)number, 0, CHARACTERS), GITWIRE_BAD_VALUE, 0, 0, 0));
		EXPECT(tells(gitwire_put_band(writer, (gitwire_band)number, BYTES("x"), BUFFER), GITWIRE_BAD_VALUE, 0, 0, 0));
		EXPECT(tells(gitwire_put_ack(writer, (gitwire_format)number, TEXT(ONE), BUFFER), GITWIRE_BAD_VALUE, 0, 0, 0));
		EXPECT(tells(gitwire_put_packet(writer, (gitwire_result)number, NULL, 0, BUFFER), GITWIRE_BAD_VALUE, 0, 0, 0));
	}
	EXPECT(tells(gitwire_put_packet(writer, (gitwire_result)(256 + GITWIRE_FLUSH), NULL, 0, BUFFER), GITWIRE_BAD_VALUE, 0, 0, 0));
	EXPECT(!gitwire_request_flag(request, (gitwire_flag)(256 + GITWIRE_FLAG_DONE)) && gitwire_request_flag(request, GITWIRE_FLAG_DONE));
	gitwire_request_free(request);
}

/* A text of many lines is read whole, and each of its references is sent. */
static void try_many_references(void)
{
	enum { COUNT = 20000, LINE = 80 };
	char *text = malloc((COUNT + 1) * LINE);
	size_t length = 0, answer = 0;
	gitwire_repository *repository = NULL;
	gitwire_server *server = NULL;

	if (text == NULL)
		exit(1);
	length += (size_t)sprintf(text + length, "format sha1\n");
	for (int i = 0; i < COUNT; i++)
		length += (size_t)sprintf(text + length, "ref " ONE " refs/heads/%05d\n", i);
	EXPECT(gitwire_repository_new(&repository, text, length, NULL, 0).kind == GITWIRE_DONE);
	free(text);
	EXPECT(gitwire_server_new(&server, repository, 0, false) == GITWIRE_DONE);
	gitwire_repository_free(repository);
	EXPECT(gitwire_server_feed(server, BYTES("0014command=ls-refs\n" "0000")).used == 24);
	for (char line[LINE]; gitwire_server_pull(server, BUFFER).kind == GITWIRE_PACKET; answer++) {
		sprintf(line, answer < COUNT ? "003e" ONE " refs/heads/%05d\n" : "0000", (int)answer);
		EXPECT(memcmp(buffer, line, strlen(line)) == 0);
	}
	EXPECT(answer == COUNT + 1);
	gitwire_server_free(server);
	memset(buffer, '#', sizeof buffer);
}

static void *try_all(void *nothing)
{
	memset(buffer, '#', sizeof buffer);
	EXPECT(gitwire_writer_new(&writer) == GITWIRE_DONE);
	try_packets();
	try_a_server();
	try_a_refused_session();
	try_a_conversation();
	try_an_empty_section();
	try_filtered_packs();
	try_lent_packs();
	try_bands();
	try_bands_in_place();
	try_refusals_of_a_client();
	try_what_is_noted();
	try_any_format();
	try_each_value();
	try_numbers_that_mean_nothing();
	try_many_references();
	gitwire_writer_free(writer);
	return nothing;
}

int main(void)
{
	return on_a_small_stack(try_all);
}
