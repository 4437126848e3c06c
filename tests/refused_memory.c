/*
 * Runs each kind of handle while memory is refused, at the first request for some, at the second, and so on: once only there, and once from
 * there on. Each call has to return what the header states, and all memory has to be freed.
 *
 * Linked with --wrap=malloc, --wrap=calloc, --wrap=realloc and --wrap=free, so that those of the library come here. It prints how many requests for memory
 * there were, and what was not as expected; the status is 1 if there was anything.
 */
#include <gitwire.h>

#include <stdio.h>
#include <stdlib.h>
#include <string.h>

void *__real_malloc(size_t size);
void *__real_calloc(size_t count, size_t size);
void *__real_realloc(void *block, size_t size);
void __real_free(void *block);
void *__wrap_malloc(size_t size);
void *__wrap_calloc(size_t count, size_t size);
void *__wrap_realloc(void *block, size_t size);
void __wrap_free(void *block);

static long asked;            /* how many requests there were in this run */
static long refused_at = -1;  /* which of them is refused */
static bool refused_after;    /* and whether all after it are */
static long refused;          /* how many were */
static long live;             /* how many blocks are allocated */
static int failures;

static bool is_refused(void)
{
	bool is_it = refused_at >= 0 && (asked == refused_at || (refused_after && asked > refused_at));

	asked++;
	refused += is_it;
	return is_it;
}

void *__wrap_malloc(size_t size)
{
	void *block = is_refused() ? NULL : __real_malloc(size);

	live += block != NULL;
	return block;
}

void *__wrap_calloc(size_t count, size_t size)
{
	void *block = is_refused() ? NULL : __real_calloc(count, size);

	live += block != NULL;
	return block;
}

void *__wrap_realloc(void *block, size_t size)
{
	void *moved = is_refused() ? NULL : __real_realloc(block, size);

	live += block == NULL && moved != NULL;
	return moved;
}

void __wrap_free(void *block)
{
	live -= block != NULL;
	__real_free(block);
}

static void expect(bool holds, const char *what)
{
	if (holds)
		return;
	failures++;
	printf("request %ld for memory refused%s: %s\n", refused_at, refused_after ? ", and all after it" : "", what);
}

static long live_before; /* how many blocks were allocated before the call that is judged */

/* Whether a call set a handle, or reported that memory was refused: then it kept no memory, and set the handle to NULL. */
#define IS_MADE(handle, call, what) (live_before = live, is_made(call, &(handle), what))

static bool is_made(gitwire_result answer, void *handle, const char *what)
{
	void *made;

	memcpy(&made, handle, sizeof made);
	expect((answer == GITWIRE_DONE && made != NULL)
		|| (answer == GITWIRE_OUT_OF_MEMORY && refused > 0 && made == NULL && live == live_before), what);
	return answer == GITWIRE_DONE;
}

/* Expects that calls which take no memory have requested none: the number of requests is still this. */
static void expect_none_asked(long before, const char *what)
{
	expect(asked == before, what);
}

#define TEXT(text) (text), strlen(text)
#define BYTES(text) (const uint8_t *)(text), strlen(text)
#define ONE "1111111111111111111111111111111111111111"
#define TWO "2222222222222222222222222222222222222222"
#define FETCH "0012command=fetch\n" "0017server-option=first" "0012server-option=" "0001" "0032want " ONE "\n" "0032have " ONE "\n" \
	"0016deepen-not refs/a\n" "0015filter blob:none\n" "0000"
#define LS_REFS "0014command=ls-refs\n" "0001" "001bref-prefix refs/heads/\n" "0017ref-prefix refs/a/\n" "0000"
#define REFUSED LS_REFS "0012command=fetch\n" "0001" "0032want " ONE "\n" "0016deepen-not refs/a\n" "0032want " TWO "\n"
#define OFFERED "000eversion 2\n" "0012fetch=shallow\n" "0000"
#define ANSWER "000dpackfile\n" "0007\001AB" "0008\002hi\n" "0008\003no\n"
#define OTHER_OFFERED "000eversion 2\n" "0019fetch=shallow x-word\n" "0000"
#define OTHER_FETCH "0012command=fetch\n" "0001" "000fx-word one\n" "0032want " ONE "\n" "0016deepen-not refs/a\n" "0009done\n" "0000"
#define OTHER_ANSWER "000dpackfile\n" "0007\001AB" "0000"
#define ALL_PACKETS 6 /* the command, the delimiter, a revision, a wanted object, `done`, and the flush */

static uint8_t buffer[GITWIRE_PACKET_SIZE];

static void run_packet_reader(void)
{
	gitwire_packet_reader *reader = NULL;
	gitwire_answer answer;
	long before;

	if (IS_MADE(reader, gitwire_packet_reader_new(&reader), "a packet reader")) {
		before = asked;
		answer = gitwire_packet_reader_feed(reader, BYTES("0009hello"), buffer, sizeof buffer);
		expect_none_asked(before, "memory for a packet");
		expect(answer.kind == GITWIRE_PAYLOAD, "a packet");
	}
	gitwire_packet_reader_free(reader);
}

static void run_writer(void)
{
	gitwire_writer *writer = NULL;
	gitwire_answer answer;
	long before;

	if (IS_MADE(writer, gitwire_writer_new(&writer), "a writer")) {
		before = asked;
		answer = gitwire_put_line(writer, TEXT("NAK"), buffer, sizeof buffer);
		expect_none_asked(before, "memory for a line");
		expect(answer.kind == GITWIRE_DONE, "a line");
	}
	gitwire_writer_free(writer);
}

/* Whether a request is received, or it is refused as OutOfMemory, and stays refused. */
static void hear_request(gitwire_request_reader *reader, gitwire_request *request, const char *text)
{
	gitwire_answer answer, after;

	do
		answer = gitwire_request_reader_feed(reader, request, BYTES(text));
	while (answer.kind == GITWIRE_OUT_OF_MEMORY && answer.used == 0 && !refused_after);
	if (answer.kind == GITWIRE_REQUEST) {
		expect(answer.used == strlen(text), "a whole request");
		return;
	}
	expect(refused > 0, "a request");
	after = gitwire_request_reader_feed(reader, request, BYTES(text));
	if (answer.kind == GITWIRE_FAILED)
		expect(answer.fault == GITWIRE_FAULT_OUT_OF_MEMORY && after.kind == GITWIRE_FAILED && after.used == 0
			&& after.fault == answer.fault && after.offset == answer.offset, "a refused request");
	else
		expect(answer.kind == GITWIRE_OUT_OF_MEMORY && answer.used == 0, "nothing used");
}

static bool make_reader(gitwire_request_reader **reader)
{
	return IS_MADE(*reader, gitwire_request_reader_new(reader, GITWIRE_SHA1,
		GITWIRE_FEATURE_SHALLOW | GITWIRE_FEATURE_FILTER | GITWIRE_FEATURE_SERVER_OPTION, GITWIRE_DEFAULT_LIMIT), "a reader of requests");
}

static void run_request_reader(void)
{
	gitwire_request_reader *reader = NULL;
	gitwire_request *request = NULL;

	if (make_reader(&reader) && IS_MADE(request, gitwire_request_empty(&request), "a handle without a request")) {
		hear_request(reader, request, FETCH);
		hear_request(reader, request, LS_REFS);
	}
	gitwire_request_reader_free(reader);
	gitwire_request_free(request);
}

/* Whether an argument was added; or it is refused, for lack of memory alone. */
static bool is_added(gitwire_answer answer)
{
	expect(answer.kind == GITWIRE_DONE
		|| (answer.kind == GITWIRE_FAILED && answer.fault == GITWIRE_FAULT_OUT_OF_MEMORY && refused > 0), "an argument");
	return answer.kind == GITWIRE_DONE;
}

static bool add(gitwire_request *request, const char *line)
{
	return is_added(gitwire_request_add(request, TEXT(line)));
}

/* A flag or a number, which takes no memory. */
static void add_without_memory(gitwire_request *request, const char *line)
{
	long before = asked;
	gitwire_answer answer = gitwire_request_add(request, TEXT(line));

	expect(answer.kind == GITWIRE_DONE, "a flag or a number");
	expect_none_asked(before, "memory for a flag or a number");
}

/* An argument that was refused is not in the request, and those before it are. */
static void run_request(void)
{
	gitwire_request *request = NULL;
	bool first, second, third, fourth;

	if (IS_MADE(request, gitwire_request_new(&request, GITWIRE_FETCH, GITWIRE_SHA1, 1000), "a request")) {
		first = add(request, "want " ONE);
		expect(gitwire_request_item(request, GITWIRE_LIST_WANTS, 0, (char *)buffer, sizeof buffer).kind
			== (first ? GITWIRE_DONE : GITWIRE_NOTHING), "a want");
		second = add(request, "deepen-not refs/a");
		expect(gitwire_request_item(request, GITWIRE_LIST_DEEPEN_NOTS, 0, (char *)buffer, sizeof buffer).kind
			== (second ? GITWIRE_DONE : GITWIRE_NOTHING), "a revision");
		add(request, "want-ref refs/heads/main");
		third = add(request, "filter blob:none");
		expect(gitwire_request_item(request, GITWIRE_LIST_FILTERS, 0, (char *)buffer, sizeof buffer).kind
			== (third ? GITWIRE_DONE : GITWIRE_NOTHING), "a filter");
		fourth = is_added(gitwire_request_add_server_option(request, TEXT("first")));
		expect(gitwire_request_item(request, GITWIRE_LIST_SERVER_OPTIONS, 0, (char *)buffer, sizeof buffer).kind
			== (fourth ? GITWIRE_DONE : GITWIRE_NOTHING), "a server option");
	}
	gitwire_request_free(request);
}

/* Each flag of a command, and each number, takes no memory. */
static void run_flags(void)
{
	static const struct {
		gitwire_command command;
		const char *lines[10];
	} all[] = {
		{ GITWIRE_LS_REFS, { "symrefs", "peel", "unborn" } },
		{ GITWIRE_FETCH, { "done", "thin-pack", "no-progress", "include-tag", "ofs-delta", "wait-for-done", "deepen-relative",
			"deepen 1", "deepen-since 1" } },
		{ GITWIRE_OBJECT_INFO, { "size" } },
	};

	for (size_t i = 0; i < sizeof all / sizeof *all; i++) {
		gitwire_request *request = NULL;

		if (IS_MADE(request, gitwire_request_new(&request, all[i].command, GITWIRE_SHA1, 1000), "a request of flags"))
			for (const char *const *line = all[i].lines; *line; line++)
				add_without_memory(request, *line);
		gitwire_request_free(request);
	}
}

static const char *const small = "format sha1\n" "ref " ONE " HEAD symref-target:refs/heads/main\n" "ref " ONE " refs/heads/main\n"
	"object " ONE " 230\n" "ready 1\n" "shallow " ONE "\n";

static bool make_repository(gitwire_repository **repository)
{
	return IS_MADE(*repository, gitwire_repository_new(repository, TEXT(small), BYTES("PACK")).kind, "a repository");
}

static void run_repository(void)
{
	gitwire_repository *repository = NULL;

	make_repository(&repository);
	gitwire_repository_free(repository);
}

/* One with a pack of its own for fetches with a filter. */
static void run_filtered_repository(void)
{
	gitwire_repository *repository = NULL;

	IS_MADE(repository, gitwire_repository_new_filtered(&repository, TEXT(small), BYTES("PACK"), BYTES("TINY")).kind,
		"a repository with two packs");
	gitwire_repository_free(repository);
}

/* Repositories with packs that are lent: no memory is requested for them, so with packs of any length there are as many requests. */
static void run_lent_repository(void)
{
	gitwire_repository *repository = NULL;
	long before = asked, for_one, for_none;

	if (IS_MADE(repository, gitwire_repository_new_lent(&repository, TEXT(small), BYTES("PACK")).kind, "a repository with a pack that is lent")) {
		for_one = asked - before;
		gitwire_repository_free(repository);
		before = asked;
		if (IS_MADE(repository, gitwire_repository_new_lent(&repository, TEXT(small), NULL, 0).kind, "a repository with no pack")) {
			for_none = asked - before;
			expect(refused > 0 || for_one == for_none, "memory for a pack that is lent");
		}
	}
	gitwire_repository_free(repository);
	IS_MADE(repository, gitwire_repository_new_lent_filtered(&repository, TEXT(small), BYTES("PACK"), BYTES("TINY")).kind,
		"a repository with two packs that are lent");
	gitwire_repository_free(repository);
}

/* A session ends with the client's flush, or is refused as OutOfMemory. */
static void run_server(void)
{
	static const char *const said = LS_REFS FETCH "0000";
	gitwire_repository *repository = NULL;
	gitwire_server *server = NULL;
	gitwire_answer answer = { .kind = GITWIRE_PACKET };
	size_t used = 0;

	if (make_repository(&repository) && IS_MADE(server, gitwire_server_new(&server, repository, 1000, true), "a server")) {
		while (answer.kind == GITWIRE_PACKET || answer.kind == GITWIRE_NEED_INPUT) {
			long before = asked;

			answer = gitwire_server_pull(server, buffer, sizeof buffer);
			expect_none_asked(before, "memory for an answer");
			if (answer.kind == GITWIRE_NEED_INPUT && used < strlen(said))
				used += gitwire_server_feed(server, (const uint8_t *)said + used, strlen(said) - used).used;
			else if (answer.kind == GITWIRE_NEED_INPUT)
				gitwire_server_close(server);
		}
		expect(answer.kind == GITWIRE_ENDED_BY_FLUSH || (answer.fault == GITWIRE_FAULT_OUT_OF_MEMORY && refused > 0), "a session");
		gitwire_server_free(server);
		IS_MADE(server, gitwire_server_new(&server, repository, 1000, true), "a further server");
	}
	gitwire_repository_free(repository);
	gitwire_server_free(server);
}

/* Whether a report is accepted, once there is memory for it: if memory is refused nothing changes, and the report is made again. */
static void expect_reported(gitwire_host *host, gitwire_result kind, gitwire_answer (*report)(gitwire_host *))
{
	gitwire_answer answer = report(host);

	if (answer.kind == GITWIRE_OUT_OF_MEMORY) {
		expect(refused > 0, "a report");
		answer = report(host);
	}
	expect(answer.kind == kind || (answer.kind == GITWIRE_OUT_OF_MEMORY && refused_after), "what came of a report");
}

static gitwire_answer report_reference(gitwire_host *host)
{
	return gitwire_host_reference(host, TEXT(ONE), TEXT("refs/heads/a-name-of-more-than-32-bytes"), TEXT("refs/a"), NULL, 0, buffer, sizeof buffer);
}

static gitwire_answer report_plain_reference(gitwire_host *host)
{
	return gitwire_host_reference(host, TEXT(ONE), TEXT("refs/heads/b-name-of-more-than-32-bytes-too"), NULL, 0, NULL, 0, buffer, sizeof buffer);
}

static gitwire_answer report_wanted(gitwire_host *host)
{
	return gitwire_host_want_ref(host, TEXT(ONE), buffer, sizeof buffer);
}

/* A session over a store that answers questions: references, and a wanted one. It ends well, or is refused as OutOfMemory. */
static void run_host(void)
{
	static const char *const said = LS_REFS "0012command=fetch\n" "0001" "0014want-ref refs/a\n" "0009done\n" "0000";
	gitwire_host *host = NULL;
	gitwire_answer answer = { .kind = GITWIRE_PACKET };
	size_t used = 0;

	if (IS_MADE(host, gitwire_host_new(&host, GITWIRE_SHA1, GITWIRE_FEATURES_ALL, 1000, true), "a host's server")) {
		while (answer.kind != GITWIRE_ENDED_BY_CLOSE && answer.kind != GITWIRE_FAILED && answer.kind != GITWIRE_NEED_BOUNDARY) {
			answer = gitwire_host_pull(host, buffer, sizeof buffer);
			if (answer.kind == GITWIRE_NEED_INPUT && used < strlen(said))
				used += gitwire_host_feed(host, (const uint8_t *)said + used, strlen(said) - used).used;
			else if (answer.kind == GITWIRE_NEED_INPUT)
				gitwire_host_close(host);
			else if (answer.kind == GITWIRE_ASKED)
				expect(gitwire_host_accept(host) == GITWIRE_DONE, "a request that is accepted");
			else if (answer.kind == GITWIRE_NEED_REFERENCE) {
				expect_reported(host, GITWIRE_PACKET, report_reference);
				expect_reported(host, GITWIRE_PACKET, report_plain_reference);
				expect(gitwire_host_references_end(host, buffer, sizeof buffer).kind == GITWIRE_PACKET, "the end of references");
			} else if (answer.kind == GITWIRE_NEED_WANT_REF) {
				expect_reported(host, GITWIRE_MORE, report_wanted);
				if (refused_after && refused > 0)
					break;
			}
		}
		expect(answer.kind != GITWIRE_FAILED || (answer.fault == GITWIRE_FAULT_OUT_OF_MEMORY && refused > 0), "a session of a host");
	}
	gitwire_host_free(host);
}

static void run_client(void)
{
	gitwire_client *client = NULL;
	gitwire_request *request = NULL;
	gitwire_event event;
	gitwire_answer answer;
	long before;

	if (IS_MADE(client, gitwire_client_new(&client, GITWIRE_SHA1, GITWIRE_ENDS_BY_FLUSH), "a client")) {
		before = asked;
		event = gitwire_client_feed(client, BYTES("000eversion 2\n"), buffer, sizeof buffer);
		event = gitwire_client_feed(client, BYTES("000cls-refs\n"), buffer, sizeof buffer);
		event = gitwire_client_feed(client, BYTES("0000"), buffer, sizeof buffer);
		expect(event.kind == GITWIRE_OFFERED, "an advertisement");
		expect_none_asked(before, "memory for an advertisement");
		if (IS_MADE(request, gitwire_request_new(&request, GITWIRE_LS_REFS, GITWIRE_SHA1, 1000), "a request to ask")) {
			add(request, "ref-prefix refs/heads/");
			before = asked;
			answer = gitwire_client_ask(client, request);
			expect(answer.kind == GITWIRE_DONE || refused > 0, "a request");
			do
				answer = gitwire_client_pull(client, buffer, sizeof buffer);
			while (answer.kind == GITWIRE_PACKET);
			expect(answer.kind == GITWIRE_NEED_INPUT || refused > 0, "what is sent for it");
			expect_none_asked(before, "memory for a request");
		}
	}
	gitwire_client_free(client);
	gitwire_request_free(request);
}

/* A reader of requests is freed wherever its input breaks off: so many bytes of two requests come. */
static void break_requests_off(size_t length)
{
	static const char *const said = LS_REFS FETCH;
	gitwire_request_reader *reader = NULL;
	gitwire_request *request = NULL;
	gitwire_answer answer = { .kind = GITWIRE_MORE };

	if (make_reader(&reader) && IS_MADE(request, gitwire_request_empty(&request), "a handle for requests that break off"))
		for (size_t used = 0; used < length && (answer.kind == GITWIRE_MORE || answer.kind == GITWIRE_REQUEST); used += answer.used)
			answer = gitwire_request_reader_feed(reader, request, (const uint8_t *)said + used, length - used);
	expect(answer.kind == GITWIRE_MORE || answer.kind == GITWIRE_REQUEST || refused > 0, "requests that break off");
	gitwire_request_reader_free(reader);
	gitwire_request_free(request);
	expect(live == 0, "what a reader of requests kept");
}

static void run_broken_requests(void)
{
	for (size_t length = 0; length < strlen(LS_REFS FETCH); length += 15)
		break_requests_off(length);
}

/* A server is freed wherever its session breaks off, and after the last packet, which is refused when others are kept already. */
static void break_session_off(size_t length)
{
	static const char *const said = REFUSED;
	gitwire_repository *repository = NULL;
	gitwire_server *server = NULL;
	gitwire_answer answer = { .kind = GITWIRE_NEED_INPUT };

	if (make_repository(&repository) && IS_MADE(server, gitwire_server_new(&server, repository, 1000, false), "a server to break off")) {
		for (size_t used = 0; used < length && answer.kind == GITWIRE_NEED_INPUT;) {
			used += gitwire_server_feed(server, (const uint8_t *)said + used, length - used).used;
			do
				answer = gitwire_server_pull(server, buffer, sizeof buffer);
			while (answer.kind == GITWIRE_PACKET);
		}
		expect((answer.kind == GITWIRE_NEED_INPUT && length < strlen(said))
			|| (answer.fault == GITWIRE_FAULT_NOT_OURS && length == strlen(said))
			|| (answer.fault == GITWIRE_FAULT_OUT_OF_MEMORY && refused > 0), "a session that breaks off");
	}
	gitwire_repository_free(repository);
	gitwire_server_free(server);
	expect(live == 0, "what a server kept");
}

static void run_broken_session(void)
{
	for (size_t length = 0; length < strlen(REFUSED); length += 15)
		break_session_off(length);
	break_session_off(strlen(REFUSED));
}

/* Feeds a client so many bytes, or those up to an error. Receiving takes no memory. */
static gitwire_event hear(gitwire_client *client, const char *said, size_t length)
{
	gitwire_event event = { .kind = GITWIRE_MORE };
	long before = asked;

	for (size_t used = 0; used < length && event.kind != GITWIRE_FAILED; used += event.used)
		event = gitwire_client_feed(client, (const uint8_t *)said + used, length - used, buffer, sizeof buffer);
	expect_none_asked(before, "memory for what is received");
	return event;
}

/* Sends so many packets of the request, and then receives so many bytes of the answer. */
static void ask_and_hear(gitwire_client *client, gitwire_request *request, int packets, size_t length)
{
	gitwire_event event;
	long before;

	hear(client, OFFERED, strlen(OFFERED));
	before = asked;
	expect(gitwire_client_ask(client, request).kind == GITWIRE_DONE, "a pack that is asked for");
	while (packets-- > 0 && gitwire_client_pull(client, buffer, sizeof buffer).kind == GITWIRE_PACKET)
		;
	expect_none_asked(before, "memory for a pack that is asked for");
	event = hear(client, ANSWER, length);
	if (length < strlen(ANSWER))
		return;
	expect(event.kind == GITWIRE_FAILED && event.fault == GITWIRE_FAULT_REMOTE_FATAL, "the server's fault");
	expect(gitwire_client_message(client, (char *)buffer, sizeof buffer).length == 3, "the server's message for it");
	expect_none_asked(before, "memory for a server's message");
}

/* A client is freed wherever its conversation breaks off: while it asks, and in the answer, whose last packet reports an error. */
static void break_conversation_off(int packets, size_t length)
{
	gitwire_client *client = NULL;
	gitwire_request *request = NULL;

	if (IS_MADE(client, gitwire_client_new(&client, GITWIRE_SHA1, GITWIRE_ENDS_BY_FLUSH), "a client to break off")
		&& IS_MADE(request, gitwire_request_new(&request, GITWIRE_FETCH, GITWIRE_SHA1, 1000), "a request for a pack")
		&& add(request, "want " ONE) && add(request, "deepen-not refs/a") && add(request, "done"))
		ask_and_hear(client, request, packets, length);
	gitwire_client_free(client);
	gitwire_request_free(request);
	expect(live == 0, "what a client kept");
}

static void run_broken_conversation(void)
{
	for (int packets = 0; packets < ALL_PACKETS; packets++)
		break_conversation_off(packets, 0);
	for (size_t length = 0; length < strlen(ANSWER); length += 5)
		break_conversation_off(ALL_PACKETS, length);
	break_conversation_off(ALL_PACKETS, strlen(ANSWER));
}

/* Feeds a checker what it needs of both sides, until one of them has no more bytes. Pulling takes no memory. */
static gitwire_answer feed_both(gitwire_checker *checker, const char *requests, size_t requests_length, const char *responses)
{
	size_t used = 0, used_of_responses = 0, length = strlen(responses);

	for (;;) {
		long before = asked;
		gitwire_answer answer = gitwire_checker_pull(checker, (char *)buffer, sizeof buffer);

		expect_none_asked(before, "memory for lines");
		if (answer.kind == GITWIRE_NEED_REQUESTS && used < requests_length)
			used += gitwire_checker_feed(checker, GITWIRE_STREAM_REQUESTS, (const uint8_t *)requests + used, requests_length - used).used;
		else if (answer.kind == GITWIRE_NEED_RESPONSES && used_of_responses < length)
			used_of_responses += gitwire_checker_feed(checker, GITWIRE_STREAM_RESPONSES, (const uint8_t *)responses + used_of_responses,
				length - used_of_responses).used;
		else if (answer.kind != GITWIRE_LINES)
			return answer;
	}
}

/* A conversation with what only the server knows, of whose requests so many bytes come, is good so far, or is refused as OutOfMemory. */
static void check_so_far(size_t length)
{
	gitwire_checker *checker = NULL;
	gitwire_answer answer;
	bool is_whole = length == strlen(OTHER_FETCH);

	if (IS_MADE(checker, gitwire_checker_new(&checker, GITWIRE_SHA1, GITWIRE_ENDS_BY_FLUSH, 1000), "a checker")) {
		answer = feed_both(checker, OTHER_FETCH, length, OTHER_OFFERED OTHER_ANSWER);
		if (is_whole && answer.kind == GITWIRE_NEED_REQUESTS && gitwire_checker_close(checker, GITWIRE_STREAM_REQUESTS) == GITWIRE_DONE
			&& gitwire_checker_close(checker, GITWIRE_STREAM_RESPONSES) == GITWIRE_DONE)
			answer = gitwire_checker_pull(checker, (char *)buffer, sizeof buffer);
		expect(answer.kind == (is_whole ? GITWIRE_CHECKED : GITWIRE_NEED_REQUESTS)
			|| ((answer.kind == GITWIRE_FAILED_REQUESTS || answer.kind == GITWIRE_FAILED_RESPONSES)
				&& answer.fault == GITWIRE_FAULT_OUT_OF_MEMORY && refused > 0), "a conversation that is checked");
	}
	gitwire_checker_free(checker);
	expect(live == 0, "what a checker kept");
}

static void run_checker(void)
{
	check_so_far(strlen(OTHER_FETCH));
}

/* A checker is freed wherever the requests break off. */
static void run_broken_check(void)
{
	for (size_t length = 0; length < strlen(OTHER_FETCH); length += 35)
		check_so_far(length);
}

/* Runs all, with this request for memory refused, and returns whether there was one. */
static bool run(void (*scenario)(void), long at, bool after)
{
	asked = refused = live = 0;
	refused_at = at;
	refused_after = after;
	scenario();
	expect(live == 0, "blocks that are not freed");
	return refused > 0;
}

int main(void)
{
	static void (*const scenarios[])(void) = { run_packet_reader, run_writer, run_request_reader, run_request, run_flags, run_repository,
		run_filtered_repository, run_lent_repository, run_server, run_host, run_client, run_checker, run_broken_requests, run_broken_session,
		run_broken_conversation, run_broken_check };

	for (size_t i = 0; i < sizeof scenarios / sizeof *scenarios; i++) {
		long at = 0;

		run(scenarios[i], -1, false);
		printf("%ld%c", asked, i + 1 < sizeof scenarios / sizeof *scenarios ? ' ' : '\n');
		while (run(scenarios[i], at, false) | run(scenarios[i], at, true))
			at++;
	}
	return failures > 0;
}
