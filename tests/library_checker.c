/*
 * Calls each function of a checker, as library_calls.c does with the others: at each moment of a conversation and after its verdict, with numbers that mean
 * nothing, and with chunks and buffers of different sizes.
 */
#include "library_calls.h"

#define ADVERTISED "000eversion 2\n" "000cls-refs\n" "0000"
#define LS_REFS "0014command=ls-refs\n" "0000"
#define OFFERED "capability ls-refs\n" "offered\n"
#define LISTED OFFERED "request ls-refs\n"

/* What both sides sent, under a limit, what is printed of it, and the verdict. */
struct conversation {
	const char *requests, *responses, *lines;
	gitwire_ending ending;
	uint32_t limit;
	gitwire_result verdict;
	gitwire_fault fault;
	uint64_t offset;
};

#define WELL GITWIRE_ENDS_BY_FLUSH, 1000, GITWIRE_CHECKED, (gitwire_fault)0, 0
#define BAD_REQUESTS GITWIRE_ENDS_BY_FLUSH, 1000, GITWIRE_FAILED_REQUESTS
#define BAD_RESPONSES GITWIRE_ENDS_BY_FLUSH, 1000, GITWIRE_FAILED_RESPONSES

static const struct conversation conversations[] = {
	{ "", ADVERTISED, OFFERED, WELL },
	{ LS_REFS "0000" "what is behind a flush alone", ADVERTISED "0000", LISTED "end 0 0\n", WELL },
	{ LS_REFS, ADVERTISED "0032" ONE " HEAD\n" "0000", LISTED "ref " ONE " HEAD\n" "end 0 0\n", WELL },
	{ LS_REFS LS_REFS, ADVERTISED "0000" "0002" "0000" "0002", LISTED "end 0 0\n" "request ls-refs\n" "end 0 0\n",
		GITWIRE_ENDS_BY_RESPONSE_END, 1000, GITWIRE_CHECKED, (gitwire_fault)0, 0 },
	/* an argument that only the server knows, and a command */
	{ "0012command=fetch\n" "0001" "000fx-word one\n" "0032want " ONE "\n" "0009done\n" "0000",
		"000eversion 2\n" "0011fetch=x-word\n" "0000" "000dpackfile\n" "0009\001PACK" "0008\00250%" "0000",
		"capability fetch=x-word\n" "offered\n" "request fetch\n" "argument x-word one\n" "end 4 3\n", WELL },
	{ "0017command=bundle-uri\n" "0001" "0008any\n" "0000", "000eversion 2\n" "000fbundle-uri\n" "0000" "0014bundle.mode=all\n" "0000",
		"capability bundle-uri\n" "offered\n" "request bundle-uri\n", WELL },
	/* the limit of a request */
	{ "0014command=ls-refs\n" "0001" "0009peel\n" "0000", ADVERTISED "0000", LISTED "end 0 0\n",
		GITWIRE_ENDS_BY_FLUSH, 4, GITWIRE_CHECKED, (gitwire_fault)0, 0 },
	{ "0014command=ls-refs\n" "0001" "0009peel\n" "0000", ADVERTISED "0000", OFFERED,
		GITWIRE_ENDS_BY_FLUSH, 3, GITWIRE_FAILED_REQUESTS, GITWIRE_FAULT_TOO_MUCH_KEPT, 24 },
	/* requests that are refused, and responses */
	{ "0014command=ls-rexs\n" "0000", ADVERTISED, OFFERED, BAD_REQUESTS, GITWIRE_FAULT_UNKNOWN_COMMAND, 0 },
	{ "0014command=ls-refs\n" "00", ADVERTISED, OFFERED, BAD_REQUESTS, GITWIRE_FAULT_TRUNCATED, 20 },
	{ "", "", "", BAD_RESPONSES, GITWIRE_FAULT_TRUNCATED, 0 },
	{ "", "000eversion 2\n" "00", "", BAD_RESPONSES, GITWIRE_FAULT_TRUNCATED, 14 },
	{ "", "00x0", "", BAD_RESPONSES, GITWIRE_FAULT_BAD_DIGIT, 2 },
	{ LS_REFS, "000eversion 2\n" "0009size\n" "0000", "capability size\n" "offered\n", BAD_RESPONSES, GITWIRE_FAULT_NOT_ADVERTISED, 27 },
	{ LS_REFS, ADVERTISED, LISTED, BAD_RESPONSES, GITWIRE_FAULT_TRUNCATED, 30 },
	{ LS_REFS, ADVERTISED "000cERR gone", LISTED, BAD_RESPONSES, GITWIRE_FAULT_REMOTE_ERROR, 30 },
	{ LS_REFS "0000", ADVERTISED "0000" "0", LISTED "end 0 0\n", BAD_RESPONSES, GITWIRE_FAULT_UNEXPECTED_PACKET, 34 },
};

/* The lines of a conversation so far. */
static char printed[400000];
static size_t printed_length;

/* What gitwire_checker_new is to make, and what it returns. */
struct making {
	gitwire_checker **checker;
	gitwire_format format;
	gitwire_ending ending;
	uint32_t limit;
	gitwire_result result;
};

static void *call_new(void *made)
{
	struct making *making = made;

	making->result = gitwire_checker_new(making->checker, making->format, making->ending, making->limit);
	return NULL;
}

/* Calls gitwire_checker_new on the stack that the header states for it: all other calls are made on the small one. */
static gitwire_result make_checker(gitwire_checker **checker, gitwire_format format, gitwire_ending ending, uint32_t limit)
{
	struct making making = { checker, format, ending, limit, GITWIRE_NOTHING };

	EXPECT(on_a_stack(160 * 1024, call_new, &making));
	return making.result;
}

static gitwire_checker *new_checker(gitwire_ending ending, uint32_t limit)
{
	gitwire_checker *checker = NULL;

	EXPECT(make_checker(&checker, GITWIRE_SHA1, ending, limit) == GITWIRE_DONE && checker != NULL);
	return checker;
}

/* What a pull returns that leaves the buffer alone. */
static gitwire_answer pull(gitwire_checker *checker)
{
	gitwire_answer answer = gitwire_checker_pull(checker, CHARACTERS);
	bool is_unchanged = true;

	for (size_t i = 0; i < sizeof buffer; i++)
		is_unchanged = is_unchanged && buffer[i] == '#';
	EXPECT(is_unchanged);
	return answer;
}

/* Whether a pull returns exactly these lines, in a buffer of so many bytes, and leaves what is behind them alone. */
static bool prints(gitwire_checker *checker, size_t space, const char *lines)
{
	bool is_it = tells(gitwire_checker_pull(checker, (char *)buffer, space), GITWIRE_LINES, 0, 0, strlen(lines));

	is_it = is_it && memcmp(buffer, lines, strlen(lines)) == 0 && buffer[strlen(lines)] == '#' && buffer[sizeof buffer - 1] == '#';
	memset(buffer, '#', sizeof buffer);
	return is_it;
}

/* Whether neither stream takes bytes or its end. */
static bool takes_nothing(gitwire_checker *checker)
{
	bool is_it = true;

	for (gitwire_stream stream = GITWIRE_STREAM_REQUESTS; stream <= GITWIRE_STREAM_RESPONSES; stream++) {
		is_it = is_it && tells(gitwire_checker_feed(checker, stream, BYTES("0000")), GITWIRE_NOT_NOW, 0, 0, 0);
		is_it = is_it && tells(gitwire_checker_feed(checker, stream, NULL, 0), GITWIRE_NOT_NOW, 0, 0, 0);
		is_it = is_it && gitwire_checker_close(checker, stream) == GITWIRE_NOT_NOW;
	}
	return is_it;
}

/* Whether it takes nothing of the other stream than this. */
static bool needs_alone(gitwire_checker *checker, gitwire_stream stream)
{
	gitwire_stream other = stream == GITWIRE_STREAM_REQUESTS ? GITWIRE_STREAM_RESPONSES : GITWIRE_STREAM_REQUESTS;
	gitwire_result kind = stream == GITWIRE_STREAM_REQUESTS ? GITWIRE_NEED_REQUESTS : GITWIRE_NEED_RESPONSES;

	return tells(pull(checker), kind, 0, 0, 0) && tells(gitwire_checker_feed(checker, other, BYTES("0000")), GITWIRE_NOT_NOW, 0, 0, 0)
		&& gitwire_checker_close(checker, other) == GITWIRE_NOT_NOW && tells(gitwire_checker_feed(checker, stream, NULL, 0), GITWIRE_MORE, 0, 0, 0)
		&& tells(pull(checker), kind, 0, 0, 0);
}

/* Each moment of a short conversation. */
static void try_a_conversation(void)
{
	gitwire_checker *checker = NULL;

	gitwire_checker_free(checker);
	checker = new_checker(GITWIRE_ENDS_BY_FLUSH, GITWIRE_DEFAULT_LIMIT);
	EXPECT(tells(gitwire_checker_pull(checker, NULL, 0), GITWIRE_BUFFER_TOO_SMALL, 0, 0, 0));
	EXPECT(needs_alone(checker, GITWIRE_STREAM_RESPONSES));
	EXPECT(tells(gitwire_checker_feed(checker, GITWIRE_STREAM_RESPONSES, BYTES("000ever")), GITWIRE_MORE, 7, 0, 0));
	EXPECT(needs_alone(checker, GITWIRE_STREAM_RESPONSES));
	EXPECT(tells(gitwire_checker_feed(checker, GITWIRE_STREAM_RESPONSES, BYTES("sion 2\n" "000cls-refs\n" "0000" "0000")), GITWIRE_MORE, 23, 0, 0));
	EXPECT(takes_nothing(checker));
	EXPECT(tells(gitwire_checker_pull(checker, (char *)buffer, 0), GITWIRE_BUFFER_TOO_SMALL, 0, 0, 0) && buffer[0] == '#');
	EXPECT(prints(checker, 1, "c"));
	EXPECT(takes_nothing(checker));
	EXPECT(prints(checker, 12, "apability ls"));
	EXPECT(prints(checker, sizeof buffer, "-refs\n" "offered\n"));
	EXPECT(needs_alone(checker, GITWIRE_STREAM_REQUESTS));
	EXPECT(tells(gitwire_checker_feed(checker, GITWIRE_STREAM_REQUESTS, BYTES(LS_REFS "0000")), GITWIRE_MORE, 24, 0, 0));
	EXPECT(takes_nothing(checker));
	EXPECT(prints(checker, 16, "request ls-refs\n"));
	EXPECT(needs_alone(checker, GITWIRE_STREAM_RESPONSES));
	EXPECT(tells(gitwire_checker_feed(checker, GITWIRE_STREAM_RESPONSES, BYTES("0000")), GITWIRE_MORE, 4, 0, 0));
	EXPECT(prints(checker, sizeof buffer, "end 0 0\n"));
	EXPECT(needs_alone(checker, GITWIRE_STREAM_REQUESTS));
	EXPECT(tells(gitwire_checker_feed(checker, GITWIRE_STREAM_REQUESTS, BYTES("0000" "0000")), GITWIRE_MORE, 4, 0, 0));
	EXPECT(needs_alone(checker, GITWIRE_STREAM_RESPONSES));
	EXPECT(gitwire_checker_close(checker, GITWIRE_STREAM_RESPONSES) == GITWIRE_DONE);
	EXPECT(tells(pull(checker), GITWIRE_CHECKED, 0, 0, 0) && takes_nothing(checker) && tells(pull(checker), GITWIRE_CHECKED, 0, 0, 0));
	gitwire_checker_free(checker);
}

/* Feeds what is needed, at most so many bytes at a time, and takes the lines in a buffer of so many, until there is a verdict. */
static gitwire_answer judge(gitwire_checker *checker, const struct conversation *it, size_t most, size_t space)
{
	const char *rests[] = { [GITWIRE_STREAM_REQUESTS] = it->requests, [GITWIRE_STREAM_RESPONSES] = it->responses };

	for (printed_length = 0;;) {
		gitwire_answer answer = gitwire_checker_pull(checker, (char *)buffer, space);
		gitwire_stream stream = answer.kind == GITWIRE_NEED_REQUESTS ? GITWIRE_STREAM_REQUESTS : GITWIRE_STREAM_RESPONSES;

		if (answer.kind == GITWIRE_LINES) {
			EXPECT(tells(answer, GITWIRE_LINES, 0, 0, answer.length) && answer.length > 0 && answer.length <= space);
			if (sizeof printed - printed_length < answer.length)
				exit(1);
			memcpy(printed + printed_length, buffer, answer.length);
			printed_length += answer.length;
		} else if (answer.kind != GITWIRE_NEED_REQUESTS && answer.kind != GITWIRE_NEED_RESPONSES) {
			memset(buffer, '#', sizeof buffer);
			return answer;
		} else if (*rests[stream] == 0) {
			EXPECT(gitwire_checker_close(checker, stream) == GITWIRE_DONE);
		} else {
			size_t length = strnlen(rests[stream], most);

			answer = gitwire_checker_feed(checker, stream, (const uint8_t *)rests[stream], length);
			EXPECT(tells(answer, GITWIRE_MORE, answer.used, 0, 0) && answer.used > 0 && answer.used <= length);
			rests[stream] += answer.used;
		}
	}
}

static bool is_verdict(gitwire_answer answer, const struct conversation *it)
{
	return answer.kind == it->verdict && answer.used == 0 && answer.length == 0 && answer.fault == it->fault && answer.offset == it->offset;
}

/* Each conversation, in chunks and buffers of these sizes, and what is returned after the verdict. */
static void try_sizes(size_t most, size_t space)
{
	for (size_t i = 0; i < sizeof conversations / sizeof *conversations; i++) {
		const struct conversation *it = &conversations[i];
		gitwire_checker *checker = new_checker(it->ending, it->limit);
		int before = failures;

		EXPECT(is_verdict(judge(checker, it, most, space), it));
		EXPECT(printed_length == strlen(it->lines) && memcmp(printed, it->lines, printed_length) == 0);
		EXPECT(takes_nothing(checker) && is_verdict(pull(checker), it));
		EXPECT(tells(gitwire_checker_pull(checker, (char *)buffer, 0), GITWIRE_BUFFER_TOO_SMALL, 0, 0, 0));
		EXPECT(tells(gitwire_checker_feed(checker, (gitwire_stream)3, BYTES("0000")), GITWIRE_BAD_VALUE, 0, 0, 0));
		if (failures > before)
			printf("conversation %zu, chunks of %zu, a buffer of %zu:\n%.*s\n", i, most, space, (int)printed_length, printed);
		gitwire_checker_free(checker);
	}
}

/* An advertisement with more lines than one chunk can leave waiting. */
static void try_many_lines(void)
{
	enum { COUNT = 3000, LINE = 60 };
	struct conversation it = { .requests = "" };
	char *responses = malloc(COUNT * (LINE + 10) + 100), *lines = malloc(COUNT * (LINE + 20) + 100);
	size_t length = 0, lines_length = 0;

	if (responses == NULL || lines == NULL)
		exit(1);
	length += (size_t)sprintf(responses, "000eversion 2\n");
	for (int i = 0; i < COUNT; i++) {
		length += (size_t)sprintf(responses + length, "%04x%0*d\n", 4 + LINE + 1, LINE, i);
		lines_length += (size_t)sprintf(lines + lines_length, "capability %0*d\n", LINE, i);
	}
	sprintf(responses + length, "0000");
	lines_length += (size_t)sprintf(lines + lines_length, "offered\n");
	it.responses = responses;
	for (size_t most = 1000; most <= 1000000; most *= 1000) {
		gitwire_checker *checker = new_checker(GITWIRE_ENDS_BY_FLUSH, 0);

		EXPECT(tells(judge(checker, &it, most, sizeof buffer), GITWIRE_CHECKED, 0, 0, 0));
		EXPECT(printed_length == lines_length && memcmp(printed, lines, lines_length) == 0);
		gitwire_checker_free(checker);
	}
	free(responses);
	free(lines);
}

/* A checker of each kind that there is, and freed before its verdict. */
static void try_each_value(void)
{
	static const uint32_t limits[] = { 0, 1, GITWIRE_DEFAULT_LIMIT, GITWIRE_MAXIMUM_LIMIT };

	for (gitwire_format format = GITWIRE_SHA1; format <= GITWIRE_SHA256; format++)
		for (gitwire_ending ending = GITWIRE_ENDS_BY_FLUSH; ending <= GITWIRE_ENDS_BY_RESPONSE_END; ending++)
			for (size_t i = 0; i < sizeof limits / sizeof *limits; i++) {
				gitwire_checker *checker = NULL;

				EXPECT(make_checker(&checker, format, ending, limits[i]) == GITWIRE_DONE && checker != NULL);
				EXPECT(tells(gitwire_checker_feed(checker, GITWIRE_STREAM_RESPONSES, BYTES("000eversion 2\n" "00")), GITWIRE_MORE, 16, 0, 0));
				gitwire_checker_free(checker);
			}
}

/* A number that means nothing is refused, 0 and those that would mean something if their higher bits were cut off. */
static void try_numbers_that_mean_nothing(void)
{
	static const unsigned numbers[] = { 0, 3, 4, 100, 255, 256, 257, 258, 65537, 0x01000001, 0x80000001, 0xffffffff };
	gitwire_checker *other = NULL, *checker = new_checker(GITWIRE_ENDS_BY_FLUSH, 0);

	for (size_t i = 0; i < sizeof numbers / sizeof *numbers; i++) {
		unsigned number = numbers[i];

		EXPECT(make_checker(&other, (gitwire_format)number, GITWIRE_ENDS_BY_FLUSH, 0) == GITWIRE_BAD_VALUE && other == NULL);
		EXPECT(make_checker(&other, GITWIRE_SHA1, (gitwire_ending)number, 0) == GITWIRE_BAD_VALUE && other == NULL);
		EXPECT(tells(gitwire_checker_feed(checker, (gitwire_stream)number, BYTES("000eversion 2\n")), GITWIRE_BAD_VALUE, 0, 0, 0));
		EXPECT(gitwire_checker_close(checker, (gitwire_stream)number) == GITWIRE_BAD_VALUE);
	}
	EXPECT(make_checker(&other, GITWIRE_FORMAT_ANY, GITWIRE_ENDS_BY_FLUSH, 0) == GITWIRE_BAD_VALUE && other == NULL);
	EXPECT(make_checker(&other, GITWIRE_SHA1, GITWIRE_ENDS_BY_FLUSH, GITWIRE_MAXIMUM_LIMIT + 1) == GITWIRE_BAD_VALUE && other == NULL);
	EXPECT(make_checker(&other, GITWIRE_SHA1, GITWIRE_ENDS_BY_FLUSH, UINT32_MAX) == GITWIRE_BAD_VALUE && other == NULL);
	EXPECT(needs_alone(checker, GITWIRE_STREAM_RESPONSES));
	gitwire_checker_free(checker);
}

static void *try_all(void *nothing)
{
	static const size_t sizes[] = { 1, 2, 3, 7, 20, 1000 };

	memset(buffer, '#', sizeof buffer);
	try_a_conversation();
	for (size_t i = 0; i < sizeof sizes / sizeof *sizes; i++) {
		try_sizes(sizes[i], 1);
		try_sizes(sizes[i], 7);
		try_sizes(sizes[i], sizeof buffer);
	}
	try_many_lines();
	try_each_value();
	try_numbers_that_mean_nothing();
	return nothing;
}

int main(void)
{
	return on_a_small_stack(try_all);
}
