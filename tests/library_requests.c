/*
 * Calls each function of the library that makes a request, reads one, or reads its parts, as library_calls.c does with the others.
 */
#include "library_calls.h"

static bool has_item(gitwire_request *request, gitwire_list list, size_t index, const char *item)
{
	return wrote(gitwire_request_item(request, list, index, CHARACTERS), item);
}

static void try_a_request_for_references(void)
{
	gitwire_request *request = NULL;

	gitwire_request_free(request);
	EXPECT(gitwire_request_new(&request, 0, GITWIRE_SHA1, 0) == GITWIRE_BAD_VALUE && request == NULL);
	EXPECT(gitwire_request_new(&request, GITWIRE_LS_REFS, 0, 0) == GITWIRE_BAD_VALUE && request == NULL);
	EXPECT(gitwire_request_new(&request, GITWIRE_LS_REFS, GITWIRE_SHA1, GITWIRE_MAXIMUM_LIMIT + 1) == GITWIRE_BAD_VALUE && request == NULL);
	EXPECT(gitwire_request_new(&request, GITWIRE_LS_REFS, GITWIRE_SHA256, 40) == GITWIRE_DONE);
	EXPECT(gitwire_request_command(request) == GITWIRE_LS_REFS && gitwire_request_format(request) == GITWIRE_SHA256);
	EXPECT(tells(gitwire_request_add(request, TEXT("peel")), GITWIRE_DONE, 0, 0, 0));
	EXPECT(tells(gitwire_request_add(request, TEXT("ref-prefix refs/tags/")), GITWIRE_DONE, 0, 0, 0));
	EXPECT(tells(gitwire_request_add(request, TEXT("ref-prefix ")), GITWIRE_DONE, 0, 0, 0));
	EXPECT(tells_fault(gitwire_request_add(request, TEXT("ref-prefix refs/heads/")), GITWIRE_FAULT_TOO_MUCH_KEPT, 0, 0));
	EXPECT(tells_fault(gitwire_request_add(request, TEXT("done")), GITWIRE_FAULT_UNKNOWN_ARGUMENT, 0, 0));
	EXPECT(tells_fault(gitwire_request_add(request, NULL, 0), GITWIRE_FAULT_UNKNOWN_ARGUMENT, 0, 0));
	EXPECT(gitwire_request_flag(request, GITWIRE_FLAG_PEEL) && !gitwire_request_flag(request, GITWIRE_FLAG_SYMREFS));
	EXPECT(!gitwire_request_flag(request, GITWIRE_FLAG_DONE) && !gitwire_request_flag(request, GITWIRE_FLAG_UNBORN));
	EXPECT(has_item(request, GITWIRE_LIST_REF_PREFIXES, 0, "refs/tags/"));
	EXPECT(has_item(request, GITWIRE_LIST_REF_PREFIXES, 1, ""));
	EXPECT(tells(gitwire_request_item(request, GITWIRE_LIST_REF_PREFIXES, 2, CHARACTERS), GITWIRE_NOTHING, 0, 0, 0));
	EXPECT(tells(gitwire_request_item(request, GITWIRE_LIST_REF_PREFIXES, 0, (char *)buffer, 9), GITWIRE_BUFFER_TOO_SMALL, 0, 0, 0));
	EXPECT(tells(gitwire_request_item(request, GITWIRE_LIST_WANTS, 0, CHARACTERS), GITWIRE_NOTHING, 0, 0, 0));
	EXPECT(tells(gitwire_request_item(request, GITWIRE_LIST_FILTERS, 0, CHARACTERS), GITWIRE_NOTHING, 0, 0, 0));
	EXPECT(tells(gitwire_request_item(request, 0, 0, CHARACTERS), GITWIRE_BAD_VALUE, 0, 0, 0));
	EXPECT(tells(gitwire_request_end(request), GITWIRE_DONE, 0, 0, 0));
	gitwire_request_free(request);
}

/* A handle without a request: each call reports that, and changes nothing. */
static bool has_no_request(gitwire_request *request)
{
	bool is_it = tells(gitwire_request_add(request, TEXT("peel")), GITWIRE_NO_REQUEST, 0, 0, 0);

	is_it = is_it && tells(gitwire_request_add_server_option(request, TEXT("option")), GITWIRE_NO_REQUEST, 0, 0, 0);
	is_it = is_it && tells(gitwire_request_end(request), GITWIRE_NO_REQUEST, 0, 0, 0);
	is_it = is_it && gitwire_request_command(request) == 0 && gitwire_request_format(request) == 0;
	is_it = is_it && tells(gitwire_request_number(request, GITWIRE_NUMBER_DEEPEN), GITWIRE_NO_REQUEST, 0, 0, 0);
	is_it = is_it && tells(gitwire_request_item(request, GITWIRE_LIST_WANTS, 0, CHARACTERS), GITWIRE_NO_REQUEST, 0, 0, 0);
	return is_it && !gitwire_request_flag(request, GITWIRE_FLAG_PEEL) && buffer[0] == '#';
}

static void try_an_empty_handle(void)
{
	gitwire_request *request = NULL;

	EXPECT(gitwire_request_empty(&request) == GITWIRE_DONE && request != NULL);
	EXPECT(has_no_request(request));
	gitwire_request_free(request);
}

static void try_a_request_for_a_pack(void)
{
	gitwire_request *request = NULL;
	static const char *const lines[] = { "thin-pack", "no-progress", "include-tag", "ofs-delta", "shallow " TWO, "deepen 007",
		"deepen-relative", "want-ref refs/heads/main", "filter blob:none", "filter  ", "have " TWO, "have " ONE, "done" };

	EXPECT(gitwire_request_new(&request, GITWIRE_FETCH, GITWIRE_SHA1, GITWIRE_DEFAULT_LIMIT) == GITWIRE_DONE);
	EXPECT(tells_fault(gitwire_request_end(request), GITWIRE_FAULT_NO_WANTS, 0, 0));
	EXPECT(tells_fault(gitwire_request_add(request, TEXT("want 1111")), GITWIRE_FAULT_BAD_OBJECT_NAME, 0, 0));
	EXPECT(tells_fault(gitwire_request_add(request, TEXT("want-ref main")), GITWIRE_FAULT_BAD_REF_NAME, 0, 0));
	EXPECT(tells_fault(gitwire_request_add(request, TEXT("deepen 0")), GITWIRE_FAULT_BAD_NUMBER, 0, 0));
	EXPECT(tells_fault(gitwire_request_add(request, TEXT("filter ")), GITWIRE_FAULT_BAD_LINE, 0, 0));
	EXPECT(tells(gitwire_request_number(request, GITWIRE_NUMBER_DEEPEN), GITWIRE_NOTHING, 0, 0, 0));
	EXPECT(tells(gitwire_request_add(request, TEXT("want " ONE)), GITWIRE_DONE, 0, 0, 0));
	for (size_t i = 0; i < sizeof lines / sizeof *lines; i++)
		EXPECT(tells(gitwire_request_add(request, TEXT(lines[i])), GITWIRE_DONE, 0, 0, 0));
	for (gitwire_flag flag = 0; flag <= GITWIRE_FLAG_WAIT_FOR_DONE; flag++)
		EXPECT(gitwire_request_flag(request, flag) == (flag >= GITWIRE_FLAG_DONE && flag <= GITWIRE_FLAG_DEEPEN_RELATIVE));
	EXPECT(has_item(request, GITWIRE_LIST_WANTS, 0, ONE));
	EXPECT(has_item(request, GITWIRE_LIST_HAVES, 0, TWO));
	EXPECT(has_item(request, GITWIRE_LIST_HAVES, 1, ONE));
	EXPECT(has_item(request, GITWIRE_LIST_SHALLOWS, 0, TWO));
	EXPECT(has_item(request, GITWIRE_LIST_WANT_REFS, 0, "refs/heads/main"));
	EXPECT(has_item(request, GITWIRE_LIST_FILTERS, 0, "blob:none"));
	EXPECT(has_item(request, GITWIRE_LIST_FILTERS, 1, " "));
	EXPECT(tells(gitwire_request_item(request, GITWIRE_LIST_FILTERS, 2, CHARACTERS), GITWIRE_NOTHING, 0, 0, 0));
	EXPECT(tells(gitwire_request_item(request, GITWIRE_LIST_DEEPEN_NOTS, 0, CHARACTERS), GITWIRE_NOTHING, 0, 0, 0));
	EXPECT(tells(gitwire_request_item(request, GITWIRE_LIST_WANTS, 1, CHARACTERS), GITWIRE_NOTHING, 0, 0, 0));
	EXPECT(tells(gitwire_request_item(request, GITWIRE_LIST_WANTS, SIZE_MAX, CHARACTERS), GITWIRE_NOTHING, 0, 0, 0));
	EXPECT(tells(gitwire_request_item(request, GITWIRE_LIST_WANTS, 0, (char *)buffer, 39), GITWIRE_BUFFER_TOO_SMALL, 0, 0, 0));
	EXPECT(tells(gitwire_request_number(request, GITWIRE_NUMBER_DEEPEN), GITWIRE_DONE, 0, 7, 0));
	EXPECT(tells(gitwire_request_number(request, GITWIRE_NUMBER_DEEPEN_SINCE), GITWIRE_NOTHING, 0, 0, 0));
	EXPECT(tells(gitwire_request_number(request, 0), GITWIRE_BAD_VALUE, 0, 0, 0));
	EXPECT(tells(gitwire_request_end(request), GITWIRE_DONE, 0, 0, 0));
	EXPECT(tells(gitwire_request_add(request, TEXT("deepen-since 9223372036854775807")), GITWIRE_DONE, 0, 0, 0));
	EXPECT(tells(gitwire_request_add(request, TEXT("deepen-not v1")), GITWIRE_DONE, 0, 0, 0));
	EXPECT(tells(gitwire_request_number(request, GITWIRE_NUMBER_DEEPEN_SINCE), GITWIRE_DONE, 0, INT64_MAX, 0));
	EXPECT(has_item(request, GITWIRE_LIST_DEEPEN_NOTS, 0, "v1"));
	EXPECT(tells_fault(gitwire_request_end(request), GITWIRE_FAULT_DEEPEN_CONFLICT, 0, 0));
	gitwire_request_free(request);
	EXPECT(gitwire_request_new(&request, GITWIRE_OBJECT_INFO, GITWIRE_SHA1, 100) == GITWIRE_DONE);
	EXPECT(tells(gitwire_request_add(request, TEXT("oid " TWO)), GITWIRE_DONE, 0, 0, 0));
	EXPECT(tells_fault(gitwire_request_end(request), GITWIRE_FAULT_NO_SIZE, 0, 0));
	EXPECT(tells(gitwire_request_add(request, TEXT("size")), GITWIRE_DONE, 0, 0, 0));
	EXPECT(gitwire_request_flag(request, GITWIRE_FLAG_SIZE) && has_item(request, GITWIRE_LIST_OIDS, 0, TWO));
	gitwire_request_free(request);
}

/* Each flag is set by its own line, and by no other. */
static void try_flags(void)
{
	static const struct {
		gitwire_command command;
		gitwire_flag flag;
		const char *line;
	} cases[] = {
		{ GITWIRE_LS_REFS, GITWIRE_FLAG_SYMREFS, "symrefs" }, { GITWIRE_LS_REFS, GITWIRE_FLAG_PEEL, "peel" },
		{ GITWIRE_FETCH, GITWIRE_FLAG_DONE, "done" }, { GITWIRE_FETCH, GITWIRE_FLAG_THIN_PACK, "thin-pack" },
		{ GITWIRE_FETCH, GITWIRE_FLAG_NO_PROGRESS, "no-progress" }, { GITWIRE_FETCH, GITWIRE_FLAG_INCLUDE_TAG, "include-tag" },
		{ GITWIRE_FETCH, GITWIRE_FLAG_OFS_DELTA, "ofs-delta" }, { GITWIRE_FETCH, GITWIRE_FLAG_DEEPEN_RELATIVE, "deepen-relative" },
		{ GITWIRE_OBJECT_INFO, GITWIRE_FLAG_SIZE, "size" },
	};

	for (size_t i = 0; i < sizeof cases / sizeof *cases; i++) {
		gitwire_request *request = NULL;

		EXPECT(gitwire_request_new(&request, cases[i].command, GITWIRE_SHA1, 100) == GITWIRE_DONE);
		EXPECT(gitwire_request_add(request, TEXT(cases[i].line)).kind == GITWIRE_DONE);
		for (gitwire_flag flag = 0; flag <= GITWIRE_FLAG_WAIT_FOR_DONE; flag++)
			EXPECT(gitwire_request_flag(request, flag) == (flag == cases[i].flag));
		gitwire_request_free(request);
	}
}

#define LS_REFS "0014command=ls-refs\n" "0001" "0009peel\n" "0000"
#define OBJECT_INFO "0018command=object-info\n" "0001" "0009size\n" "0000"
#define FILTERED "0012command=fetch\n" "0001" "0015filter blob:none\n" "0032want " ONE "\n" "0009done\n" "0000"

/* A reader of requests to a server that advertises these features, in the place of this one. */
static void read_anew(gitwire_request_reader **reader, uint32_t features)
{
	gitwire_request_reader_free(*reader);
	EXPECT(gitwire_request_reader_new(reader, GITWIRE_SHA1, features, 100) == GITWIRE_DONE && *reader != NULL);
}

static void try_a_reader_of_requests(void)
{
	gitwire_request_reader *reader = NULL;
	gitwire_request *request = NULL;
	const uint8_t *whole = (const uint8_t *)LS_REFS LS_REFS;
	const size_t first = strlen(LS_REFS);

	EXPECT(gitwire_request_empty(&request) == GITWIRE_DONE);
	EXPECT(gitwire_request_reader_new(&reader, 0, 0, 0) == GITWIRE_BAD_VALUE && reader == NULL);
	EXPECT(gitwire_request_reader_new(&reader, GITWIRE_SHA1, GITWIRE_FEATURES_ALL + 1, 0) == GITWIRE_BAD_VALUE && reader == NULL);
	EXPECT(gitwire_request_reader_new(&reader, GITWIRE_SHA1, 0, GITWIRE_MAXIMUM_LIMIT + 1) == GITWIRE_BAD_VALUE && reader == NULL);
	read_anew(&reader, 0);
	EXPECT(tells(gitwire_request_reader_close(reader), GITWIRE_DONE, 0, 0, 0));
	EXPECT(has_no_request(request));
	EXPECT(tells(gitwire_request_reader_feed(reader, request, whole, 8), GITWIRE_MORE, 8, 0, 0));
	EXPECT(tells(gitwire_request_end(request), GITWIRE_DONE, 0, 0, 0)); /* an empty one, which nobody asked for */
	EXPECT(tells(gitwire_request_reader_feed(reader, request, whole + 8, first), GITWIRE_REQUEST, first - 8, 0, 0));
	EXPECT(gitwire_request_command(request) == GITWIRE_LS_REFS);
	EXPECT(gitwire_request_flag(request, GITWIRE_FLAG_PEEL));
	/* It has the reader's limit: of 100 bytes its argument has four, and a line here 75. */
	EXPECT(tells(gitwire_request_add(request, TEXT("ref-prefix " LONG_ONE)), GITWIRE_DONE, 0, 0, 0));
	EXPECT(tells_fault(gitwire_request_add(request, TEXT("ref-prefix " LONG_ONE)), GITWIRE_FAULT_TOO_MUCH_KEPT, 0, 0));
	EXPECT(tells(gitwire_request_reader_feed(reader, request, BYTES("0000")), GITWIRE_STOP, 4, 0, 0));
	EXPECT(tells(gitwire_request_reader_feed(reader, request, BYTES("0000")), GITWIRE_NOT_NOW, 0, 0, 0));
	EXPECT(tells(gitwire_request_reader_close(reader), GITWIRE_NOT_NOW, 0, 0, 0));
	/* What is advertised is accepted, and nothing else. */
	read_anew(&reader, 0);
	EXPECT(tells_fault(gitwire_request_reader_feed(reader, request, BYTES(OBJECT_INFO)), GITWIRE_FAULT_NOT_ADVERTISED, 24, 0));
	EXPECT(tells(gitwire_request_reader_close(reader), GITWIRE_NOT_NOW, 0, 0, 0));
	read_anew(&reader, GITWIRE_FEATURE_OBJECT_INFO);
	EXPECT(tells(gitwire_request_reader_feed(reader, request, BYTES(OBJECT_INFO)), GITWIRE_REQUEST, strlen(OBJECT_INFO), 0, 0));
	EXPECT(gitwire_request_command(request) == GITWIRE_OBJECT_INFO);
	read_anew(&reader, GITWIRE_FEATURE_OBJECT_INFO);
	EXPECT(tells_fault(gitwire_request_reader_feed(reader, request, BYTES(FILTERED)), GITWIRE_FAULT_NOT_ADVERTISED, 43, 22));
	read_anew(&reader, GITWIRE_FEATURE_OBJECT_INFO | GITWIRE_FEATURE_FILTER);
	EXPECT(tells(gitwire_request_reader_feed(reader, request, BYTES(FILTERED)), GITWIRE_REQUEST, strlen(FILTERED), 0, 0));
	EXPECT(has_item(request, GITWIRE_LIST_FILTERS, 0, "blob:none"));
	read_anew(&reader, GITWIRE_FEATURE_OBJECT_INFO | GITWIRE_FEATURE_FILTER);
	EXPECT(tells(gitwire_request_reader_feed(reader, request, BYTES(OBJECT_INFO)), GITWIRE_REQUEST, strlen(OBJECT_INFO), 0, 0));
	EXPECT(tells(gitwire_request_reader_feed(reader, request, BYTES("0014")), GITWIRE_MORE, 4, 0, 0));
	EXPECT(tells_fault(gitwire_request_reader_close(reader), GITWIRE_FAULT_TRUNCATED, 0, strlen(OBJECT_INFO)));
	gitwire_request_free(request);
	gitwire_request_reader_free(reader);
}

static void *try_all(void *nothing)
{
	memset(buffer, '#', sizeof buffer);
	EXPECT(gitwire_writer_new(&writer) == GITWIRE_DONE);
	try_a_request_for_references();
	try_an_empty_handle();
	try_a_request_for_a_pack();
	try_flags();
	try_a_reader_of_requests();
	gitwire_writer_free(writer);
	return nothing;
}

int main(void)
{
	return on_a_small_stack(try_all);
}
