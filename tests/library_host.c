/*
 * Calls each function of a host's server at least once, as the header states, and runs a session of each command: what is sent, and what is
 * returned if a call may not be made. It prints each expectation that does not hold; the status is 1 if there is one.
 */
#include "library_calls.h"

#define LS_REFS "0014command=ls-refs\n" "0001"
#define FETCH "0012command=fetch\n" "0001"
#define OBJECT_INFO "0018command=object-info\n" "0001"
#define ERROR_OF(text) gitwire_host_refuse(host, TEXT(text), BUFFER)

static gitwire_host *host = NULL;

/* Whether the result is that these bytes have to be sent, and the rest of the buffer is unchanged. */
static bool sends(gitwire_answer answer, size_t used, const char *packet)
{
	bool is_it = tells(answer, GITWIRE_PACKET, used, 0, strlen(packet)) && memcmp(buffer, packet, strlen(packet)) == 0;

	for (size_t i = answer.length; i < sizeof buffer; i++)
		is_it = is_it && buffer[i] == '#';
	memset(buffer, '#', sizeof buffer);
	return is_it;
}

static bool pulls(gitwire_result kind, uint64_t offset)
{
	return tells(gitwire_host_pull(host, BUFFER), kind, 0, offset, 0) && tells(gitwire_host_pull(host, BUFFER), kind, 0, offset, 0);
}

static bool pulls_packet(const char *packet)
{
	return sends(gitwire_host_pull(host, BUFFER), 0, packet);
}

static void begin(uint32_t features)
{
	gitwire_host_free(host);
	EXPECT(gitwire_host_new(&host, GITWIRE_SHA1, features, 1000, false) == GITWIRE_DONE && host != NULL);
	EXPECT(pulls(GITWIRE_NEED_INPUT, 0));
}

/* Feeds a whole request, which is accepted. */
static void ask(const char *request, gitwire_command command)
{
	EXPECT(tells(gitwire_host_feed(host, BYTES(request)), GITWIRE_MORE, strlen(request), 0, 0));
	EXPECT(pulls(GITWIRE_ASKED, command));
	EXPECT(gitwire_host_accept(host) == GITWIRE_DONE);
	EXPECT(gitwire_host_command(host) == command);
	EXPECT(tells(gitwire_host_feed(host, BYTES("0000")), GITWIRE_NOT_NOW, 0, 0, 0));
	EXPECT(gitwire_host_close(host) == GITWIRE_NOT_NOW && gitwire_host_accept(host) == GITWIRE_NOT_NOW);
}

/*
 * Expects that each call that reports returns this, except for the one with this number, which answers the open question. Then
 * `gitwire_host_fail` may be called too, and is not tried.
 */
static void expect_of_reports(gitwire_result kind, int but, size_t length)
{
	for (int call = 0; call < (but < 0 ? 14 : 13); call++) {
		gitwire_answer answer;

		if (call == but)
			continue;
		answer = call == 0 ? gitwire_host_want(host, true, buffer, length)
			: call == 1 ? gitwire_host_want_ref(host, TEXT(ONE), buffer, length)
			: call == 2 ? gitwire_host_have(host, true, buffer, length)
			: call == 3 ? gitwire_host_ready(host, true, buffer, length)
			: call == 4 ? gitwire_host_boundary(host, true, TEXT(ONE), buffer, length)
			: call == 5 ? gitwire_host_boundary_end(host, buffer, length)
			: call == 6 ? gitwire_host_pack(host, BYTES("PACK"), buffer, length)
			: call == 7 ? gitwire_host_progress(host, TEXT("hi\n"), buffer, length)
			: call == 8 ? gitwire_host_pack_end(host, buffer, length)
			: call == 9 ? gitwire_host_reference(host, TEXT(ONE), TEXT("refs/a"), NULL, 0, NULL, 0, buffer, length)
			: call == 10 ? gitwire_host_unborn(host, TEXT("refs/a"), buffer, length)
			: call == 11 ? gitwire_host_references_end(host, buffer, length)
			: call == 12 ? gitwire_host_size(host, true, 1, buffer, length) : gitwire_host_fail(host, buffer, length);
		EXPECT(tells(answer, kind, 0, 0, 0) || (printf("call %d\n", call), false));
	}
}

static void try_no_session(void)
{
	gitwire_host_free(host);
	EXPECT(gitwire_host_new(&host, GITWIRE_SHA1, GITWIRE_FEATURES_ALL + 1, 0, true) == GITWIRE_BAD_VALUE && host == NULL);
	EXPECT(gitwire_host_new(&host, 0, GITWIRE_FEATURES_ALL, 0, true) == GITWIRE_BAD_VALUE && host == NULL);
	EXPECT(gitwire_host_new(&host, GITWIRE_SHA1, GITWIRE_FEATURES_ALL, GITWIRE_MAXIMUM_LIMIT + 1, true) == GITWIRE_BAD_VALUE && host == NULL);
	EXPECT(gitwire_host_new(&host, GITWIRE_SHA1, GITWIRE_FEATURES_ALL, GITWIRE_MAXIMUM_LIMIT, true) == GITWIRE_DONE && host != NULL);
}

/* The advertisement, and the calls that may be made while no question is open. */
static void try_an_advertisement(void)
{
	uint8_t whole[GITWIRE_ADVERTISEMENT_SIZE];
	gitwire_answer written = gitwire_put_advertisement(writer, GITWIRE_SHA1, GITWIRE_FEATURES_ALL, whole, sizeof whole), given;

	EXPECT(tells(gitwire_host_feed(host, BYTES("0000")), GITWIRE_NOT_NOW, 0, 0, 0));
	EXPECT(tells(gitwire_host_pull(host, buffer, GITWIRE_PACKET_SIZE - 1), GITWIRE_BUFFER_TOO_SMALL, 0, 0, 0));
	given = gitwire_host_pull(host, BUFFER);
	EXPECT(given.kind == GITWIRE_PACKET && given.length == written.length && memcmp(buffer, whole, given.length) == 0);
	memset(buffer, '#', sizeof buffer);
	EXPECT(pulls(GITWIRE_NEED_INPUT, 0));
	expect_of_reports(GITWIRE_NOT_NOW, -1, sizeof buffer);
	expect_of_reports(GITWIRE_BUFFER_TOO_SMALL, -1, GITWIRE_PACKET_SIZE - 1);
	EXPECT(gitwire_host_command(host) == 0);
	EXPECT(tells(gitwire_host_number(host, GITWIRE_NUMBER_DEEPEN), GITWIRE_NOTHING, 0, 0, 0));
	EXPECT(tells(gitwire_host_item(host, GITWIRE_LIST_WANTS, 0, CHARACTERS), GITWIRE_NOTHING, 0, 0, 0));
	EXPECT(tells(ERROR_OF("no"), GITWIRE_NOT_NOW, 0, 0, 0));
	EXPECT(!gitwire_host_flag(host, GITWIRE_FLAG_PEEL) && gitwire_host_accept(host) == GITWIRE_NOT_NOW);
	EXPECT(gitwire_host_close(host) == GITWIRE_DONE && gitwire_host_close(host) == GITWIRE_NOT_NOW);
	EXPECT(pulls(GITWIRE_ENDED_BY_CLOSE, 0));
}

static gitwire_answer reference(const char *id, const char *name, const char *target, const char *peeled)
{
	return gitwire_host_reference(host, TEXT(id), TEXT(name), TEXT(target), TEXT(peeled), BUFFER);
}

static void try_references(void)
{
	begin(GITWIRE_FEATURES_ALL);
	ask(LS_REFS "0009peel\n" "000csymrefs\n" "001bref-prefix refs/heads/\n" "0014ref-prefix HEAD\n" "0000", GITWIRE_LS_REFS);
	EXPECT(gitwire_host_flag(host, GITWIRE_FLAG_PEEL) && !gitwire_host_flag(host, GITWIRE_FLAG_UNBORN));
	EXPECT(wrote(gitwire_host_item(host, GITWIRE_LIST_REF_PREFIXES, 0, CHARACTERS), "HEAD"));
	EXPECT(wrote(gitwire_host_item(host, GITWIRE_LIST_REF_PREFIXES, 1, CHARACTERS), "refs/heads/"));
	EXPECT(pulls(GITWIRE_NEED_REFERENCE, 0));
	EXPECT(tells_fault(reference("1111", "HEAD", "", ""), GITWIRE_FAULT_BAD_OBJECT_NAME, 0, 0));
	EXPECT(tells_fault(reference(LONG_ONE, "HEAD", "", ""), GITWIRE_FAULT_BAD_OBJECT_NAME, 0, 0));
	EXPECT(tells_fault(reference("", "HEAD", "", ""), GITWIRE_FAULT_BAD_OBJECT_NAME, 0, 0));
	EXPECT(tells_fault(reference(ONE, "main", "", ""), GITWIRE_FAULT_BAD_REF_NAME, 0, 0));
	EXPECT(tells_fault(reference(ONE, "HEAD", "main", ""), GITWIRE_FAULT_BAD_REF_NAME, 0, 0));
	EXPECT(tells_fault(reference(ONE, "HEAD", "", "22"), GITWIRE_FAULT_BAD_OBJECT_NAME, 0, 0));
	EXPECT(sends(reference(ONE, "HEAD", "refs/heads/main", ""), 0, "0050" ONE " HEAD symref-target:refs/heads/main\n"));
	EXPECT(sends(reference(ONE, "refs/heads/main", "", TWO), 0, "006d" ONE " refs/heads/main peeled:" TWO "\n"));
	EXPECT(tells(reference(ONE, "refs/heads/main", "", ""), GITWIRE_OUT_OF_ORDER, 0, 0, 0));
	EXPECT(tells(reference(ONE, "refs/heads/a", "", ""), GITWIRE_OUT_OF_ORDER, 0, 0, 0));
	EXPECT(sends(reference(TWO, "refs/heads/next", "", ""), 0, "003d" TWO " refs/heads/next\n"));
	EXPECT(tells(gitwire_host_unborn(host, TEXT("refs/heads/main"), BUFFER), GITWIRE_NOT_NOW, 0, 0, 0));
	EXPECT(tells(reference(TWO, "refs/tags/a", "", ""), GITWIRE_MORE, 0, 0, 0));
	EXPECT(sends(gitwire_host_references_end(host, BUFFER), 0, "0000"));
	expect_of_reports(GITWIRE_NOT_NOW, -1, sizeof buffer);
	EXPECT(pulls(GITWIRE_NEED_INPUT, 0));
	ask(LS_REFS "000bunborn\n" "000csymrefs\n" "0000", GITWIRE_LS_REFS);
	EXPECT(tells_fault(gitwire_host_unborn(host, TEXT("main"), BUFFER), GITWIRE_FAULT_BAD_REF_NAME, 0, 0));
	EXPECT(sends(gitwire_host_unborn(host, TEXT("refs/heads/main"), BUFFER), 0, "002eunborn HEAD symref-target:refs/heads/main\n"));
	EXPECT(tells(gitwire_host_unborn(host, TEXT("refs/heads/main"), BUFFER), GITWIRE_NOT_NOW, 0, 0, 0));
	EXPECT(tells(reference(ONE, "HEAD", "", ""), GITWIRE_OUT_OF_ORDER, 0, 0, 0));
	EXPECT(sends(gitwire_host_references_end(host, BUFFER), 0, "0000"));
	EXPECT(tells(gitwire_host_feed(host, BYTES("00000000")), GITWIRE_NOT_NOW, 0, 0, 0));
	EXPECT(pulls(GITWIRE_NEED_INPUT, 0));
	EXPECT(tells(gitwire_host_feed(host, BYTES("00000000")), GITWIRE_MORE, 4, 0, 0));
	EXPECT(pulls(GITWIRE_ENDED_BY_FLUSH, 0));
}

static void try_a_pack(void)
{
	static uint8_t bytes[65516];

	begin(GITWIRE_FEATURES_ALL);
	ask(FETCH "0032want " ONE "\n" "0014want-ref refs/a\n" "0032have " ONE "\n" "0032have " TWO "\n" "000ddeepen 1\n" "0035shallow " TWO "\n" "0000",
		GITWIRE_FETCH);
	EXPECT(tells(gitwire_host_number(host, GITWIRE_NUMBER_DEEPEN), GITWIRE_DONE, 0, 1, 0));
	EXPECT(wrote(gitwire_host_item(host, GITWIRE_LIST_WANTS, 0, CHARACTERS), ONE));
	EXPECT(pulls(GITWIRE_NEED_WANT, 0));
	expect_of_reports(GITWIRE_NOT_NOW, 0, sizeof buffer);
	EXPECT(tells(gitwire_host_want(host, true, BUFFER), GITWIRE_MORE, 0, 0, 0));
	EXPECT(pulls(GITWIRE_NEED_WANT_REF, 0));
	EXPECT(tells_fault(gitwire_host_want_ref(host, TEXT("22"), BUFFER), GITWIRE_FAULT_BAD_OBJECT_NAME, 0, 0));
	EXPECT(tells_fault(gitwire_host_want_ref(host, TEXT(LONG_ONE), BUFFER), GITWIRE_FAULT_BAD_OBJECT_NAME, 0, 0));
	EXPECT(tells(gitwire_host_want_ref(host, TEXT(TWO), BUFFER), GITWIRE_MORE, 0, 0, 0));
	EXPECT(pulls_packet("0014acknowledgments\n"));
	EXPECT(pulls(GITWIRE_NEED_HAVE, 0));
	EXPECT(tells(gitwire_host_have(host, false, BUFFER), GITWIRE_MORE, 0, 0, 0));
	EXPECT(pulls(GITWIRE_NEED_HAVE, 1));
	EXPECT(wrote(gitwire_host_item(host, GITWIRE_LIST_HAVES, 1, CHARACTERS), TWO));
	EXPECT(sends(gitwire_host_have(host, true, BUFFER), 0, "0031ACK " TWO "\n"));
	EXPECT(pulls(GITWIRE_NEED_READY, 0));
	EXPECT(sends(gitwire_host_ready(host, true, BUFFER), 0, "000aready\n"));
	EXPECT(pulls_packet("0001"));
	EXPECT(pulls(GITWIRE_NEED_BOUNDARY, 0));
	EXPECT(tells_fault(gitwire_host_boundary(host, true, TEXT("1"), BUFFER), GITWIRE_FAULT_BAD_OBJECT_NAME, 0, 0));
	EXPECT(sends(gitwire_host_boundary(host, true, TEXT(ONE), BUFFER), 0, "0011shallow-info\n"));
	EXPECT(tells(gitwire_host_boundary(host, false, TEXT(TWO), BUFFER), GITWIRE_NOT_NOW, 0, 0, 0));
	EXPECT(pulls_packet("0035shallow " ONE "\n"));
	EXPECT(tells(gitwire_host_boundary(host, false, TEXT(ONE), BUFFER), GITWIRE_NOT_SHALLOW, 0, 0, 0));
	EXPECT(sends(gitwire_host_boundary(host, false, TEXT(TWO), BUFFER), 0, "0037unshallow " TWO "\n"));
	EXPECT(sends(gitwire_host_boundary_end(host, BUFFER), 0, "0001"));
	EXPECT(pulls_packet("0010wanted-refs\n") && pulls_packet("0034" TWO " refs/a\n") && pulls_packet("0001") && pulls_packet("000dpackfile\n"));
	EXPECT(pulls(GITWIRE_NEED_PACK, 0));
	EXPECT(sends(gitwire_host_progress(host, TEXT("hi\n"), BUFFER), 3, "0008\002hi\n"));
	EXPECT(sends(gitwire_host_pack(host, BYTES("PACK"), BUFFER), 4, "0009\001PACK"));
	EXPECT(tells(gitwire_host_pack(host, NULL, 0, BUFFER), GITWIRE_MORE, 0, 0, 0));
	EXPECT(tells(gitwire_host_pack(host, bytes, sizeof bytes, BUFFER), GITWIRE_PACKET, 65515, 0, 65520) && memcmp(buffer, "fff0\001\0", 6) == 0);
	memset(buffer, '#', sizeof buffer);
	EXPECT(sends(gitwire_host_pack_end(host, BUFFER), 0, "0000"));
	EXPECT(pulls(GITWIRE_NEED_INPUT, 0));
}

/* If the store lacks something, if it cannot answer, and if it refuses, the session ends. */
static void try_refusals(void)
{
	static char text[65512];

	begin(0);
	ask(FETCH "0032want " ONE "\n" "0009done\n" "0000", GITWIRE_FETCH);
	EXPECT(tells(gitwire_host_want(host, false, BUFFER), GITWIRE_MORE, 0, 0, 0));
	EXPECT(pulls_packet("0016ERR NotOurs at 81\n"));
	EXPECT(tells_fault(gitwire_host_pull(host, BUFFER), GITWIRE_FAULT_NOT_OURS, 0, 81));
	begin(GITWIRE_FEATURES_ALL);
	ask(FETCH "0014want-ref refs/a\n" "0009done\n" "0000", GITWIRE_FETCH);
	EXPECT(tells(gitwire_host_want_ref(host, NULL, 0, BUFFER), GITWIRE_MORE, 0, 0, 0));
	EXPECT(pulls_packet("0019ERR UnknownRef at 51\n"));
	EXPECT(tells_fault(gitwire_host_pull(host, BUFFER), GITWIRE_FAULT_UNKNOWN_REF, 0, 51));
	begin(0);
	ask(FETCH "0032want " ONE "\n" "0010no-progress\n" "0009done\n" "0000", GITWIRE_FETCH);
	EXPECT(tells(gitwire_host_want(host, true, BUFFER), GITWIRE_MORE, 0, 0, 0));
	EXPECT(pulls(GITWIRE_NEED_BOUNDARY, 0));
	EXPECT(tells(gitwire_host_boundary_end(host, BUFFER), GITWIRE_MORE, 0, 0, 0));
	EXPECT(pulls_packet("000dpackfile\n"));
	EXPECT(tells(gitwire_host_progress(host, TEXT("hi\n"), BUFFER), GITWIRE_MORE, 3, 0, 0));
	EXPECT(sends(gitwire_host_pack(host, BYTES("P"), BUFFER), 1, "0006\001P"));
	EXPECT(gitwire_host_fail(host, BUFFER).kind == GITWIRE_PACKET && buffer[4] == 3);
	memset(buffer, '#', sizeof buffer);
	EXPECT(tells_fault(gitwire_host_pull(host, BUFFER), GITWIRE_FAULT_PACK_SOURCE, 0, 97));
	begin(0);
	ask(LS_REFS "0000", GITWIRE_LS_REFS);
	EXPECT(sends(gitwire_host_fail(host, BUFFER), 0, "0019ERR PackSource at 24\n"));
	EXPECT(tells_fault(gitwire_host_pull(host, BUFFER), GITWIRE_FAULT_PACK_SOURCE, 0, 24));
	EXPECT(tells(gitwire_host_fail(host, BUFFER), GITWIRE_NOT_NOW, 0, 0, 0));
	begin(0);
	ask(FETCH "0032want " ONE "\n" "0009done\n" "0000", GITWIRE_FETCH);
	EXPECT(pulls(GITWIRE_NEED_WANT, 0));
	EXPECT(sends(gitwire_host_fail(host, BUFFER), 0, "0019ERR PackSource at 81\n"));
	EXPECT(tells_fault(gitwire_host_pull(host, BUFFER), GITWIRE_FAULT_PACK_SOURCE, 0, 81));
	begin(0);
	EXPECT(tells(gitwire_host_feed(host, BYTES(LS_REFS "0000")), GITWIRE_MORE, 28, 0, 0));
	memset(text, 'a', sizeof text);
	EXPECT(tells(gitwire_host_refuse(host, TEXT("no"), buffer, sizeof buffer - 1), GITWIRE_BUFFER_TOO_SMALL, 0, 0, 0));
	EXPECT(tells_fault(gitwire_host_refuse(host, text, sizeof text, BUFFER), GITWIRE_FAULT_BAD_LINE, 0, 0));
	EXPECT(sends(ERROR_OF("no"), 0, "000bERR no\n"));
	EXPECT(tells_fault(gitwire_host_pull(host, BUFFER), GITWIRE_FAULT_NOT_OURS, 0, 24));
	begin(0);
	EXPECT(tells(gitwire_host_feed(host, BYTES("000cpeel\n")), GITWIRE_MORE, 9, 0, 0));
	EXPECT(gitwire_host_close(host) == GITWIRE_DONE);
	EXPECT(pulls_packet("0017ERR Truncated at 0\n"));
	EXPECT(tells_fault(gitwire_host_pull(host, BUFFER), GITWIRE_FAULT_TRUNCATED, 0, 0));
}

static void try_sizes(void)
{
	begin(GITWIRE_FEATURES_ALL);
	ask(OBJECT_INFO "0009size\n" "0031oid " ONE "\n" "0031oid " TWO "\n" "0000", GITWIRE_OBJECT_INFO);
	EXPECT(pulls_packet("0009size\n"));
	EXPECT(pulls(GITWIRE_NEED_SIZE, 0));
	EXPECT(sends(gitwire_host_size(host, true, 12, BUFFER), 0, "0030" ONE " 12\n"));
	EXPECT(pulls(GITWIRE_NEED_SIZE, 1));
	EXPECT(wrote(gitwire_host_item(host, GITWIRE_LIST_OIDS, 1, CHARACTERS), TWO));
	EXPECT(sends(gitwire_host_size(host, false, 12, BUFFER), 0, "002e" TWO " \n"));
	EXPECT(pulls_packet("0000"));
	EXPECT(pulls(GITWIRE_NEED_INPUT, 0));
}

static void *try_all(void *nothing)
{
	memset(buffer, '#', sizeof buffer);
	EXPECT(gitwire_writer_new(&writer) == GITWIRE_DONE);
	try_no_session();
	try_an_advertisement();
	try_references();
	try_a_pack();
	try_refusals();
	try_sizes();
	gitwire_host_free(host);
	gitwire_host_free(NULL);
	gitwire_writer_free(writer);
	return nothing;
}

int main(void)
{
	return on_a_small_stack(try_all);
}
