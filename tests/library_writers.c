/*
 * Calls each function of the library that writes a packet or a text, the reader of greetings, and the calls that take the name of an agent or a
 * server option, as library_calls.c does with the others.
 */
#include "library_calls.h"

static void try_writers_of_packets(void)
{
	static uint8_t longest[GITWIRE_PAYLOAD_SIZE + 1];

	EXPECT(wrote(gitwire_put_packet(writer, GITWIRE_PAYLOAD, BYTES("word"), BUFFER), "0008word"));
	EXPECT(wrote(gitwire_put_packet(writer, GITWIRE_FLUSH, NULL, 0, BUFFER), "0000"));
	EXPECT(wrote(gitwire_put_packet(writer, GITWIRE_DELIM, NULL, 0, BUFFER), "0001"));
	EXPECT(wrote(gitwire_put_packet(writer, GITWIRE_RESPONSE_END, NULL, 0, BUFFER), "0002"));
	EXPECT(gitwire_put_packet(writer, GITWIRE_FLUSH, BYTES("word"), BUFFER).kind == GITWIRE_BAD_VALUE);
	EXPECT(gitwire_put_packet(writer, GITWIRE_DONE, NULL, 0, BUFFER).kind == GITWIRE_BAD_VALUE);
	EXPECT(gitwire_put_packet(writer, GITWIRE_PAYLOAD, BYTES("word"), buffer, 7).kind == GITWIRE_BUFFER_TOO_SMALL);
	EXPECT(tells_fault(gitwire_put_packet(writer, GITWIRE_PAYLOAD, longest, sizeof longest, BUFFER), GITWIRE_FAULT_TOO_LONG, 0, 0));
	EXPECT(tells(gitwire_put_packet(writer, GITWIRE_PAYLOAD, longest, sizeof longest - 1, BUFFER), GITWIRE_DONE, 0, 0, GITWIRE_PACKET_SIZE));
	memset(buffer, '#', sizeof buffer);
	EXPECT(wrote(gitwire_put_band(writer, GITWIRE_BAND_PACK, BYTES("PACK"), BUFFER), "0009\001PACK"));
	EXPECT(wrote(gitwire_put_band(writer, GITWIRE_BAND_PROGRESS, BYTES("50%"), BUFFER), "0008\00250%"));
	EXPECT(wrote(gitwire_put_band(writer, GITWIRE_BAND_FATAL, BYTES("gone"), BUFFER), "0009\003gone"));
	EXPECT(gitwire_put_band(writer, 0, BYTES("gone"), BUFFER).kind == GITWIRE_BAD_VALUE);
	EXPECT(tells_fault(gitwire_put_band(writer, GITWIRE_BAND_PACK, longest, sizeof longest - 1, BUFFER), GITWIRE_FAULT_TOO_LONG, 0, 0));
	EXPECT(wrote(gitwire_put_line(writer, TEXT("NAK"), BUFFER), "0008NAK\n"));
	EXPECT(wrote(gitwire_put_line(writer, NULL, 0, BUFFER), "0005\n"));
	EXPECT(tells_fault(gitwire_put_line(writer, (const char *)longest, sizeof longest - 1, BUFFER), GITWIRE_FAULT_BAD_LINE, 0, 0));
	EXPECT(wrote(gitwire_put_error(writer, TEXT("not here"), BUFFER), "0011ERR not here\n"));
	EXPECT(tells_fault(gitwire_put_error(writer, (const char *)longest, sizeof longest - 5, BUFFER), GITWIRE_FAULT_BAD_LINE, 0, 0));
}

static void try_writers_of_advertisements(void)
{
	EXPECT(wrote(gitwire_put_advertisement(writer, GITWIRE_SHA256, GITWIRE_FEATURE_SHALLOW | GITWIRE_FEATURE_OBJECT_INFO, BUFFER),
		"000eversion 2\n" "0011agent=git2/1\n" "000cls-refs\n"
		"0012fetch=shallow\n" "0019object-format=sha256\n" "0010object-info\n" "0000"));
	EXPECT(wrote(gitwire_put_advertisement(writer, GITWIRE_SHA1, GITWIRE_FEATURE_REF_IN_WANT | GITWIRE_FEATURE_SERVER_OPTION, BUFFER),
		"000eversion 2\n" "0011agent=git2/1\n" "000cls-refs\n"
		"0016fetch=ref-in-want\n" "0012server-option\n" "0017object-format=sha1\n" "0000"));
	EXPECT(gitwire_put_advertisement(writer, GITWIRE_SHA1, 0, buffer, 20).kind == GITWIRE_BUFFER_TOO_SMALL);
	EXPECT(gitwire_put_advertisement(writer, GITWIRE_SHA256, GITWIRE_FEATURES_ALL, buffer, GITWIRE_ADVERTISEMENT_SIZE).kind == GITWIRE_DONE);
	memset(buffer, '#', sizeof buffer);
	EXPECT(gitwire_put_advertisement(writer, GITWIRE_SHA256, GITWIRE_FEATURES_ALL + 1, BUFFER).kind == GITWIRE_BAD_VALUE);
	EXPECT(gitwire_put_advertisement(writer, GITWIRE_SHA256, UINT32_MAX, BUFFER).kind == GITWIRE_BAD_VALUE);
	EXPECT(gitwire_put_advertisement(writer, 0, GITWIRE_FEATURES_ALL, BUFFER).kind == GITWIRE_BAD_VALUE);
}

/* Each feature is the bit that the library takes it for. */
static void try_features_alone(void)
{
	static const struct {
		gitwire_format format;
		uint32_t features;
		const char *lines;
	} cases[] = {
		{ GITWIRE_SHA256, 0, "000cls-refs\n" "000afetch\n" "0019object-format=sha256\n" },
		{ GITWIRE_SHA1, GITWIRE_FEATURE_UNBORN, "0013ls-refs=unborn\n" "000afetch\n" "0017object-format=sha1\n" },
		{ GITWIRE_SHA1, GITWIRE_FEATURE_SHALLOW, "000cls-refs\n" "0012fetch=shallow\n" "0017object-format=sha1\n" },
		{ GITWIRE_SHA1, GITWIRE_FEATURE_REF_IN_WANT, "000cls-refs\n" "0016fetch=ref-in-want\n" "0017object-format=sha1\n" },
		{ GITWIRE_SHA1, GITWIRE_FEATURE_WAIT_FOR_DONE, "000cls-refs\n" "0018fetch=wait-for-done\n" "0017object-format=sha1\n" },
		{ GITWIRE_SHA1, GITWIRE_FEATURE_FILTER, "000cls-refs\n" "0011fetch=filter\n" "0017object-format=sha1\n" },
		{ GITWIRE_SHA1, GITWIRE_FEATURE_OBJECT_INFO, "000cls-refs\n" "000afetch\n" "0017object-format=sha1\n" "0010object-info\n" },
		{ GITWIRE_SHA1, GITWIRE_FEATURE_SERVER_OPTION, "000cls-refs\n" "000afetch\n" "0012server-option\n" "0017object-format=sha1\n" },
	};
	char wanted[GITWIRE_ADVERTISEMENT_SIZE];

	for (size_t i = 0; i < sizeof cases / sizeof *cases; i++) {
		snprintf(wanted, sizeof wanted, "000eversion 2\n" "0011agent=git2/1\n" "%s" "0000", cases[i].lines);
		EXPECT(wrote(gitwire_put_advertisement(writer, cases[i].format, cases[i].features, BUFFER), wanted));
	}
}

static void try_writers_of_lines(void)
{
	EXPECT(wrote(gitwire_put_reference(writer, GITWIRE_SHA1, TEXT(ONE), TEXT("HEAD"), TEXT("refs/heads/main"), NULL, 0, BUFFER),
		"0050" ONE " HEAD symref-target:refs/heads/main\n"));
	EXPECT(wrote(gitwire_put_reference(writer, GITWIRE_SHA1, TEXT(ONE), TEXT("refs/tags/v1"), NULL, 0, TEXT(TWO), BUFFER),
		"006a" ONE " refs/tags/v1 peeled:" TWO "\n"));
	EXPECT(wrote(gitwire_put_reference(writer, GITWIRE_SHA256, TEXT(LONG_ONE), TEXT("HEAD"), NULL, 0, NULL, 0, BUFFER),
		"004a" LONG_ONE " HEAD\n"));
	EXPECT(tells_fault(gitwire_put_reference(writer, GITWIRE_SHA256, TEXT(ONE), TEXT("HEAD"), NULL, 0, NULL, 0, BUFFER),
		GITWIRE_FAULT_BAD_OBJECT_NAME, 0, 0));
	EXPECT(tells_fault(gitwire_put_reference(writer, GITWIRE_SHA1, TEXT(ONE), TEXT("HEAD"), TEXT("main"), NULL, 0, BUFFER),
		GITWIRE_FAULT_BAD_REF_NAME, 0, 0));
	EXPECT(gitwire_put_reference(writer, 0, TEXT(ONE), TEXT("HEAD"), NULL, 0, NULL, 0, BUFFER).kind == GITWIRE_BAD_VALUE);
	EXPECT(wrote(gitwire_put_ack(writer, GITWIRE_SHA1, TEXT(ONE), BUFFER), "0031ACK " ONE "\n"));
	EXPECT(gitwire_put_ack(writer, GITWIRE_SHA1, TEXT(ONE), buffer, 48).kind == GITWIRE_BUFFER_TOO_SMALL);
	EXPECT(wrote(gitwire_put_boundary(writer, GITWIRE_SHA1, true, TEXT(ONE), BUFFER), "0035shallow " ONE "\n"));
	EXPECT(wrote(gitwire_put_boundary(writer, GITWIRE_SHA1, false, TEXT(ONE), BUFFER), "0037unshallow " ONE "\n"));
	EXPECT(wrote(gitwire_put_wanted(writer, GITWIRE_SHA1, TEXT(ONE), TEXT("refs/heads/a"), BUFFER), "003a" ONE " refs/heads/a\n"));
	EXPECT(tells_fault(gitwire_put_wanted(writer, GITWIRE_SHA1, TEXT(ONE), TEXT("refs/heads/a b"), BUFFER), GITWIRE_FAULT_BAD_REF_NAME, 0, 0));
	EXPECT(wrote(gitwire_put_info(writer, GITWIRE_SHA1, TEXT(ONE), true, UINT64_MAX, BUFFER), "0042" ONE " 18446744073709551615\n"));
	EXPECT(wrote(gitwire_put_info(writer, GITWIRE_SHA1, TEXT(ONE), false, 7, BUFFER), "002e" ONE " \n"));
	EXPECT(tells_fault(gitwire_put_info(writer, GITWIRE_SHA1, NULL, 0, false, 7, BUFFER), GITWIRE_FAULT_BAD_OBJECT_NAME, 0, 0));
}

/* Each error has the name that its constant has. */
static void try_names_of_faults(void)
{
	static const char *const names[] = { [GITWIRE_FAULT_BAD_DIGIT] = "BadDigit", [GITWIRE_FAULT_BAD_LENGTH] = "BadLength",
		[GITWIRE_FAULT_TOO_LONG] = "TooLong", [GITWIRE_FAULT_TRUNCATED] = "Truncated",
		[GITWIRE_FAULT_STREAM_TOO_LONG] = "StreamTooLong", [GITWIRE_FAULT_NO_BAND] = "NoBand",
		[GITWIRE_FAULT_BAD_BAND] = "BadBand", [GITWIRE_FAULT_BAD_CAPABILITY] = "BadCapability",
		[GITWIRE_FAULT_UNKNOWN_COMMAND] = "UnknownCommand", [GITWIRE_FAULT_TWO_COMMANDS] = "TwoCommands",
		[GITWIRE_FAULT_NO_COMMAND] = "NoCommand", [GITWIRE_FAULT_NOT_ADVERTISED] = "NotAdvertised",
		[GITWIRE_FAULT_BAD_OBJECT_NAME] = "BadObjectName", [GITWIRE_FAULT_BAD_REF_NAME] = "BadRefName",
		[GITWIRE_FAULT_BAD_NUMBER] = "BadNumber", [GITWIRE_FAULT_DEEPEN_CONFLICT] = "DeepenConflict",
		[GITWIRE_FAULT_NO_WANTS] = "NoWants", [GITWIRE_FAULT_NO_SIZE] = "NoSize", [GITWIRE_FAULT_WRONG_FORMAT] = "WrongFormat",
		[GITWIRE_FAULT_UNKNOWN_ARGUMENT] = "UnknownArgument", [GITWIRE_FAULT_TOO_MUCH_KEPT] = "TooMuchKept",
		[GITWIRE_FAULT_UNEXPECTED_PACKET] = "UnexpectedPacket", [GITWIRE_FAULT_REMOTE_ERROR] = "RemoteError",
		[GITWIRE_FAULT_UNKNOWN_REF] = "UnknownRef", [GITWIRE_FAULT_NOT_OURS] = "NotOurs",
		[GITWIRE_FAULT_PACK_SOURCE] = "PackSource", [GITWIRE_FAULT_NOT_VERSION_2] = "NotVersion2",
		[GITWIRE_FAULT_UNEXPECTED_SECTION] = "UnexpectedSection", [GITWIRE_FAULT_BAD_LINE] = "BadLine",
		[GITWIRE_FAULT_OUT_OF_MEMORY] = "OutOfMemory", [GITWIRE_FAULT_REMOTE_FATAL] = "RemoteFatal",
		[GITWIRE_FAULT_READ_FAULT] = "ReadFault", [GITWIRE_FAULT_WRITE_FAULT] = "WriteFault",
		[GITWIRE_FAULT_READ_LIMIT] = "ReadLimit" };

	for (unsigned fault = 1; fault < sizeof names / sizeof *names; fault++)
		EXPECT(strcmp(gitwire_fault_name((gitwire_fault)fault), names[fault]) == 0);
	EXPECT(sizeof names / sizeof *names == GITWIRE_FAULT_READ_LIMIT + 1);
}

/* They last: what is returned for one error is there after others were asked for. */
static void try_texts_of_faults(void)
{
	const char *first = gitwire_fault_name(GITWIRE_FAULT_BAD_DIGIT), *its_sentence = gitwire_fault_sentence(GITWIRE_FAULT_BAD_DIGIT);
	size_t longest = 0;

	for (unsigned fault = 0; fault < 1024; fault++) {
		const char *name = gitwire_fault_name((gitwire_fault)fault), *sentence = gitwire_fault_sentence((gitwire_fault)fault);
		size_t length = strlen(name);

		EXPECT((length > 0) == (fault >= 1 && fault <= GITWIRE_FAULT_READ_LIMIT));
		EXPECT((strlen(sentence) > 20) == (length > 0) && (strlen(sentence) > 0) == (length > 0));
		EXPECT(gitwire_fault_text((gitwire_fault)fault, UINT64_MAX, CHARACTERS) == (length > 0 ? length + 24 : 0));
		EXPECT(memcmp(buffer, name, length) == 0);
		longest = length > longest ? length : longest;
	}
	EXPECT(longest + 24 <= GITWIRE_FAULT_TEXT_SIZE);
	EXPECT(strcmp(first, "BadDigit") == 0 && strncmp(its_sentence, "a byte of a packet's length is no hexadecimal digit", 51) == 0);
	EXPECT(strcmp(gitwire_version(), GITWIRE_VERSION) == 0);
	EXPECT(gitwire_fault_text(GITWIRE_FAULT_TRUNCATED, 994, CHARACTERS) == 16 && memcmp(buffer, "Truncated at 994", 16) == 0);
	EXPECT(gitwire_fault_text(GITWIRE_FAULT_TRUNCATED, 994, (char *)buffer, 15) == 0);
	memset(buffer, '#', sizeof buffer);
}

static void try_names_of_kinds(void)
{
	for (unsigned kind = 0; kind < 1024; kind++) {
		size_t length = gitwire_kind_name((gitwire_result)kind, CHARACTERS);

		EXPECT((length > 0) == (kind <= GITWIRE_FAILED_RESPONSES) && length <= GITWIRE_KIND_NAME_SIZE);
	}
	EXPECT(gitwire_kind_name(GITWIRE_NEED_INPUT, CHARACTERS) == 9 && memcmp(buffer, "NeedInput", 9) == 0);
	EXPECT(gitwire_kind_name(GITWIRE_NEED_INPUT, (char *)buffer, 8) == 0);
	EXPECT(gitwire_kind_name(GITWIRE_NO_REQUEST, CHARACTERS) == 9 && memcmp(buffer, "NoRequest", 9) == 0);
	EXPECT(gitwire_kind_name(GITWIRE_BUFFER_TOO_SMALL, CHARACTERS) == 14 && memcmp(buffer, "BufferTooSmall", 14) == 0);
	memset(buffer, '#', sizeof buffer);
}

/* Whether so many bytes were escaped, with this escape at the front of the buffer and the bytes after it unchanged. */
static bool escapes(gitwire_answer answer, gitwire_result kind, size_t used, const char *escape)
{
	bool is_it = tells(answer, kind, used, 0, strlen(escape)) && memcmp(buffer, escape, strlen(escape)) == 0 && buffer[answer.length] == '#';

	memset(buffer, '#', sizeof buffer);
	return is_it;
}

static void try_escapes(void)
{
	static const char some[] = "a\x1b]0;b\a \xc3\xa4~\x7f\\\n";

	EXPECT(escapes(gitwire_escape(NULL, 0, CHARACTERS), GITWIRE_DONE, 0, ""));
	EXPECT(escapes(gitwire_escape(BYTES(some), CHARACTERS), GITWIRE_DONE, strlen(some), "a\\x1b]0;b\\x07 \\xc3\\xa4~\\x7f\\\\\\n"));
	EXPECT(escapes(gitwire_escape(BYTES(some), (char *)buffer, 8), GITWIRE_MORE, 5, "a\\x1b]0;"));
	EXPECT(escapes(gitwire_escape(BYTES("a\n\\"), (char *)buffer, GITWIRE_ESCAPE_SIZE), GITWIRE_MORE, 2, "a\\n"));
	EXPECT(escapes(gitwire_escape(BYTES("a\n"), (char *)buffer, GITWIRE_ESCAPE_SIZE), GITWIRE_DONE, 2, "a\\n"));
	EXPECT(escapes(gitwire_escape(BYTES("a"), (char *)buffer, GITWIRE_ESCAPE_SIZE - 1), GITWIRE_BUFFER_TOO_SMALL, 0, ""));
	for (unsigned byte = 0; byte < 256; byte++) {
		bool is_plain = byte >= ' ' && byte <= '~' && byte != '\\';
		const uint8_t one = (uint8_t)byte;
		char escape[GITWIRE_ESCAPE_SIZE + 1];

		snprintf(escape, sizeof escape, is_plain ? "%c" : byte == '\n' ? "\\n" : byte == '\\' ? "\\\\" : "\\x%02x", byte);
		EXPECT(escapes(gitwire_escape(&one, 1, (char *)buffer, GITWIRE_ESCAPE_SIZE), GITWIRE_DONE, 1, escape));
	}
}

/* Whether the payload, of a length that has NULs in it, is a greeting of this service, path and host (NULL for none). */
static bool greets(const char *payload, size_t length, gitwire_service service, const char *path, const char *host, bool wants_version_2)
{
	gitwire_greeting it = gitwire_greeting_read((const uint8_t *)payload, length);

	return it.kind == GITWIRE_DONE && it.fault == 0 && it.service == service && it.path_length == strlen(path)
		&& memcmp(payload + it.path, path, it.path_length) == 0 && it.has_host == (host != NULL)
		&& it.host_length == (host == NULL ? 0 : strlen(host)) && (host == NULL ? it.host == 0 : memcmp(payload + it.host, host, it.host_length) == 0)
		&& it.wants_version_2 == wants_version_2;
}

static bool greets_nobody(const char *payload, size_t length)
{
	gitwire_greeting it = gitwire_greeting_read((const uint8_t *)payload, length);

	return it.kind == GITWIRE_FAILED && it.fault == GITWIRE_FAULT_BAD_LINE && it.path == 0 && it.path_length == 0 && it.host == 0
		&& it.host_length == 0 && it.service == 0 && !it.has_host && !it.wants_version_2;
}

#define PARTS(text) (text), sizeof (text) - 1

static void try_greetings(void)
{
	static const char whole[] = "003egit-upload-pack /project.git\0host=myserver.com\0\0version=2\0";
	static const char hostless[] = "0022git-upload-pack /a\0\0version=2\0";
	static char path[GITWIRE_PAYLOAD_SIZE - 27];
	gitwire_answer answer = gitwire_greeting_write(TEXT("/project.git"), TEXT("myserver.com"), BUFFER);

	EXPECT(tells(answer, GITWIRE_DONE, 0, 0, sizeof whole - 1) && memcmp(buffer, whole, sizeof whole - 1) == 0 && buffer[sizeof whole - 1] == '#');
	EXPECT(greets((char *)buffer + 4, answer.length - 4, GITWIRE_UPLOAD_PACK, "/project.git", "myserver.com", true));
	memset(buffer, '#', sizeof buffer);
	EXPECT(tells(gitwire_greeting_write(TEXT("/project.git"), TEXT("myserver.com"), buffer, sizeof whole - 2), GITWIRE_BUFFER_TOO_SMALL, 0, 0,
		sizeof whole - 1) && buffer[0] == '#');
	EXPECT(tells(gitwire_greeting_write(TEXT("/a"), NULL, 0, buffer, sizeof hostless - 1), GITWIRE_DONE, 0, 0, sizeof hostless - 1)
		&& memcmp(buffer, hostless, sizeof hostless - 1) == 0);
	EXPECT(tells_fault(gitwire_greeting_write(PARTS("/a\0b"), TEXT("c"), BUFFER), GITWIRE_FAULT_BAD_LINE, 0, 0));
	EXPECT(tells_fault(gitwire_greeting_write(TEXT("/a"), PARTS("c\0"), BUFFER), GITWIRE_FAULT_BAD_LINE, 0, 0));
	memset(path, 'a', sizeof path);
	EXPECT(gitwire_greeting_write(path, sizeof path - 1, NULL, 0, BUFFER).length == GITWIRE_PACKET_SIZE);
	EXPECT(tells_fault(gitwire_greeting_write(path, sizeof path, NULL, 0, BUFFER), GITWIRE_FAULT_TOO_LONG, 0, 0));
	EXPECT(tells_fault(gitwire_greeting_write(NULL, 0, path, sizeof path, BUFFER), GITWIRE_FAULT_TOO_LONG, 0, 0));
	memset(buffer, '#', sizeof buffer);

	EXPECT(greets(PARTS("git-upload-pack /a\0"), GITWIRE_UPLOAD_PACK, "/a", NULL, false));
	EXPECT(greets(PARTS("git-receive-pack \0host=\0"), GITWIRE_RECEIVE_PACK, "", "", false));
	EXPECT(greets(PARTS("git-upload-archive /a b\0host=h:1\0\0a\0version=2\0b\0"), GITWIRE_UPLOAD_ARCHIVE, "/a b", "h:1", true));
	EXPECT(greets(PARTS("git-upload-pack /a\0\0version=20\0version=\0"), GITWIRE_UPLOAD_PACK, "/a", NULL, false));
	EXPECT(greets_nobody(NULL, 0) && greets_nobody(PARTS("git-upload-pack /a")) && greets_nobody(PARTS("git-upload-pack\0")));
	EXPECT(greets_nobody(PARTS("git-upload-pack /a\0\0")) && greets_nobody(PARTS("git-upload-pack /a\0host=a\0\0")));
	EXPECT(greets_nobody(PARTS("git-upload-pack /a\0host=a")) && greets_nobody(PARTS("git-upload-pack /a\0host=a\0b\0")));
	EXPECT(greets_nobody(PARTS("git-upload-pack /a\0version=2\0")) && greets_nobody(PARTS("git-upload-pack /a\0\0a\0\0version=2\0")));
	EXPECT(greets_nobody(PARTS("git-upload-pack /a\0\0version=2")) && greets_nobody(PARTS("Git-upload-pack /a\0")));
}

/* The longest name of an agent. */
#define LONGEST_AGENT "aaaaaaaaaaaaaaaaaaaaaaaaaaaaaaaaaaaaaaaaaaaaaaaaaaaaaaaaaaaaaaa"

static void try_agents_of_writers(void)
{
	static const char *const wrong[] = { LONGEST_AGENT "a", "two words", "\n", "git2/1\n", "\177", "caf\303\251" };
	uint8_t named[GITWIRE_ADVERTISEMENT_SIZE];

	EXPECT(wrote(gitwire_put_advertisement_named(writer, GITWIRE_SHA1, 0, TEXT("mirror/3.2"), BUFFER),
		"000eversion 2\n" "0015agent=mirror/3.2\n" "000cls-refs\n" "000afetch\n" "0017object-format=sha1\n" "0000"));
	EXPECT(wrote(gitwire_put_advertisement_named(writer, GITWIRE_SHA1, 0, NULL, 0, BUFFER),
		"000eversion 2\n" "0011agent=git2/1\n" "000cls-refs\n" "000afetch\n" "0017object-format=sha1\n" "0000"));
	EXPECT(wrote(gitwire_put_advertisement_named(writer, GITWIRE_SHA1, 0, TEXT("!~"), BUFFER),
		"000eversion 2\n" "000dagent=!~\n" "000cls-refs\n" "000afetch\n" "0017object-format=sha1\n" "0000"));
	EXPECT(gitwire_put_advertisement_named(writer, GITWIRE_SHA256, GITWIRE_FEATURES_ALL, TEXT(LONGEST_AGENT), named, sizeof named).kind == GITWIRE_DONE);
	EXPECT(memcmp(named + 14, "004aagent=" LONGEST_AGENT "\n", 74) == 0);
	for (size_t i = 0; i < sizeof wrong / sizeof *wrong; i++)
		EXPECT(gitwire_put_advertisement_named(writer, GITWIRE_SHA1, 0, TEXT(wrong[i]), BUFFER).kind == GITWIRE_BAD_VALUE);
}

/* Whether the packet after these is the line of this agent; `next` pulls one into the buffer. */
static bool names(gitwire_result (*next)(void *handle), void *handle, int before, const char *line)
{
	bool is_it = true;

	for (int i = 0; i <= before; i++)
		is_it = next(handle) == GITWIRE_PACKET && is_it;
	is_it = is_it && memcmp(buffer, line, strlen(line)) == 0;
	memset(buffer, '#', sizeof buffer);
	return is_it;
}

static gitwire_result next_of_server(void *server)
{
	return gitwire_server_pull(server, BUFFER).kind;
}

static gitwire_result next_of_client(void *client)
{
	return gitwire_client_pull(client, BUFFER).kind;
}

static void try_agents_of_servers(void)
{
	gitwire_repository *repository = NULL;
	gitwire_server *server = NULL;
	gitwire_host *host = NULL;

	EXPECT(gitwire_repository_new(&repository, TEXT("format sha1\n"), NULL, 0).kind == GITWIRE_DONE);
	EXPECT(gitwire_server_new_named(&server, repository, 0, true, TEXT("two words")) == GITWIRE_BAD_VALUE && server == NULL);
	EXPECT(gitwire_server_new_named(&server, repository, GITWIRE_MAXIMUM_LIMIT + 1, true, TEXT("mirror/3.2")) == GITWIRE_BAD_VALUE);
	EXPECT(gitwire_server_new_named(&server, repository, 0, true, TEXT("mirror/3.2")) == GITWIRE_DONE);
	gitwire_repository_free(repository);
	EXPECT(names(next_of_server, server, 1, "0015agent=mirror/3.2\n"));
	gitwire_server_free(server);

	EXPECT(gitwire_host_new_named(&host, GITWIRE_SHA1, 0, 0, true, TEXT("two words")) == GITWIRE_BAD_VALUE && host == NULL);
	EXPECT(gitwire_host_new_named(&host, 0, 0, 0, true, TEXT("mirror/3.2")) == GITWIRE_BAD_VALUE);
	EXPECT(gitwire_host_new_named(&host, GITWIRE_SHA1, 0, 0, true, TEXT("mirror/3.2")) == GITWIRE_DONE);
	EXPECT(gitwire_host_pull(host, BUFFER).length == 84 && memcmp(buffer + 14, "0015agent=mirror/3.2\n", 21) == 0);
	memset(buffer, '#', sizeof buffer);
	gitwire_host_free(host);
}

/* A client that has received this advertisement. */
static gitwire_client *client_of(gitwire_format format, const char *agent, const char *advertisement)
{
	static uint8_t parts[GITWIRE_PAYLOAD_SIZE];
	gitwire_client *client = NULL;
	size_t used = 0;

	EXPECT(gitwire_client_new_named(&client, format, GITWIRE_ENDS_BY_FLUSH, TEXT(agent)) == GITWIRE_DONE);
	while (used < strlen(advertisement))
		used += gitwire_client_feed(client, BYTES(advertisement + used), parts, sizeof parts).used;
	return client;
}

/* Has the client ask for the references of a server with this advertisement. */
static gitwire_client *client_after(gitwire_format format, const char *agent, const char *advertisement)
{
	gitwire_client *client = client_of(format, agent, advertisement);
	gitwire_request *request = NULL;

	EXPECT(gitwire_request_new(&request, GITWIRE_LS_REFS, GITWIRE_SHA1, 0) == GITWIRE_DONE);
	EXPECT(gitwire_client_ask(client, request).kind == GITWIRE_DONE);
	gitwire_request_free(request);
	return client;
}

static void try_agents_of_clients(void)
{
	static const char named[] = "000eversion 2\n" "0010agent=other\n" "000cls-refs\n" "0000";
	static const char nameless[] = "000eversion 2\n" "000cls-refs\n" "0000";
	gitwire_client *client = NULL;

	EXPECT(gitwire_client_new_named(&client, GITWIRE_SHA1, GITWIRE_ENDS_BY_FLUSH, TEXT("two words")) == GITWIRE_BAD_VALUE && client == NULL);
	EXPECT(gitwire_client_new_named(&client, 0, GITWIRE_ENDS_BY_FLUSH, TEXT("mirror/3.2")) == GITWIRE_BAD_VALUE);
	client = client_after(GITWIRE_SHA1, "mirror/3.2", named);
	EXPECT(names(next_of_client, client, 1, "0015agent=mirror/3.2\n"));
	gitwire_client_free(client);
	client = client_after(GITWIRE_FORMAT_ANY, "mirror/3.2", named);
	EXPECT(names(next_of_client, client, 1, "0015agent=mirror/3.2\n"));
	gitwire_client_free(client);
	client = client_after(GITWIRE_SHA1, "", named);
	EXPECT(names(next_of_client, client, 1, "0011agent=git2/1\n"));
	gitwire_client_free(client);
	client = client_after(GITWIRE_SHA1, "mirror/3.2", nameless); /* where the server names none */
	EXPECT(names(next_of_client, client, 1, "0001"));
	gitwire_client_free(client);
}

static char longest_option[GITWIRE_SERVER_OPTION_SIZE + 1];
static uint8_t asked[2 * GITWIRE_PACKET_SIZE];

static gitwire_request *new_request(gitwire_command command, uint32_t limit)
{
	gitwire_request *request = NULL;

	EXPECT(gitwire_request_new(&request, command, GITWIRE_SHA1, limit) == GITWIRE_DONE);
	return request;
}

static bool adds_option(gitwire_request *request, const char *option, size_t length)
{
	return tells(gitwire_request_add_server_option(request, option, length), GITWIRE_DONE, 0, 0, 0);
}

static bool refuses_option(gitwire_request *request, const char *option, size_t length, gitwire_fault fault)
{
	return tells_fault(gitwire_request_add_server_option(request, option, length), fault, 0, 0);
}

static bool has_option(gitwire_request *request, size_t index, const char *option)
{
	return wrote(gitwire_request_item(request, GITWIRE_LIST_SERVER_OPTIONS, index, CHARACTERS), option);
}

static bool has_no_option(gitwire_request *request, size_t index)
{
	return tells(gitwire_request_item(request, GITWIRE_LIST_SERVER_OPTIONS, index, CHARACTERS), GITWIRE_NOTHING, 0, 0, 0);
}

/* Has a client ask the request, collects its packets, and returns how many bytes they have. */
static size_t ask(gitwire_request *request, const char *advertisement)
{
	gitwire_client *client = client_of(GITWIRE_SHA1, "", advertisement);
	gitwire_answer answer;
	size_t length = 0;

	EXPECT(tells(gitwire_client_ask(client, request), GITWIRE_DONE, 0, 0, 0));
	while ((answer = gitwire_client_pull(client, BUFFER)).kind == GITWIRE_PACKET && length + answer.length <= sizeof asked) {
		memcpy(asked + length, buffer, answer.length);
		length += answer.length;
	}
	EXPECT(answer.kind == GITWIRE_NEED_INPUT);
	memset(buffer, '#', sizeof buffer);
	gitwire_client_free(client);
	return length;
}

/* A host's server that was asked what the client asked. */
static gitwire_host *host_asked(size_t length)
{
	gitwire_host *host = NULL;

	EXPECT(gitwire_host_new(&host, GITWIRE_SHA1, GITWIRE_FEATURE_SERVER_OPTION, GITWIRE_DEFAULT_LIMIT, false) == GITWIRE_DONE);
	EXPECT(tells(gitwire_host_feed(host, asked, length), GITWIRE_MORE, length, 0, 0));
	EXPECT(tells(gitwire_host_pull(host, BUFFER), GITWIRE_ASKED, 0, GITWIRE_LS_REFS, 0));
	return host;
}

#define NO_OPTIONS "000eversion 2\n" "0010agent=other\n" "000cls-refs\n" "0017object-format=sha1\n" "0000"
#define OPTIONS "000eversion 2\n" "0010agent=other\n" "000cls-refs\n" "0012server-option\n" "0017object-format=sha1\n" "0000"

/* Options are written behind the agent, each without LF, and a host has them in their order. */
static void try_options_of_a_client(void)
{
	static const char written[] = "0014command=ls-refs\n" "0011agent=git2/1\n" "0017server-option=first" "0012server-option="
		"0017object-format=sha1\n" "0001" "0009peel\n" "0000";
	gitwire_request *request = new_request(GITWIRE_LS_REFS, GITWIRE_DEFAULT_LIMIT);
	gitwire_client *client = client_of(GITWIRE_SHA1, "", NO_OPTIONS);
	gitwire_host *host = NULL;
	size_t length;

	EXPECT(tells(gitwire_request_add(request, TEXT("peel")), GITWIRE_DONE, 0, 0, 0));
	EXPECT(adds_option(request, TEXT("first")) && adds_option(request, NULL, 0));
	EXPECT(tells_fault(gitwire_client_ask(client, request), GITWIRE_FAULT_NOT_ADVERTISED, 0, strlen(NO_OPTIONS)));
	gitwire_client_free(client);
	EXPECT(has_option(request, 0, "first") && has_option(request, 1, "") && has_no_option(request, 2));
	length = ask(request, OPTIONS);
	EXPECT(length == strlen(written) && memcmp(asked, written, strlen(written)) == 0);
	EXPECT(gitwire_request_add_server_option(request, TEXT("late")).kind == GITWIRE_NO_REQUEST);
	gitwire_request_free(request);

	host = host_asked(length);
	for (int times = 0; times < 2; times++) { /* when it is asked, and when it is answered */
		EXPECT(wrote(gitwire_host_item(host, GITWIRE_LIST_SERVER_OPTIONS, 0, CHARACTERS), "first"));
		EXPECT(wrote(gitwire_host_item(host, GITWIRE_LIST_SERVER_OPTIONS, 1, CHARACTERS), ""));
		EXPECT(tells(gitwire_host_item(host, GITWIRE_LIST_SERVER_OPTIONS, 2, CHARACTERS), GITWIRE_NOTHING, 0, 0, 0));
		EXPECT(tells(gitwire_host_item(host, GITWIRE_LIST_SERVER_OPTIONS, 0, (char *)buffer, 4), GITWIRE_BUFFER_TOO_SMALL, 0, 0, 0));
		EXPECT(gitwire_host_flag(host, GITWIRE_FLAG_PEEL) && gitwire_host_accept(host) == (times == 0 ? GITWIRE_DONE : GITWIRE_NOT_NOW));
	}
	gitwire_host_free(host);
}

/* The longest option takes a whole packet, and is read back. */
static void try_the_longest_option(void)
{
	static const char before[] = "0014command=ls-refs\n" "0011agent=git2/1\n" "fff0server-option=";
	static const char after[] = "0017object-format=sha1\n" "0001" "0000";
	const size_t length = strlen(before) + GITWIRE_SERVER_OPTION_SIZE + strlen(after);
	gitwire_request *request = new_request(GITWIRE_LS_REFS, GITWIRE_DEFAULT_LIMIT);
	gitwire_host *host = NULL;

	memset(longest_option, 'a', sizeof longest_option);
	EXPECT(refuses_option(request, longest_option, sizeof longest_option, GITWIRE_FAULT_BAD_LINE));
	EXPECT(has_no_option(request, 0));
	EXPECT(adds_option(request, longest_option, GITWIRE_SERVER_OPTION_SIZE));
	EXPECT(ask(request, OPTIONS) == length && memcmp(asked, before, strlen(before)) == 0);
	EXPECT(memcmp(asked + strlen(before), longest_option, GITWIRE_SERVER_OPTION_SIZE) == 0);
	EXPECT(memcmp(asked + strlen(before) + GITWIRE_SERVER_OPTION_SIZE, after, strlen(after)) == 0);
	gitwire_request_free(request);

	host = host_asked(length);
	EXPECT(tells(gitwire_host_item(host, GITWIRE_LIST_SERVER_OPTIONS, 0, (char *)buffer, GITWIRE_SERVER_OPTION_SIZE), GITWIRE_DONE, 0, 0,
		GITWIRE_SERVER_OPTION_SIZE));
	EXPECT(memcmp(buffer, longest_option, GITWIRE_SERVER_OPTION_SIZE) == 0 && buffer[GITWIRE_SERVER_OPTION_SIZE] == '#');
	memset(buffer, '#', sizeof buffer);
	EXPECT(tells(gitwire_host_item(host, GITWIRE_LIST_SERVER_OPTIONS, 1, CHARACTERS), GITWIRE_NOTHING, 0, 0, 0));
	gitwire_host_free(host);
}

/* What is no option is refused first, and then what is above the limit, which the words before an option count to. */
static void try_options_refused(void)
{
	static const gitwire_command commands[] = { GITWIRE_LS_REFS, GITWIRE_FETCH, GITWIRE_OBJECT_INFO };

	for (size_t i = 0; i < sizeof commands / sizeof *commands; i++) {
		gitwire_request *request = new_request(commands[i], 33);

		EXPECT(refuses_option(request, PARTS("a\nb"), GITWIRE_FAULT_BAD_LINE) && refuses_option(request, PARTS("\n"), GITWIRE_FAULT_BAD_LINE));
		EXPECT(refuses_option(request, PARTS("a\0b"), GITWIRE_FAULT_BAD_LINE));
		EXPECT(refuses_option(request, TEXT("of twenty characters"), GITWIRE_FAULT_TOO_MUCH_KEPT) && has_no_option(request, 0));
		EXPECT(adds_option(request, TEXT("a=b c")) && refuses_option(request, TEXT("a"), GITWIRE_FAULT_TOO_MUCH_KEPT));
		EXPECT(refuses_option(request, PARTS("\n"), GITWIRE_FAULT_BAD_LINE) && adds_option(request, NULL, 0));
		EXPECT(refuses_option(request, NULL, 0, GITWIRE_FAULT_TOO_MUCH_KEPT));
		EXPECT(has_option(request, 0, "a=b c") && has_option(request, 1, "") && has_no_option(request, 2));
		EXPECT(tells_fault(gitwire_request_add(request, TEXT("server-option=a")), GITWIRE_FAULT_UNKNOWN_ARGUMENT, 0, 0));
		gitwire_request_free(request);
	}
}

/* A reader takes an option with LF behind it or without, none from a line without `=`, and at most its limit. */
static void try_options_read(void)
{
	static const char taken[] = "0012server-option\n" "0012command=fetch\n" "0018server-option=first\n" "0012server-option="
		"0001" "0032want " ONE "\n" "0000";
	static const char refused[] = "0014command=ls-refs\n" "0017server-option=first" "0013server-option=a" "0000";
	gitwire_request_reader *reader = NULL;
	gitwire_request *request = NULL;

	EXPECT(gitwire_request_empty(&request) == GITWIRE_DONE);
	EXPECT(gitwire_request_reader_new(&reader, GITWIRE_SHA1, GITWIRE_FEATURE_SERVER_OPTION, 78) == GITWIRE_DONE);
	EXPECT(tells(gitwire_request_reader_feed(reader, request, BYTES(taken)), GITWIRE_REQUEST, strlen(taken), 0, 0));
	EXPECT(gitwire_request_command(request) == GITWIRE_FETCH && has_option(request, 0, "first") && has_option(request, 1, ""));
	EXPECT(has_no_option(request, 2));
	gitwire_request_reader_free(reader);
	EXPECT(gitwire_request_reader_new(&reader, GITWIRE_SHA1, GITWIRE_FEATURE_SERVER_OPTION, 33) == GITWIRE_DONE);
	EXPECT(tells_fault(gitwire_request_reader_feed(reader, request, BYTES(refused)), GITWIRE_FAULT_TOO_MUCH_KEPT, 62, 43));
	gitwire_request_reader_free(reader);
	EXPECT(gitwire_request_reader_new(&reader, GITWIRE_SHA1, 0, 33) == GITWIRE_DONE);
	EXPECT(tells_fault(gitwire_request_reader_feed(reader, request, BYTES(refused)), GITWIRE_FAULT_NOT_ADVERTISED, 43, 20));
	gitwire_request_reader_free(reader);
	gitwire_request_free(request);
}

static void *try_all(void *nothing)
{
	memset(buffer, '#', sizeof buffer);
	EXPECT(gitwire_writer_new(&writer) == GITWIRE_DONE && writer != NULL);
	try_writers_of_packets();
	try_writers_of_advertisements();
	try_features_alone();
	try_writers_of_lines();
	try_names_of_faults();
	try_texts_of_faults();
	try_names_of_kinds();
	try_escapes();
	try_greetings();
	try_agents_of_writers();
	try_agents_of_servers();
	try_agents_of_clients();
	try_options_of_a_client();
	try_the_longest_option();
	try_options_refused();
	try_options_read();
	gitwire_writer_free(writer);
	gitwire_writer_free(NULL);
	return nothing;
}

int main(void)
{
	return on_a_small_stack(try_all);
}
