/*
 * Reads a recorded conversation by single calls and by the calls that fill an array, and checks that both give the same events, or packets, up to
 * the same bytes. Each stream is cut into two chunks at every place and into chunks of every length up to 70, and each of its bytes is damaged in
 * turn. It prints each expectation that does not hold; the status is 1 where one did not.
 *
 *     library_arrays sha1|sha256 flush|response-end REQUESTS RESPONSES
 */
#include "library_calls.h"

#include <stdarg.h>

#define MOST_BYTES 20000
#define MOST_ELEMENTS 64

struct stream {
	uint8_t bytes[MOST_BYTES];
	size_t length;
};

/* How a stream is cut, and how it is read: into an array of `places`, or by single calls if that is 0. A reader of packets may have no buffer. */
struct way {
	size_t first, next;
	size_t places;
	size_t buffer;
	bool in_place;
};

/* All that a run gave. */
struct log {
	char text[600000];
	size_t length;
};

static struct stream requests, responses;
static struct log single, filled;
static gitwire_format format;
static gitwire_ending ending;
static uint8_t large_buffer[GITWIRE_EVENTS_SIZE(MOST_BYTES)];

static void note(struct log *log, const char *words, ...)
{
	va_list values;

	va_start(values, words);
	log->length += (size_t)vsnprintf(log->text + log->length, sizeof log->text - log->length, words, values);
	va_end(values);
	if (log->length >= sizeof log->text) {
		puts("a log that is too long");
		exit(1);
	}
}

static void note_bytes(struct log *log, const void *bytes, size_t length)
{
	note(log, " %zu:", length);
	if (sizeof log->text - log->length <= length)
		exit(1);
	if (length > 0)
		memcpy(log->text + log->length, bytes, length);
	log->length += length;
}

/* The end of the chunk that begins here. */
static size_t end_of_chunk(const struct way *way, size_t start, size_t length)
{
	size_t end = start + (start == 0 && way->first > 0 ? way->first : way->next);

	return end < length ? end : length;
}

static void note_packet(struct log *log, gitwire_answer packet, size_t end, const uint8_t *payload)
{
	note(log, "%zu packet %u at %zu", end, packet.kind, (size_t)packet.offset);
	if (packet.kind == GITWIRE_PAYLOAD)
		note_bytes(log, payload, packet.length);
	note(log, "\n");
}

/* An event of this chunk, whose other texts are in the large buffer. */
static void note_event(struct log *log, const gitwire_event *event, size_t end, const uint8_t *chunk)
{
	note(log, "%zu event %u %d %d %zu", end, event->kind, event->has_text, event->has_size, (size_t)event->size);
	for (gitwire_part number = GITWIRE_PART_ID; number <= GITWIRE_PART_PEELED; number++) {
		gitwire_text part = gitwire_event_part(event, number, chunk, large_buffer);

		note(log, " %d", part.at != NULL);
		note_bytes(log, part.at, part.length);
	}
	note(log, "\n");
}

static void note_end(struct log *log, gitwire_result kind, gitwire_fault fault, uint64_t offset, size_t end)
{
	if (kind == GITWIRE_FAILED)
		note(log, "%zu fault %u at %zu\n", end, fault, (size_t)offset);
}

/* Whether the call left the places after these alone. */
static bool left_alone(const void *places, size_t size, size_t count)
{
	const uint8_t *bytes = places;

	for (size_t i = size * count; i < size * MOST_ELEMENTS; i++)
		if (bytes[i] != 0)
			return false;
	return true;
}

static void read_packets_singly(struct log *log, gitwire_packet_reader *reader, const struct stream *stream, size_t at, size_t end)
{
	while (at < end) {
		gitwire_answer answer = gitwire_packet_reader_feed(reader, stream->bytes + at, end - at, large_buffer, sizeof large_buffer);

		at += answer.used;
		note_end(log, answer.kind, answer.fault, answer.offset, at);
		if (answer.kind == GITWIRE_FAILED)
			return;
		if (answer.kind != GITWIRE_MORE)
			note_packet(log, answer, at, large_buffer);
	}
}

/* Fills the array, and sets `rest` to where the payload is that is not in the chunk. */
static gitwire_answer fill(gitwire_packet_reader *reader, const struct way *way, const uint8_t *chunk, size_t length, gitwire_answer *packets,
	const uint8_t **rest)
{
	gitwire_answer answer;

	*rest = large_buffer;
	if (!way->in_place)
		return gitwire_packet_reader_packets(reader, chunk, length, packets, way->places, large_buffer, GITWIRE_PAYLOAD_SIZE);
	answer = gitwire_packet_reader_packets_in_place(reader, chunk, length, packets, way->places);
	*rest = gitwire_packet_reader_held(reader);
	return answer;
}

/* Whether the array has one packet, whose payload stayed in the reader. */
static bool stayed(const gitwire_answer *packets, size_t count)
{
	return count == 1 && packets->used < packets->length;
}

static void read_packets(struct log *log, gitwire_packet_reader *reader, const struct stream *stream, const struct way *way, size_t at, size_t end)
{
	static gitwire_answer packets[MOST_ELEMENTS];

	while (at < end) {
		const uint8_t *chunk = stream->bytes + at;

		memset(packets, 0, sizeof packets);
		const uint8_t *rest;
		gitwire_answer answer = fill(reader, way, chunk, end - at, packets, &rest);
		EXPECT(answer.length <= way->places && left_alone(packets, sizeof *packets, answer.length));
		EXPECT(answer.kind == GITWIRE_FAILED || answer.used == end - at
			|| (answer.kind == GITWIRE_MORE && (answer.length == way->places || (way->in_place && stayed(packets, answer.length)))));
		for (size_t i = 0; i < answer.length; i++)
			note_packet(log, packets[i], at + packets[i].used, gitwire_payload(&packets[i], chunk, rest));
		at += answer.used;
		note_end(log, answer.kind, answer.fault, answer.offset, at);
		if (answer.kind == GITWIRE_FAILED)
			return;
	}
}

/* Reads the packets of a stream. */
static void run_reader(struct log *log, const struct stream *stream, const struct way *way)
{
	gitwire_packet_reader *reader = NULL;
	gitwire_answer answer;

	log->length = 0;
	EXPECT(gitwire_packet_reader_new(&reader) == GITWIRE_DONE);
	for (size_t at = 0, end; at < stream->length; at = end) {
		end = end_of_chunk(way, at, stream->length);
		if (way->places == 0)
			read_packets_singly(log, reader, stream, at, end);
		else
			read_packets(log, reader, stream, way, at, end);
	}
	answer = gitwire_packet_reader_close(reader);
	note_end(log, answer.kind, answer.fault, answer.offset, stream->length);
	gitwire_packet_reader_free(reader);
}

/* A client that asks the requests of the conversation. */
struct talk {
	gitwire_client *client;
	gitwire_request_reader *reader;
	size_t asked;   /* how many bytes of the requests have been asked */
	size_t at, end; /* the bytes of the chunk that are still to be used */
};

/* Asks the next request, or leaves. */
static void go_on(struct talk *talk)
{
	gitwire_request *request = NULL;
	gitwire_answer answer = { .kind = GITWIRE_STOP };

	EXPECT(gitwire_request_empty(&request) == GITWIRE_DONE);
	if (talk->asked < requests.length)
		answer = gitwire_request_reader_feed(talk->reader, request, requests.bytes + talk->asked, requests.length - talk->asked);
	talk->asked += answer.used;
	if (answer.kind != GITWIRE_REQUEST || gitwire_client_ask(talk->client, request).kind != GITWIRE_DONE)
		EXPECT(gitwire_client_leave(talk->client) == GITWIRE_DONE);
	gitwire_request_free(request);
}

static void hear_singly(struct log *log, struct talk *talk)
{
	const uint8_t *chunk = responses.bytes + talk->at;
	gitwire_event event = gitwire_client_feed(talk->client, chunk, talk->end - talk->at, large_buffer, sizeof large_buffer);

	talk->at += event.used;
	note_end(log, event.kind, event.fault, event.offset, talk->at);
	if (event.kind != GITWIRE_MORE && event.kind != GITWIRE_FAILED)
		note_event(log, &event, talk->at, chunk);
}

static void hear(struct log *log, struct talk *talk, const struct way *way)
{
	static gitwire_event events[MOST_ELEMENTS];
	const uint8_t *chunk = responses.bytes + talk->at;
	size_t length = talk->end - talk->at;
	gitwire_answer answer;

	memset(events, 0, sizeof events);
	answer = gitwire_client_events(talk->client, chunk, length, events, way->places, large_buffer, way->buffer);
	EXPECT(answer.length <= way->places && left_alone(events, sizeof *events, answer.length));
	EXPECT(answer.kind != GITWIRE_MORE || answer.used == length || answer.length == way->places
		|| (answer.length > 0 && way->buffer < GITWIRE_EVENTS_SIZE(length)));
	if (answer.kind == GITWIRE_CAN_ASK)
		EXPECT(answer.length > 0 && (events[answer.length - 1].kind == GITWIRE_OFFERED || events[answer.length - 1].kind == GITWIRE_ENDED));
	for (size_t i = 0; i < answer.length; i++)
		note_event(log, &events[i], talk->at + events[i].used, chunk);
	talk->at += answer.used;
	note_end(log, answer.kind, answer.fault, answer.offset, talk->at);
}

/* Gives the client what it needs: bytes of the chunk, of the next one, or the end of the responses. Returns whether it goes on. */
static bool give(struct log *log, struct talk *talk, const struct way *way)
{
	if (talk->at == talk->end) {
		if (talk->at == responses.length) {
			gitwire_answer answer = gitwire_client_close(talk->client);

			note_end(log, answer.kind, answer.fault, answer.offset, talk->at);
			return false;
		}
		talk->end = end_of_chunk(way, talk->at, responses.length);
	}
	if (way->places == 0)
		hear_singly(log, talk);
	else
		hear(log, talk, way);
	return true;
}

/* Receives the responses. */
static void run_client(struct log *log, const struct way *way)
{
	struct talk talk = { .client = NULL };
	bool goes_on = true;

	log->length = 0;
	EXPECT(gitwire_client_new(&talk.client, format, ending) == GITWIRE_DONE);
	EXPECT(gitwire_request_reader_new(&talk.reader, format, GITWIRE_FEATURES_ALL, GITWIRE_DEFAULT_LIMIT) == GITWIRE_DONE);
	while (goes_on) {
		gitwire_answer answer = gitwire_client_pull(talk.client, BUFFER);

		if (answer.kind == GITWIRE_CAN_ASK)
			go_on(&talk);
		else if (answer.kind == GITWIRE_NEED_INPUT)
			goes_on = give(log, &talk, way);
		else
			goes_on = answer.kind == GITWIRE_PACKET;
	}
	note(log, "%zu used\n", talk.at);
	gitwire_client_free(talk.client);
	gitwire_request_reader_free(talk.reader);
}

static bool same_logs(void)
{
	return single.length == filled.length && memcmp(single.text, filled.text, single.length) == 0;
}

/* Reads all, cut in this way, by arrays of different lengths. */
static void compare(size_t first, size_t next)
{
	static const size_t places[] = { 1, 3, MOST_ELEMENTS };
	struct way way = { .first = first, .next = next };

	run_client(&single, &way);
	for (size_t i = 0; i < sizeof places / sizeof *places; i++) {
		way.places = places[i];
		way.buffer = i == 1 ? GITWIRE_PAYLOAD_SIZE : sizeof large_buffer;
		run_client(&filled, &way);
		EXPECT(same_logs());
	}
	for (int side = 0; side < 2; side++) {
		const struct stream *stream = side ? &responses : &requests;

		way.places = 0;
		run_reader(&single, stream, &way);
		for (size_t i = 0; i < 2 * (sizeof places / sizeof *places); i++) {
			way.places = places[i / 2];
			way.in_place = i % 2 == 1;
			run_reader(&filled, stream, &way);
			EXPECT(same_logs());
		}
	}
}

/* What is returned where nothing is read, and where nothing more is. */
static void try_answers(void)
{
	gitwire_packet_reader *reader = NULL;
	gitwire_client *client = NULL;
	static gitwire_answer packets[2];
	static gitwire_event events[2];
	uint8_t line[32];
	size_t length;

	EXPECT(gitwire_writer_new(&writer) == GITWIRE_DONE);
	length = gitwire_put_line(writer, TEXT("version 2"), line, sizeof line).length;
	gitwire_writer_free(writer);
	EXPECT(gitwire_packet_reader_new(&reader) == GITWIRE_DONE);
	EXPECT(tells(gitwire_packet_reader_packets(reader, line, length, packets, 0, BUFFER), GITWIRE_BUFFER_TOO_SMALL, 0, 0, 0));
	EXPECT(tells(gitwire_packet_reader_packets(reader, line, length, packets, 2, buffer, GITWIRE_PAYLOAD_SIZE - 1), GITWIRE_BUFFER_TOO_SMALL, 0, 0, 0));
	EXPECT(tells(gitwire_packet_reader_packets(reader, line, length, packets, 2, BUFFER), GITWIRE_MORE, length, 0, 1));
	EXPECT(tells(packets[0], GITWIRE_PAYLOAD, length, 0, 10) && memcmp(gitwire_payload(&packets[0], line, buffer), "version 2\n", 10) == 0);
	EXPECT(tells(gitwire_packet_reader_packets(reader, NULL, 0, packets, 2, BUFFER), GITWIRE_MORE, 0, 0, 0));
	EXPECT(tells(gitwire_packet_reader_packets_in_place(reader, line, length, packets, 0), GITWIRE_BUFFER_TOO_SMALL, 0, 0, 0));
	EXPECT(tells(gitwire_packet_reader_packets_in_place(reader, line, 6, packets, 2), GITWIRE_MORE, 6, 0, 0));
	/* The first payload stays in the reader, so that the second is for the next call. */
	EXPECT(tells(gitwire_packet_reader_packets_in_place(reader, BYTES("rsion 2\n0005a"), packets, 2), GITWIRE_MORE, 8, 0, 1));
	EXPECT(tells(packets[0], GITWIRE_PAYLOAD, 8, length, 10) && memcmp(gitwire_packet_reader_held(reader), "version 2\n", 10) == 0);
	EXPECT(tells(gitwire_packet_reader_packets_in_place(reader, BYTES("0005a0000"), packets, 2), GITWIRE_MORE, 9, 0, 2));
	EXPECT(tells(packets[0], GITWIRE_PAYLOAD, 5, 2 * length, 1) && *gitwire_payload(&packets[0], (const uint8_t *)"0005a0000", NULL) == 'a');
	EXPECT(tells(packets[1], GITWIRE_FLUSH, 9, 2 * length + 5, 0));
	EXPECT(tells_fault(gitwire_packet_reader_packets(reader, BYTES("00x"), packets, 2, BUFFER), GITWIRE_FAULT_BAD_DIGIT, 3, 2 * length + 11));
	EXPECT(tells_fault(gitwire_packet_reader_packets(reader, line, length, packets, 2, BUFFER), GITWIRE_FAULT_BAD_DIGIT, 0, 2 * length + 11));
	EXPECT(tells_fault(gitwire_packet_reader_packets_in_place(reader, line, length, packets, 2), GITWIRE_FAULT_BAD_DIGIT, 0, 2 * length + 11));
	gitwire_packet_reader_free(reader);
	EXPECT(gitwire_client_new(&client, GITWIRE_SHA1, GITWIRE_ENDS_BY_FLUSH) == GITWIRE_DONE);
	EXPECT(tells(gitwire_client_events(client, line, length, events, 0, BUFFER), GITWIRE_BUFFER_TOO_SMALL, 0, 0, 0));
	EXPECT(tells(gitwire_client_events(client, line, length, events, 2, buffer, GITWIRE_PAYLOAD_SIZE - 1), GITWIRE_BUFFER_TOO_SMALL, 0, 0, 0));
	EXPECT(tells(gitwire_client_events(client, line, length, events, 2, BUFFER), GITWIRE_MORE, length, 0, 0));
	/* This buffer is too small for the texts of a second event, whatever it is. */
	EXPECT(tells(gitwire_client_events(client, BYTES("000cls-refs\n000a"), events, 2, BUFFER), GITWIRE_MORE, 12, 0, 1));
	EXPECT(tells(gitwire_client_events(client, BYTES("000afetch\n00000000"), events, 2, large_buffer, sizeof large_buffer), GITWIRE_CAN_ASK, 14, 0, 2));
	EXPECT(events[0].kind == GITWIRE_CAPABILITY && events[0].used == 10 && events[0].name_length == 5 && !events[0].has_text);
	EXPECT(events[1].kind == GITWIRE_OFFERED && events[1].used == 14);
	EXPECT(tells(gitwire_client_events(client, BYTES("0000"), events, 2, BUFFER), GITWIRE_NOT_NOW, 0, 0, 0));
	gitwire_client_free(client);
}

static void *try_all(void *nothing)
{
	try_answers();
	run_client(&single, &(struct way) { .next = MOST_BYTES });
	EXPECT(single.length > 200);
	for (size_t first = 1; first <= responses.length; first++)
		compare(first, MOST_BYTES);
	for (size_t length = 1; length <= 70; length++)
		compare(length, length);
	for (size_t i = 0; i < responses.length; i++) {
		responses.bytes[i] ^= 1;
		compare(i / 2 + 1, MOST_BYTES);
		compare(0, 50);
		responses.bytes[i] ^= 1;
	}
	return nothing;
}

static bool read_stream(struct stream *stream, const char *name)
{
	FILE *file = fopen(name, "rb");

	if (file == NULL)
		return false;
	stream->length = fread(stream->bytes, 1, sizeof stream->bytes, file);
	return fclose(file) == 0 && stream->length > 0 && stream->length < sizeof stream->bytes;
}

int main(int count, char **words)
{
	if (count != 5 || !read_stream(&requests, words[3]) || !read_stream(&responses, words[4])) {
		puts("usage: library_arrays sha1|sha256 flush|response-end REQUESTS RESPONSES");
		return 2;
	}
	format = strcmp(words[1], "sha256") == 0 ? GITWIRE_SHA256 : GITWIRE_SHA1;
	ending = strcmp(words[2], "flush") == 0 ? GITWIRE_ENDS_BY_FLUSH : GITWIRE_ENDS_BY_RESPONSE_END;
	return on_a_small_stack(try_all);
}
