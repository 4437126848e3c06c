/*
 * Answers one request by a server of the library for C, and prints to standard error how many microseconds that took, from the request's
 * first byte to the flush after its answer; the answer goes to standard output:
 *
 *     hosts server|host references|pack COUNT
 *
 * `server` is a gitwire_server over a gitwire_repository, `host` a gitwire_host that reports the same: so many references of 65 bytes a packet, or a
 * pack of so many bytes. Making the repository is not measured: a host has none.
 */
#define _POSIX_C_SOURCE 200809L
#include <gitwire.h>

#include <inttypes.h>
#include <stdio.h>
#include <stdlib.h>
#include <string.h>
#include <time.h>

#define ID_DIGITS 40
#define NAME_BYTES 19 /* refs/heads/00000000 */
#define LIMIT 1000000

static const char references_request[] = "0014command=ls-refs\n00010000";
static const char pack_request[] = "0012command=fetch\n00010032want aaaaaaaaaaaaaaaaaaaaaaaaaaaaaaaaaaaaaaaa\n0009done\n0000";
static const char wanted[] = "aaaaaaaaaaaaaaaaaaaaaaaaaaaaaaaaaaaaaaaa";

static uint8_t buffer[GITWIRE_PACKET_SIZE], *pack;
static size_t references, pack_bytes;

static void fail(const char *why)
{
	fprintf(stderr, "hosts: %s\n", why);
	exit(1);
}

static uint64_t now(void)
{
	struct timespec time;

	clock_gettime(CLOCK_MONOTONIC, &time);
	return (uint64_t)time.tv_sec * 1000000 + (uint64_t)time.tv_nsec / 1000;
}

static void send(gitwire_answer answer)
{
	if (answer.kind != GITWIRE_PACKET || fwrite(buffer, 1, answer.length, stdout) != answer.length)
		fail("no packet");
}

/* The digits and the name of a reference, in the order of the names. */
static void reference_at(size_t i, char id[ID_DIGITS + 1], char name[NAME_BYTES + 1])
{
	snprintf(id, ID_DIGITS + 1, "%08x%032u", (unsigned)(i * 2654435761u), (unsigned)i);
	snprintf(name, NAME_BYTES + 1, "refs/heads/%08u", (unsigned)(i % 100000000));
}

/* The references of all, made before the time is taken. */
static char (*ids)[ID_DIGITS + 1], (*names)[NAME_BYTES + 1];

static void make_references(void)
{
	ids = calloc(references + 1, sizeof *ids);
	names = calloc(references + 1, sizeof *names);
	if (!ids || !names)
		fail("no memory");
	for (size_t i = 0; i < references; i++)
		reference_at(i, ids[i], names[i]);
}

static gitwire_repository *make_repository(void)
{
	gitwire_repository *repository;
	char *text = malloc(200 + references * 80);
	size_t length;

	if (!text)
		fail("no memory");
	length = (size_t)sprintf(text, "format sha1\n");
	for (size_t i = 0; i < references; i++)
		length += (size_t)sprintf(text + length, "ref %s %s\n", ids[i], names[i]);
	if (!references)
		length += (size_t)sprintf(text + length, "object %s 1\n", wanted);
	if (gitwire_repository_new(&repository, text, length, pack, pack_bytes).kind != GITWIRE_DONE)
		fail("no repository");
	free(text);
	return repository;
}

static uint64_t run_server(const char *request)
{
	gitwire_repository *repository = make_repository();
	gitwire_server *server;
	gitwire_answer answer;
	uint64_t begin;

	if (gitwire_server_new(&server, repository, LIMIT, false) != GITWIRE_DONE)
		fail("no server");
	begin = now();
	if (gitwire_server_feed(server, (const uint8_t *)request, strlen(request)).used != strlen(request))
		fail("a request is refused");
	while ((answer = gitwire_server_pull(server, buffer, sizeof buffer)).kind != GITWIRE_NEED_INPUT)
		send(answer);
	begin = now() - begin;
	gitwire_server_free(server);
	gitwire_repository_free(repository);
	return begin;
}

/* Reports what is needed; the pack in chunks; each packet takes as much of one as fits. */
static void report(gitwire_host *host, gitwire_answer need)
{
	static size_t reported;
	gitwire_answer answer;

	switch (need.kind) {
	case GITWIRE_NEED_WANT:
		answer = gitwire_host_want(host, true, buffer, sizeof buffer);
		break;
	case GITWIRE_NEED_BOUNDARY:
		answer = gitwire_host_boundary_end(host, buffer, sizeof buffer);
		break;
	case GITWIRE_NEED_REFERENCE:
		for (size_t i = 0; i < references; i++)
			send(gitwire_host_reference(host, ids[i], ID_DIGITS, names[i], NAME_BYTES, NULL, 0, NULL, 0, buffer, sizeof buffer));
		answer = gitwire_host_references_end(host, buffer, sizeof buffer);
		break;
	case GITWIRE_NEED_PACK:
		while (reported < pack_bytes) {
			answer = gitwire_host_pack(host, pack + reported, pack_bytes - reported, buffer, sizeof buffer);
			send(answer);
			reported += answer.used;
		}
		answer = gitwire_host_pack_end(host, buffer, sizeof buffer);
		break;
	default:
		fail("another need");
	}
	if (answer.kind != GITWIRE_MORE)
		send(answer);
}

static uint64_t run_host(const char *request)
{
	gitwire_host *host;
	gitwire_answer answer;
	uint64_t begin;

	if (gitwire_host_new(&host, GITWIRE_SHA1, GITWIRE_FEATURES_ALL, LIMIT, false) != GITWIRE_DONE)
		fail("no host");
	begin = now();
	if (gitwire_host_feed(host, (const uint8_t *)request, strlen(request)).used != strlen(request))
		fail("a request is refused");
	if (gitwire_host_accept(host) != GITWIRE_DONE)
		fail("no request");
	while ((answer = gitwire_host_pull(host, buffer, sizeof buffer)).kind != GITWIRE_NEED_INPUT) {
		if (answer.kind == GITWIRE_PACKET)
			send(answer);
		else
			report(host, answer);
	}
	begin = now() - begin;
	gitwire_host_free(host);
	return begin;
}

int main(int count, char **words)
{
	if (count != 4)
		fail("hosts server|host references|pack COUNT");
	if (!strcmp(words[2], "pack"))
		pack_bytes = strtoull(words[3], NULL, 10);
	else
		references = strtoull(words[3], NULL, 10);
	pack = malloc(pack_bytes + 1);
	if (!pack)
		fail("no memory");
	for (size_t i = 0; i < pack_bytes; i++)
		pack[i] = (uint8_t)(i * 2654435761u >> 24);
	make_references();
	setvbuf(stdout, NULL, _IOFBF, 1 << 20);
	const char *request = pack_bytes ? pack_request : references_request;
	fprintf(stderr, "%" PRIu64 "\n", !strcmp(words[1], "host") ? run_host(request) : run_server(request));
	return 0;
}
