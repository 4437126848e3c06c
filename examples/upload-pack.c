/*
 * A server of any Git repository on disk, in the place of `git upload-pack`, on standard input and output:
 *
 *     upload-pack [--stateless-rpc] [--http-backend-info-refs] [--timeout=N] [--strict] FOLDER
 *
 * The library reads the requests and makes the answers; what it asks for is looked up by commands of Git: references by `git show-ref` or
 * `git for-each-ref` or both, objects by one `git cat-file --batch-command` that runs as long as the session, the ends of a shallow history
 * by `git rev-list`, and packs by `git pack-objects --revs --stdout`, whose bytes are passed on as they come. If one of them fails, the client
 * receives an error. It speaks version 2 alone, whatever version its client asks for. Its agent is that of GIT_USER_AGENT, or the library's own.
 *
 *     git clone --upload-pack=.../upload-pack "file://$PWD/REPOSITORY" CLONE
 */
#define PROGRAM "upload-pack"
#ifndef _GNU_SOURCE /* g++ defines it */
#define _GNU_SOURCE
#endif
#include <gitwire.h>

#include "stop.h"
#include "shown.h"
#include "history.h"
#include "filters.h"
#include "listing.h"

#include <inttypes.h>
#include <poll.h>

/* Looks up the objects of a list of the request, and adds those that exist. Returns the first that does not exist, or NULL. */
static const char *find_listed(gitwire_list list, const char *type, struct names *into)
{
	static struct names asked;
	const char *name;

	clear_names(&asked);
	for (size_t i = 0; (name = item(list, i)) != NULL; i++)
		add_name(type == NULL && has_name(&listed_objects, name) ? into : &asked, name);
	return find_all(&asked, "", type, into);
}

/* The wanted references as lines `ID NAME`, and the object of `HEAD`, which is empty if there is none. */
static struct texts wanted_references;
static char wanted_head[GITWIRE_OBJECT_NAME_SIZE + 1];

/* The object of a wanted reference, once those were looked up; false if there is none that may be shown. */
static bool find_wanted(const char *name, char *id)
{
	static char whole[LINE_SIZE];

	snprintf(whole, sizeof whole, "%s%s", space, name);
	if (is_hidden(whole))
		return false;
	if (strcmp(name, "HEAD") != 0)
		return find_reference(&wanted_references, whole, id);
	snprintf(id, GITWIRE_OBJECT_NAME_SIZE + 1, "%s", wanted_head);
	return *id != 0;
}

/* Looks up the wanted references. Returns the first that does not exist, or NULL. */
static const char *find_wanted_references(void)
{
	struct texts names = no_texts;
	char id[GITWIRE_OBJECT_NAME_SIZE + 1];
	struct found found = { "", "", 0 };
	bool wants_head = false;
	const char *name;

	clear_texts(&wanted_references);
	for (size_t i = 0; (name = item(GITWIRE_LIST_WANT_REFS, i)) != NULL; i++) {
		wants_head |= strcmp(name, "HEAD") == 0;
		if (is_pattern(name))
			add_text(&names, "%s%s", space, name);
	}
	strcpy(wanted_head, wants_head && find_head_in(space, &found) ? found.id : "");
	find_references(&names, &wanted_references);
	clear_texts(&names);
	for (size_t i = 0; (name = item(GITWIRE_LIST_WANT_REFS, i)) != NULL; add_name(&wants, id), i++)
		if (!find_wanted(name, id))
			return name;
	return NULL;
}

/* What a short name may stand for, in the order in which Git tries it. */
static const char *const rules[] = { "%s", "refs/%s", "refs/tags/%s", "refs/heads/%s", "refs/remotes/%s", "refs/remotes/%s/HEAD" };
enum { RULES = 6, MOST_EXCLUDED = 100 };

/*
 * Looks up the references that a shallow history has to exclude, each by a short name that stands for only one. Returns the first that does
 * not, or NULL. Revisions that Git would have to search for, as `:/text`, are not accepted.
 */
static const char *find_excluded(struct names *excluded)
{
	struct texts names = no_texts, lines = no_texts;
	static char whole[LINE_SIZE];
	char id[GITWIRE_OBJECT_NAME_SIZE + 1];
	struct found found;
	const char *name;

	for (size_t i = 0; (name = item(GITWIRE_LIST_DEEPEN_NOTS, i)) != NULL; i++)
		for (int rule = 0; rule < RULES && i < MOST_EXCLUDED; rule++)
			if (snprintf(whole, sizeof whole, rules[rule], name) > 0 && is_pattern(whole))
				add_text(&names, "%s", whole);
	find_references(&names, &lines);
	for (size_t i = 0; (name = item(GITWIRE_LIST_DEEPEN_NOTS, i)) != NULL; add_name(excluded, id), i++) {
		int count = i < MOST_EXCLUDED && strcmp(name, "HEAD") == 0 && find_head_in("", &found);

		if (count == 1)
			strcpy(id, found.id);
		for (int rule = 0; rule < RULES; rule++)
			count += snprintf(whole, sizeof whole, rules[rule], name) > 0 && find_reference(&lines, whole, id);
		if (count != 1)
			break;
	}
	clear_texts(&names);
	clear_texts(&lines);
	return name;
}

/* Looks up what a fetch names. Returns why it is refused, or NULL; the words are those of Git's own server. */
static const char *why_not(void)
{
	static char reason[LINE_SIZE];
	const char *name;

	clear_names(&wants);
	clear_names(&common);
	clear_names(&client_boundary);
	clear_names(&excluded);
	clear_names(&shallows);
	clear_names(&unshallows);
	if (item(GITWIRE_LIST_FILTERS, 1) != NULL)
		return "multiple filter-specs cannot be combined";
	if ((name = item(GITWIRE_LIST_FILTERS, 0)) != NULL && !may_filter(name, 16, reason, sizeof reason))
		return reason;
	if ((name = find_listed(GITWIRE_LIST_WANTS, NULL, &wants)) != NULL)
		snprintf(reason, sizeof reason, "upload-pack: not our ref %s", name);
	else if ((name = find_wanted_references()) != NULL)
		snprintf(reason, sizeof reason, "unknown ref %s", name);
	else if ((name = find_excluded(&excluded)) != NULL)
		snprintf(reason, sizeof reason, "git upload-pack: ambiguous deepen-not: %s", name);
	if (name != NULL)
		return reason;
	find_listed(GITWIRE_LIST_HAVES, NULL, &common);
	find_listed(GITWIRE_LIST_SHALLOWS, "commit", &client_boundary);
	return NULL;
}

static void admit(gitwire_command command)
{
	const char *reason = command == GITWIRE_FETCH ? why_not() : NULL;

	if (reason != NULL) {
		fputs("fatal: ", stderr);
		show_bytes(stderr, reason, strlen(reason));
		fputc('\n', stderr);
		give(gitwire_host_refuse(host, reason, strlen(reason), buffer(), GITWIRE_PACKET_SIZE));
	} else if (gitwire_host_accept(host) != GITWIRE_DONE) {
		stop("no memory");
	}
}

/* Finds the boundary that the request calls for. */
static void find_boundary(void)
{
	gitwire_answer depth = gitwire_host_number(host, GITWIRE_NUMBER_DEEPEN), since = gitwire_host_number(host, GITWIRE_NUMBER_DEEPEN_SINCE);
	bool excludes = item(GITWIRE_LIST_DEEPEN_NOTS, 0) != NULL, relative = gitwire_host_flag(host, GITWIRE_FLAG_DEEPEN_RELATIVE);
	struct names heads = no_names;

	if (since.kind == GITWIRE_DONE || excludes) {
		cut_by_walk(since.kind == GITWIRE_DONE ? since.offset : 0, &excluded);
	} else if (depth.kind == GITWIRE_DONE && depth.offset == INT_MAX && own_boundary.length == 0) {
		note_boundary(&client_boundary, &no_names);
	} else if (depth.kind == GITWIRE_DONE) {
		if (relative)
			find_reachable(&heads);
		else
			add_commits(&wants, &heads);
		cut_at_depth(&heads, depth.offset + relative, &no_names);
	} else if (own_boundary.length > 0) {
		add_commits(&wants, &heads);
		cut_at_depth(&heads, INT_MAX, &client_boundary);
	}
	clear_names(&heads);
}

static void answer_boundary(void)
{
	find_boundary();
	for (size_t i = 0; i < shallows.length + unshallows.length; i++) {
		bool shallow = i < shallows.length;
		const char *id = shallow ? shallows.at[i].digits : unshallows.at[i - shallows.length].digits;

		give(gitwire_host_boundary(host, shallow, id, strlen(id), buffer(), GITWIRE_PACKET_SIZE));
		give_following(); /* the first line of all comes after the section's header */
	}
	give(gitwire_host_boundary_end(host, buffer(), GITWIRE_PACKET_SIZE));
}

/* What `git pack-objects` has to put into the pack, and where history is cut off for the client. */
static void write_revisions(FILE *to, bool is_cut)
{
	struct names parents = no_names;

	read_commits(&unshallows, &parents);
	if (is_cut) {
		write_names(to, "--shallow ", &own_boundary);
		write_names(to, "--shallow ", &client_boundary);
		write_names(to, "--shallow ", &shallows);
	}
	write_names(to, "", &wants);
	write_names(to, "", &parents);
	fputs("--not\n", to);
	write_names(to, "", &common);
	write_names(to, "", &unshallows);
	clear_names(&parents);
}

static void start_pack(struct command *pack, bool is_cut)
{
	static char filter[GITWIRE_REFERENCE_NAME_SIZE + 16], hook[PATH_MAX];
	const char *words[16] = { NULL }, *spec = item(GITWIRE_LIST_FILTERS, 0);
	size_t count = 0;

	if (find_hook(hook, sizeof hook))
		words[count++] = hook;
	words[count++] = "git";
	if (is_cut) {
		words[count++] = "--shallow-file";
		words[count++] = "";
	}
	words[count++] = "pack-objects";
	words[count++] = "--revs";
	words[count++] = "--stdout";
	if (is_cut)
		words[count++] = "--shallow";
	if (gitwire_host_flag(host, GITWIRE_FLAG_THIN_PACK))
		words[count++] = "--thin";
	if (!gitwire_host_flag(host, GITWIRE_FLAG_NO_PROGRESS))
		words[count++] = "--progress";
	if (gitwire_host_flag(host, GITWIRE_FLAG_OFS_DELTA))
		words[count++] = "--delta-base-offset";
	if (gitwire_host_flag(host, GITWIRE_FLAG_INCLUDE_TAG))
		words[count++] = "--include-tag";
	snprintf(filter, sizeof filter, "--filter=%s", spec == NULL ? "" : spec);
	if (spec != NULL)
		words[count++] = filter;
	start(pack, TO_PIPE, words);
}

/* Shows the messages of a command to whoever runs this server: they may quote what a client sent. */
static void show_messages(const uint8_t *bytes, size_t length)
{
	while (length > 0) {
		const uint8_t *end = (const uint8_t *)memchr(bytes, '\n', length);
		size_t shown = end == NULL ? length : (size_t)(end - bytes), used = shown + (end != NULL);

		fputs(PROGRAM ": ", stderr);
		show_bytes(stderr, bytes, shown);
		fputc('\n', stderr);
		bytes += used;
		length -= used;
	}
}

/* Passes on what can be read of the pack, or else of its progress, which is for the client unless it wants none: false at the end. */
static bool pass_on(int from, bool is_pack)
{
	static uint8_t bytes[GITWIRE_PAYLOAD_SIZE - 1]; /* as much as a packet has after its band */
	ssize_t length = read(from, bytes, sizeof bytes);
	gitwire_answer answer;

	if (!is_pack && length > 0 && gitwire_host_flag(host, GITWIRE_FLAG_NO_PROGRESS)) {
		show_messages(bytes, (size_t)length);
		return true;
	}
	for (size_t at = 0; length > 0 && at < (size_t)length; at += answer.used) {
		size_t left = (size_t)length - at;

		answer = is_pack ? gitwire_host_pack(host, bytes + at, left, buffer(), GITWIRE_PACKET_SIZE)
			: gitwire_host_progress(host, (const char *)bytes + at, left, buffer(), GITWIRE_PACKET_SIZE);
		give(answer);
	}
	if (length < 0 && errno != EINTR)
		fail("the output of git pack-objects cannot be read");
	return length != 0;
}

/* The pack as it comes, and the messages of pack-objects as progress. Progress goes first, so that it is seen in time. */
static void answer_pack(void)
{
	bool is_cut = shallows.length + client_boundary.length > 0, is_open[2] = { true, true };
	struct command pack;

	start_pack(&pack, is_cut);
	is_open[1] = pack.messages >= 0;
	widen(fileno(pack.input), 1 << 20);
	write_revisions(pack.input, is_cut);
	end_input(&pack);
	while (is_open[0] || is_open[1]) {
		struct pollfd ready[3] = { { is_open[0] ? fileno(pack.output) : -1, POLLIN, 0 }, { is_open[1] ? pack.messages : -1, POLLIN, 0 },
			{ STDOUT_FILENO, 0, 0 } };

		flush_output();
		if (poll(ready, 3, -1) < 0 && errno != EINTR)
			fail("poll");
		if (ready[2].revents != 0)
			stop("the client is gone");
		if (ready[1].revents != 0)
			is_open[1] = pass_on(pack.messages, false);
		else if (ready[0].revents != 0)
			is_open[0] = pass_on(fileno(pack.output), true);
	}
	if (end(&pack) != 0)
		fail("git pack-objects failed");
	give(gitwire_host_pack_end(host, buffer(), GITWIRE_PACKET_SIZE));
}

static void answer_size(uint64_t at)
{
	struct found found = { "", "", 0 };
	bool is_there = find(item(GITWIRE_LIST_OIDS, at), &found);

	give(gitwire_host_size(host, is_there, found.size, buffer(), GITWIRE_PACKET_SIZE));
}

/* Answers a question of the library. Whether an object exists was looked up when the request came. */
static void answer_need(gitwire_answer need)
{
	char id[GITWIRE_OBJECT_NAME_SIZE + 1] = "";

	switch (need.kind) {
	case GITWIRE_ASKED:
		admit(gitwire_host_command(host));
		return;
	case GITWIRE_NEED_REFERENCE:
		answer_references();
		return;
	case GITWIRE_NEED_WANT:
		give(gitwire_host_want(host, true, buffer(), GITWIRE_PACKET_SIZE));
		return;
	case GITWIRE_NEED_WANT_REF:
		find_wanted(item(GITWIRE_LIST_WANT_REFS, need.offset), id); /* which stays empty if there is none */
		give(gitwire_host_want_ref(host, id, strlen(id), buffer(), GITWIRE_PACKET_SIZE));
		return;
	case GITWIRE_NEED_HAVE:
		give(gitwire_host_have(host, has_name(&common, item(GITWIRE_LIST_HAVES, need.offset)), buffer(), GITWIRE_PACKET_SIZE));
		return;
	case GITWIRE_NEED_READY:
		give(gitwire_host_ready(host, is_enough_common(), buffer(), GITWIRE_PACKET_SIZE));
		return;
	case GITWIRE_NEED_BOUNDARY:
		answer_boundary();
		return;
	case GITWIRE_NEED_SIZE:
		answer_size(need.offset);
		return;
	case GITWIRE_NEED_PACK:
		answer_pack();
		return;
	default:
		stop("no memory");
	}
}

/* Feeds what the client sent, or closes at its end. */
static void receive(void)
{
	static uint8_t bytes[65536];
	static size_t at, length;
	ssize_t got;

	if (at == length) {
		flush_output();
		alarm(timeout);
		while ((got = read(STDIN_FILENO, bytes, sizeof bytes)) < 0 && can_try_again(STDIN_FILENO, POLLIN))
			continue;
		alarm(0);
		if (got < 0)
			stop("the input cannot be read");
		at = 0;
		length = (size_t)got;
	}
	if (length == 0)
		gitwire_host_close(host);
	else
		at += gitwire_host_feed(host, bytes + at, length - at).used;
}

/* Answers requests until the client leaves, or one alone, or none. */
static int serve(size_t most_requests)
{
	for (;;) {
		gitwire_answer next = gitwire_host_pull(host, buffer(), GITWIRE_PACKET_SIZE);

		if (next.kind == GITWIRE_PACKET) {
			give(next);
		} else if (next.kind == GITWIRE_NEED_INPUT && most_requests > 0) {
			receive();
		} else if (next.kind == GITWIRE_NEED_INPUT || next.kind == GITWIRE_ENDED_BY_FLUSH || next.kind == GITWIRE_ENDED_BY_CLOSE) {
			flush_output();
			return 0;
		} else if (next.kind == GITWIRE_FAILED) {
			flush_output();
			fprintf(stderr, PROGRAM ": %s at %" PRIu64 "\n", gitwire_fault_name(next.fault), next.offset);
			return 128;
		} else {
			most_requests -= next.kind == GITWIRE_ASKED && most_requests != SIZE_MAX;
			answer_need(next);
		}
	}
}

/* What the owner of the repository lets clients ask for. */
static uint32_t features(void)
{
	uint32_t all = GITWIRE_FEATURES_ALL;

	if (strcasecmp(setting("lsrefs.unborn", "advertise"), "advertise") != 0)
		all &= ~(uint32_t)GITWIRE_FEATURE_UNBORN;
	if (!is_set("uploadpack.allowfilter", false))
		all &= ~(uint32_t)GITWIRE_FEATURE_FILTER;
	if (!is_set("uploadpack.allowrefinwant", false))
		all &= ~(uint32_t)GITWIRE_FEATURE_REF_IN_WANT;
	if (!is_set("transfer.advertiseobjectinfo", true))
		all &= ~(uint32_t)GITWIRE_FEATURE_OBJECT_INFO;
	return all;
}

/* Prepares what was inherited for this program: signals, and the descriptors that no pipe may get. */
static bool begin(void)
{
	sigset_t none;
	bool is_well = true;

	sigemptyset(&none);
	sigprocmask(SIG_SETMASK, &none, NULL);
	signal(SIGPIPE, SIG_IGN); /* a client that is gone is noticed by a write that fails */
	signal(SIGCHLD, SIG_DFL);
	signal(SIGALRM, SIG_DFL);
	for (int i = 0; i < 3; i++)
		is_well &= fcntl(i, F_GETFD) >= 0 || open("/dev/null", O_RDWR) == i;
	return is_well;
}

/* Reports that there is no such repository, in the words that users know: a backslash stays one, as in Git's own message. */
static void report_no_repository(const char *name)
{
	fputs("fatal: '", stderr);
	for (const char *end; (end = strchr(name, '\\')) != NULL; name = end + 1) {
		show_bytes(stderr, name, (size_t)(end - name));
		fputc('\\', stderr);
	}
	show_bytes(stderr, name, strlen(name));
	fputs("' does not appear to be a git repository\n", stderr);
}

/* The agent that GIT_USER_AGENT names for Git's own programs too: as there, the ends are trimmed, and a byte that is not printable becomes a dot.
 * What is too long is cut. */
static void read_agent(char agent[GITWIRE_AGENT_SIZE + 1])
{
	static const char blanks[] = " \t\n\v\f\r";
	const char *named = getenv("GIT_USER_AGENT");
	size_t length;

	snprintf(agent, GITWIRE_AGENT_SIZE + 1, "%s", named == NULL ? "" : named + strspn(named, blanks));
	for (length = strlen(agent); length > 0 && strchr(blanks, agent[length - 1]) != NULL; length--)
		agent[length - 1] = 0;
	for (; *agent != 0; agent++)
		if (*agent <= ' ' || *agent >= 127)
			*agent = '.';
}

int main(int count, char **words)
{
	bool strict = false, stateless = false, advertise = false;
	char agent[GITWIRE_AGENT_SIZE + 1];
	gitwire_format format;
	int at = 1;

	for (; at < count && strncmp(words[at], "--", 2) == 0; at++)
		if (strcmp(words[at], "--stateless-rpc") == 0)
			stateless = true;
		else if (strcmp(words[at], "--http-backend-info-refs") == 0 || strcmp(words[at], "--advertise-refs") == 0)
			advertise = true;
		else if (strcmp(words[at], "--strict") == 0 || strcmp(words[at], "--no-strict") == 0)
			strict = words[at][2] == 's';
		else if (strncmp(words[at], "--timeout=", 10) == 0)
			timeout = (unsigned)strtoul(words[at] + 10, NULL, 10);
		else
			break;
	if (at == count - 2 && strcmp(words[at], "--") == 0)
		at++;
	else if (at < count && words[at][0] == '-')
		at = count;
	if (at != count - 1) {
		fputs("usage: upload-pack [--stateless-rpc] [--http-backend-info-refs] [--timeout=N] [--strict] FOLDER\n", stderr);
		return 129;
	}
	if (!begin())
		return 128;
	if (!enter(words[at], strict, &format)) {
		report_no_repository(words[at]);
		return 128;
	}
	read_space();
	read_agent(agent);
	if (gitwire_host_new_named(&host, format, features(), GITWIRE_DEFAULT_LIMIT, advertise || !stateless, agent, strlen(agent)) != GITWIRE_DONE)
		stop("no memory");
	return serve(advertise ? 0 : stateless ? 1 : SIZE_MAX);
}
