/*
 * Objects of a repository, from one `git cat-file` that runs from the first look-up on. Many are looked up at a time, if there are many: a
 * batch fits into its pipe, and it answers a batch only when it has all of it, so that neither side waits for the other.
 */
#include "git_command.h"
#include "names.h"

enum { BATCH = 256 };

static struct command objects;
static struct names own_boundary; /* the commits at which the history of the repository itself is cut off */

struct found {
	char id[GITWIRE_OBJECT_NAME_SIZE + 1], type[16];
	unsigned long long size;
};

/* Requests an object by its digits or another name without a space: `info` for its type and size, `contents` for all of it. */
static void ask_for(const char *what, const char *name)
{
	static const char *const words[] = { "git", "cat-file", "--batch-command", "--buffer", NULL };

	if (objects.input == NULL)
		start(&objects, TO_ERRORS, words);
	fprintf(objects.input, "%s %s\n", what, name);
}

static void ask_now(void)
{
	if (fputs("flush\n", objects.input) < 0 || fflush(objects.input) != 0)
		fail("git cat-file ended");
}

/* Whether a line begins with the name of an object and a space. */
static bool begins_with_name(const char *line)
{
	size_t digits = strspn(line, "0123456789abcdef");

	return (digits == 40 || digits == GITWIRE_OBJECT_NAME_SIZE) && line[digits] == ' ';
}

/* Receives the facts about the next requested object; false if there is none. */
static bool receive_found(struct found *found)
{
	const char *line = next_line(&objects);

	if (line == NULL)
		fail("git cat-file ended");
	return begins_with_name(line) && sscanf(line, "%64s %15s %llu", found->id, found->type, &found->size) == 3;
}

static bool find(const char *name, struct found *found)
{
	ask_for("info", name);
	ask_now();
	return receive_found(found);
}

/* The object that a tag, or a tag of a tag, points to; any other object is itself. */
static bool find_peeled(const char *id, struct found *found)
{
	char peeled[GITWIRE_OBJECT_NAME_SIZE + 4];

	snprintf(peeled, sizeof peeled, "%.*s^{}", GITWIRE_OBJECT_NAME_SIZE, id);
	return find(peeled, found);
}

/*
 * Looks up all these names, each followed by `after`, which is empty or `^{}`, and adds those that exist to `into`: only those of this
 * type, or any if that is NULL. Returns the first that does not exist, or NULL.
 */
static const char *find_all(const struct names *names, const char *after, const char *type, struct names *into)
{
	const char *missing = NULL;
	char name[sizeof *names->at + 4];
	struct found found;

	for (size_t at = 0, end; at < names->length; at = end) {
		end = names->length - at > BATCH ? at + BATCH : names->length;
		for (size_t i = at; i < end; i++) {
			snprintf(name, sizeof name, "%s%s", names->at[i].digits, after);
			ask_for("info", name);
		}
		ask_now();
		for (size_t i = at; i < end; i++)
			if (!receive_found(&found))
				missing = missing == NULL ? names->at[i].digits : missing;
			else if (type == NULL || strcmp(found.type, type) == 0)
				add_name(into, found.id);
	}
	return missing;
}

/* Skips so many bytes of its output. */
static void pass_over(unsigned long long count)
{
	for (; count > 0; count--)
		if (getc_unlocked(objects.output) == EOF)
			fail("git cat-file ended");
}

/* Receives a commit of this name: its parents are added to `parents`, unless the history of the repository ends at it, and its date is returned. */
static uint64_t receive_commit(const char *id, struct names *parents)
{
	static char *line;
	static size_t size;
	struct found found;
	uint64_t date = 0;
	unsigned long long left;
	bool is_front = true; /* parents come right after the tree */

	if (!receive_found(&found) || strcmp(found.type, "commit") != 0)
		fail("a commit cannot be read");
	for (left = found.size + 1; left > 0;) { /* an LF follows it */
		ssize_t length = getline(&line, &size, objects.output);
		const char *end;

		if (length <= 0 || (unsigned long long)length > left)
			fail("git cat-file ended");
		left -= (unsigned long long)length;
		if (length == 1)
			break;
		line[length - 1] = 0;
		if (strncmp(line, "committer ", 10) == 0 && (end = strrchr(line, '>')) != NULL)
			date = strtoull(end + 1, NULL, 10);
		is_front = is_front && (strncmp(line, "tree ", 5) == 0 || strncmp(line, "parent ", 7) == 0);
		if (!is_front || strncmp(line, "parent ", 7) != 0 || has_name(&own_boundary, id))
			continue;
		if (strlen(line + 7) != strlen(id) || strspn(line + 7, "0123456789abcdef") != strlen(id))
			fail("a commit cannot be read");
		add_name(parents, line + 7);
	}
	pass_over(left);
	return date;
}

/* Reads these commits: the parents of all are added, and the earliest of their dates is returned. */
static uint64_t read_commits(const struct names *commits, struct names *parents)
{
	uint64_t least = UINT64_MAX, date;
	size_t end;

	for (size_t at = 0; at < commits->length; at = end) {
		end = commits->length - at > BATCH ? at + BATCH : commits->length;
		for (size_t i = at; i < end; i++)
			ask_for("contents", commits->at[i].digits);
		ask_now();
		for (size_t i = at; i < end; i++) {
			date = receive_commit(commits->at[i].digits, parents);
			least = date < least ? date : least;
		}
	}
	return least;
}
