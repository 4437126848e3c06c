/*
 * The answer to a request for references: all of them, all branches or tags, or those that match a few patterns, which are made from
 * prefixes. The library leaves out what the request does not ask for.
 */
#include "session.h"

static bool begins(const char *text, const char *prefix)
{
	return strncmp(text, prefix, strlen(prefix)) == 0;
}

/* The objects of the references that this session has listed: they exist. A clone wants exactly these, so they are not looked up again. */
enum { MOST_LISTED = 16384 };
static struct names listed_objects;

/* Reports a reference by its whole name; a target or a peeled object is empty if there is none. */
static void answer_reference(const char *id, const char *name, const char *target, const char *peeled)
{
	const char *leads = is_in_space(target) ? target + strlen(space) : "", *shown;
	gitwire_answer answer;

	if (!is_in_space(name) || is_hidden(name))
		return;
	shown = name + strlen(space);
	answer = gitwire_host_reference(host, id, strlen(id), shown, strlen(shown), leads, strlen(leads), peeled, strlen(peeled), buffer(),
		GITWIRE_PACKET_SIZE);
	if (answer.kind == GITWIRE_FAILED || answer.kind == GITWIRE_OUT_OF_ORDER)
		fail("a reference that no answer may have");
	give(answer);
	if (listed_objects.length < MOST_LISTED)
		add_name(&listed_objects, id);
}

/* `HEAD` that leads to no object, with its target. */
static void answer_unborn(const char *name, const char *target)
{
	if (*target != 0 && is_in_space(target) && !is_hidden(name))
		give(gitwire_host_unborn(host, target + strlen(space), strlen(target) - strlen(space), buffer(), GITWIRE_PACKET_SIZE));
}

/* `HEAD`, which comes before all others. */
static void answer_head(void)
{
	static char target[LINE_SIZE];
	char name[sizeof space + 4];
	struct found found, peeled;
	struct command head;

	start_head(&head, space, name, sizeof name);
	receive_head(&head, target, sizeof target);
	if (!find_head(name, target, &found))
		answer_unborn(name, target);
	else if (strcmp(found.type, "tag") != 0)
		answer_reference(found.id, name, target, "");
	else if (find_peeled(found.id, &peeled))
		answer_reference(found.id, name, target, peeled.id);
	else
		fail("HEAD leads to no object");
}

/* Cuts a line that begins with an object and a name. Returns what comes after the object, which is copied to `id`. */
static char *cut_line(char *line, char *id)
{
	size_t digits = strcspn(line, " ");

	if (!begins_with_name(line))
		fail("a line of a reference is none");
	memcpy(id, line, digits);
	id[digits] = 0;
	return line + digits + 1;
}

/* Reports the references of these lines of `git for-each-ref`, each an object, a name and a target that may be empty: no more than a batch. */
static void answer_lines(const struct texts *lines)
{
	char id[GITWIRE_OBJECT_NAME_SIZE + 1], *name, *target;
	bool is_tag[BATCH];
	struct found found;

	if (lines->length == 0)
		return;
	for (size_t i = 0; i < lines->length; i++) {
		cut_line(lines->at[i], id);
		ask_for("info", id);
	}
	ask_now();
	for (size_t i = 0; i < lines->length; i++) {
		if (!receive_found(&found))
			fail("a reference leads to no object");
		is_tag[i] = strcmp(found.type, "tag") == 0;
	}
	for (size_t i = 0; i < lines->length; i++) {
		target = cut_line(lines->at[i], id);
		name = strsep(&target, " ");
		if (is_tag[i] && !find_peeled(id, &found))
			fail("a reference leads to no object");
		answer_reference(id, name, target, is_tag[i] ? found.id : "");
	}
}

/*
 * Whether this is a line of a reference. Other lines are messages of Git, in the words of the C locale: they are passed on, and if Git
 * skips a damaged reference there is no answer.
 */
static bool is_reference(const char *line)
{
	if (begins_with_name(line) && strchr(strchr(line, ' ') + 1, ' ') != NULL)
		return true;
	fprintf(stderr, "%s\n", line);
	if (begins(line, "warning: ignoring ") || begins(line, "error: "))
		fail("a reference is damaged");
	return false;
}

/* The references that these patterns match, by `git for-each-ref`, which looks at no others. */
static void answer_matching(const struct texts *patterns)
{
	const char *words[5 + 2 * PATTERNS + 1] = { "git", "for-each-ref", "--sort=refname", "--format=%(objectname) %(refname) %(symref)", "--" };
	struct texts lines = no_texts;
	struct command listed;

	if (patterns->length == 0)
		return;
	for (size_t i = 0; i < patterns->length; i++)
		words[5 + i] = patterns->at[i];
	start_alone(&listed, TO_OUTPUT, words);
	for (char *line; (line = next_line(&listed)) != NULL;) {
		if (is_reference(line))
			add_text(&lines, "%s", line);
		if (lines.length == BATCH) {
			answer_lines(&lines);
			clear_texts(&lines);
		}
	}
	if (end(&listed) != 0)
		fail("git for-each-ref failed");
	answer_lines(&lines);
	clear_texts(&lines);
}

/* A reference of `git show-ref`, which prints the object of a tag on a line after it; and the first line after that, or NULL. */
struct shown {
	char id[GITWIRE_OBJECT_NAME_SIZE + 1], peeled[GITWIRE_OBJECT_NAME_SIZE + 1], name[LINE_SIZE];
	char *next;
	bool is_none;
};

static void read_shown(struct command *from, struct shown *shown)
{
	const char *name;
	size_t length;

	*shown->peeled = 0;
	shown->is_none = shown->next == NULL;
	if (shown->is_none)
		return;
	name = cut_line(shown->next, shown->id);
	if ((length = strlen(name)) >= LINE_SIZE)
		fail("a reference that no answer may have");
	memcpy(shown->name, name, length + 1);
	shown->next = next_line(from);
	if (shown->next != NULL && strcmp(shown->next + strlen(shown->next) - strnlen(shown->next, 3), "^{}") == 0) {
		cut_line(shown->next, shown->peeled);
		shown->next = next_line(from);
	}
}

/*
 * The object that a reference to this object peels to, if that is a tag. `git show-ref` prints references in their order unless the file of
 * packed ones has another order, and it may see one that has changed meanwhile: what it does not print here is looked up.
 */
static const char *peeled_in(struct command *from, struct shown *shown, const char *id, const char *name)
{
	static struct found found;

	while (!shown->is_none && strcmp(shown->name, name) < 0)
		read_shown(from, shown);
	if (!shown->is_none && strcmp(shown->name, name) == 0 && strcmp(shown->id, id) == 0)
		return shown->peeled;
	if (!find(id, &found))
		fail("a reference leads to no object");
	if (strcmp(found.type, "tag") != 0)
		return "";
	if (!find_peeled(id, &found))
		fail("a reference leads to no object");
	return found.id;
}

/* `HEAD` of the namespace, and its target, which is empty if it is not symbolic. */
struct head {
	char name[sizeof space + 4], target[LINE_SIZE];
};

/* Reports `HEAD`, which `git show-ref --head` prints first, with an object; or else, with NULL, as unborn. */
static void answer_shown_head(const struct head *head, const char *id, const char *peeled)
{
	if (id != NULL)
		answer_reference(id, head->name, head->target, peeled);
	else
		answer_unborn(head->name, head->target);
}

/* Starts `git show-ref`, which prints the objects of tags too, if they are asked for: those of packed references it knows without a look. */
static void start_shown(struct command *shown, bool heads, bool tags)
{
	const char *words[7] = { "git", "show-ref", "--head" };
	size_t count = 3;

	if (gitwire_host_flag(host, GITWIRE_FLAG_PEEL))
		words[count++] = "-d";
	if (heads)
		words[count++] = "--heads";
	if (tags)
		words[count++] = "--tags";
	start_alone(shown, TO_ERRORS, words);
}

/* Ends it; its status is 1 if there is no reference. It fails for a damaged one. */
static void end_shown(struct command *shown, bool is_empty)
{
	if (end(shown) != (is_empty ? 1 : 0))
		fail("the references cannot be read");
}

/*
 * The references that `git show-ref` prints, in the order in which `git for-each-ref` prints them, with their targets. The second takes three
 * times as long as the first, and skips a damaged reference.
 */
static void answer_by_two(struct command *first, const struct head *head, bool heads, bool tags)
{
	static struct shown shown;
	const char *words[7] = { "git", "for-each-ref", "--sort=refname", "--format=%(objectname) %(refname) %(symref)" };
	char id[GITWIRE_OBJECT_NAME_SIZE + 1], *line, *reference;
	bool peels = gitwire_host_flag(host, GITWIRE_FLAG_PEEL), is_empty;
	struct command second;
	size_t count = 4;

	if (heads)
		words[count++] = "refs/heads/";
	if (tags)
		words[count++] = "refs/tags/";
	start_alone(&second, TO_ERRORS, words);
	shown.next = next_line(first);
	read_shown(first, &shown);
	is_empty = shown.is_none;
	answer_shown_head(head, !is_empty && strcmp(shown.name, head->name) == 0 ? shown.id : NULL, shown.peeled);
	while ((line = next_line(&second)) != NULL) {
		line = cut_line(line, id);
		reference = strsep(&line, " ");
		answer_reference(id, reference, line, peels ? peeled_in(first, &shown, id, reference) : "");
	}
	while (!shown.is_none)
		read_shown(first, &shown);
	if (end(&second) != 0)
		fail("the references cannot be read");
	end_shown(first, is_empty);
}

/* The references that `git show-ref` prints, if they are in order, and none but `HEAD` is symbolic, since it prints no targets. */
static void answer_by_one(struct command *first, const struct head *head)
{
	static struct shown shown;
	bool is_empty, is_head;

	shown.next = next_line(first);
	read_shown(first, &shown);
	is_empty = shown.is_none;
	is_head = !is_empty && strcmp(shown.name, head->name) == 0;
	answer_shown_head(head, is_head ? shown.id : NULL, shown.peeled);
	if (is_head)
		read_shown(first, &shown);
	for (; !shown.is_none; read_shown(first, &shown))
		answer_reference(shown.id, shown.name, "", shown.peeled);
	end_shown(first, is_empty);
}

/* Whether a reference of this list may be symbolic. */
static bool lists_symbolic(bool heads, bool tags)
{
	if (!heads && !tags)
		return has_symbolic("refs");
	return (heads && has_symbolic("refs/heads")) || (tags && has_symbolic("refs/tags"));
}

/* All references, or only the branches, the tags, or both. The commands run at a time. */
static void answer_all(bool heads, bool tags)
{
	static struct head head;
	struct command target, shown;
	bool is_enough;

	start_shown(&shown, heads, tags);
	be_patient(&shown);
	start_head(&target, space, head.name, sizeof head.name);
	is_enough = !lists_symbolic(heads, tags) && is_packed_in_order();
	receive_head(&target, head.target, sizeof head.target);
	if (is_enough)
		answer_by_one(&shown, &head);
	else
		answer_by_two(&shown, &head, heads, tags);
}

/* What a request asks for. */
struct asked {
	bool head, all;              /* `HEAD`; all references */
	bool heads, tags, others;    /* some branches, some tags, some others */
	bool whole;                  /* all branches or all tags */
	struct texts patterns;
};

static void note_prefix(struct asked *asked, const char *prefix)
{
	bool is_head = begins(prefix, "refs/heads/"), is_tag = begins(prefix, "refs/tags/"), is_folder;

	asked->head |= begins("HEAD", prefix);
	asked->all |= begins("refs/", prefix) || asked->patterns.length + 2 > 2 * PATTERNS;
	if (asked->all || !is_pattern(prefix))
		return;
	asked->heads |= is_head;
	asked->tags |= is_tag;
	asked->others |= !is_head && !is_tag;
	asked->whole |= strcmp(prefix, "refs/heads/") == 0 || strcmp(prefix, "refs/tags/") == 0;
	is_folder = prefix[strlen(prefix) - 1] == '/';
	add_text(&asked->patterns, "%s%s%s", space, prefix, is_folder ? "" : "*");
	if (!is_folder)
		add_text(&asked->patterns, "%s%s*/**", space, prefix);
}

/* Reports the references that a request asks for, and perhaps others, which the library leaves out. */
static void answer_references(void)
{
	bool all = item(GITWIRE_LIST_REF_PREFIXES, 0) == NULL; /* without a prefix, `HEAD` too */
	struct asked asked = { all, all, false, false, false, false, no_texts };
	const char *prefix;

	for (size_t i = 0; (prefix = item(GITWIRE_LIST_REF_PREFIXES, i)) != NULL; i++)
		note_prefix(&asked, prefix);
	if (asked.all && *space != 0) {
		clear_texts(&asked.patterns);
		add_text(&asked.patterns, "%srefs/", space);
	}
	if (*space == 0 && (asked.all || (asked.whole && !asked.others))) {
		answer_all(asked.heads && !asked.all, asked.tags && !asked.all);
	} else {
		if (asked.head)
			answer_head();
		answer_matching(&asked.patterns);
	}
	clear_texts(&asked.patterns);
	give(gitwire_host_references_end(host, buffer(), GITWIRE_PACKET_SIZE));
}
