/*
 * A Git repository on disk: its settings, its references by their names, and how it is entered. What a client sends reaches commands of Git by
 * their input, as a part of a longer word, or as a pattern that begins with `refs/`, and never as a word of its own that could be an option.
 */
#include "objects.h"
#include "texts.h"

#include <errno.h>
#include <fcntl.h>
#include <ftw.h>
#include <limits.h>
#include <strings.h>
#include <sys/stat.h>

#define LINE_SIZE (2 * GITWIRE_REFERENCE_NAME_SIZE)

static char *configuration;         /* each KEY LF VALUE NUL, or KEY NUL, in order */
static size_t configuration_length;
static char space[4096];            /* the prefix of the references' names in the namespace that is served */
static struct texts hidden;         /* the values of the settings of hidden references, in order */
static bool is_worktree;            /* whether it shares the references of another repository */

/*
 * The next setting of this key after `last`, or the first one after NULL. Returns its value, which is empty if it has none; NULL if there
 * is no such setting.
 */
static const char *next_value(const char *key, const char *last)
{
	const char *entry = last == NULL ? configuration : last + strlen(last) + 1;
	size_t length = strlen(key);

	for (; entry < configuration + configuration_length; entry += strlen(entry) + 1)
		if (strncmp(entry, key, length) == 0 && (entry[length] == '\n' || entry[length] == 0))
			return entry[length] == 0 ? entry + length : entry + length + 1;
	return NULL;
}

/* The last value of the key, or else this. */
static const char *setting(const char *key, const char *otherwise)
{
	for (const char *value = NULL; (value = next_value(key, value)) != NULL;)
		otherwise = value;
	return otherwise;
}

static bool is_set(const char *key, bool otherwise)
{
	const char *value = setting(key, otherwise ? "true" : "false");

	if (*value == 0)
		return value[-1] != '\n'; /* a key alone */
	return strcasecmp(value, "true") == 0 || strcasecmp(value, "yes") == 0 || strcasecmp(value, "on") == 0 || strtol(value, NULL, 10) != 0;
}

/* Reads all that the configuration has, a few kilobytes, from `git config -z --list`. */
static void read_configuration(struct command *command)
{
	FILE *kept = open_memstream(&configuration, &configuration_length);
	char bytes[4096];
	size_t length;

	while (kept != NULL && (length = fread(bytes, 1, sizeof bytes, command->output)) > 0)
		fwrite(bytes, 1, length, kept);
	if (end(command) != 0 || kept == NULL || fclose(kept) != 0)
		fail("the configuration cannot be read");
	for (const char *entry = configuration; entry < configuration + configuration_length; entry += strlen(entry) + 1)
		if (strncmp(entry, "transfer.hiderefs\n", 18) == 0 || strncmp(entry, "uploadpack.hiderefs\n", 20) == 0)
			add_text(&hidden, "%s", strchr(entry, '\n') + 1);
}

/* A program that the owner of this machine wants to be started in the place of `git`, for packs. A setting of the repository itself is not used. */
static bool find_hook(char *hook, size_t size)
{
	static const char *const words[] = { "git", "--git-dir=/nonexistent", "config", "uploadpack.packobjectshook", NULL };
	struct command command;

	if (next_value("uploadpack.packobjectshook", NULL) == NULL)
		return false;
	start_alone(&command, TO_ERRORS, words);
	return answer_of(&command, hook, size) && *hook != 0;
}

/* Whether a reference, by its whole name, is in the namespace that is served. */
static bool is_in_space(const char *name)
{
	return strncmp(name, space, strlen(space)) == 0;
}

/* Whether a setting of hidden references applies to this name: after a `^` to the whole name, and otherwise to the one in the namespace. */
static bool is_hidden_by(const char *pattern, const char *name)
{
	size_t length;

	if (*pattern == '^')
		pattern++;
	else if (is_in_space(name))
		name += strlen(space);
	else
		return false;
	for (length = strlen(pattern); length > 0 && pattern[length - 1] == '/';)
		length--;
	return strncmp(name, pattern, length) == 0 && (name[length] == 0 || name[length] == '/');
}

/* Whether a reference, by its whole name, is hidden: the last setting that applies to it counts. */
static bool is_hidden(const char *name)
{
	for (size_t i = hidden.length; i > 0; i--) {
		const char *pattern = hidden.at[i - 1];

		if (is_hidden_by(pattern + (*pattern == '!'), name))
			return *pattern != '!';
	}
	return false;
}

/* How many files may be looked into for symbolic references, so that a repository with many loose references costs no more. */
enum { MOST_FILES = 256 };
static size_t files_seen;

/* Whether this file below `refs` is, or may be, a symbolic reference. Returns 1 to end the search, and 0 to go on. */
static int may_be_symbolic(const char *path, const struct stat *state, int kind, struct FTW *place)
{
	char beginning[4];
	int file;
	ssize_t length;

	(void)place;
	if (kind == FTW_D)
		return 0;
	if (kind != FTW_F || !S_ISREG(state->st_mode) || files_seen++ == MOST_FILES)
		return 1;
	file = open(path, O_RDONLY | O_CLOEXEC | O_NOFOLLOW);
	if (file < 0)
		return errno != ENOENT; /* it may have been packed meanwhile */
	length = read(file, beginning, sizeof beginning);
	close(file);
	return length < 0 || (length == sizeof beginning && memcmp(beginning, "ref:", sizeof beginning) == 0);
}

/*
 * Whether a reference in this folder may be symbolic. Where Git keeps references in files, each of those has a file of its own that begins
 * with `ref:` or is a link: it is never packed.
 */
static bool has_symbolic(const char *folder)
{
	int result;

	files_seen = 0;
	if (is_worktree || strcmp(setting("extensions.refstorage", "files"), "files") != 0)
		return true;
	result = nftw(folder, may_be_symbolic, 16, FTW_PHYS);
	return result > 0 || (result < 0 && (access(folder, F_OK) == 0 || errno != ENOENT)); /* there may be no such folder */
}

/* Whether the packed references are in order, as Git writes them: `git show-ref` prints them as their file has them, and another hand may write one. */
static bool is_packed_in_order(void)
{
	static char line[LINE_SIZE], last[LINE_SIZE];
	FILE *file = fopen("packed-refs", "re");
	bool is_in_order = true;
	const char *name;

	if (file == NULL)
		return errno == ENOENT;
	*last = 0;
	while (is_in_order && fgets(line, sizeof line, file) != NULL) {
		if (*line == '#' || *line == '^')
			continue;
		name = strchr(line, ' ');
		is_in_order = name != NULL && strcmp(last, name) < 0;
		if (is_in_order)
			strcpy(last, name);
	}
	is_in_order &= !ferror(file);
	fclose(file);
	return is_in_order;
}

/* HEAD of a namespace, whose name fits into `name`. Its target is received next, or an empty text if it is not symbolic. */
static void start_head(struct command *command, const char *within, char *name, size_t size)
{
	const char *const words[] = { "git", "symbolic-ref", "-q", "--", name, NULL };

	snprintf(name, size, "%sHEAD", within);
	start_alone(command, TO_ERRORS, words);
}

static void receive_head(struct command *command, char *target, size_t size)
{
	if (!answer_of(command, target, size))
		*target = 0;
}

/* Whether a text can be a pattern of references: it has no byte with a meaning in patterns. */
static bool is_pattern(const char *text)
{
	return strncmp(text, "refs/", 5) == 0 && strpbrk(text, "*?[\\ ") == NULL;
}

/* The maximum number of names or patterns of references in one request to Git. If more are wanted, all references are read. */
enum { PATTERNS = 16 };

static int compare_texts(const void *one, const void *other)
{
	return strcmp(*(char *const *)one, *(char *const *)other);
}

static int compare_to_line(const void *name, const void *line)
{
	return strcmp((const char *)name, strchr(*(char *const *)line, ' ') + 1);
}

/* Adds a line `ID NAME` for each of these whole names that is a reference. The names are in order. */
static void find_references(struct texts *names, struct texts *lines)
{
	const char *words[4 + PATTERNS + 1] = { "git", "for-each-ref", "--format=%(objectname) %(refname)", "--" };
	struct command command;

	for (size_t i = 0; names->length <= PATTERNS && i < names->length; i++)
		words[4 + i] = names->at[i];
	if (names->length == 0)
		return;
	qsort(names->at, names->length, sizeof *names->at, compare_texts);
	start_alone(&command, TO_ERRORS, words);
	for (char *line, *name; (line = next_line(&command)) != NULL;) {
		if ((name = strchr(line, ' ')) == NULL)
			fail("git for-each-ref prints no line of a reference");
		name++;
		if (bsearch(&name, names->at, names->length, sizeof *names->at, compare_texts) != NULL)
			add_text(lines, "%s", line);
	}
	if (end(&command) != 0)
		fail("git for-each-ref failed");
}

/* The object of the reference with exactly this name in such lines; false if there is none. */
static bool find_reference(const struct texts *lines, const char *name, char *id)
{
	char *const *line = NULL;

	if (lines->length > 0)
		line = (char *const *)bsearch(name, lines->at, lines->length, sizeof *lines->at, compare_to_line);
	if (line != NULL)
		snprintf(id, GITWIRE_OBJECT_NAME_SIZE + 1, "%.*s", (int)strcspn(*line, " "), *line);
	return line != NULL;
}

/*
 * The object of HEAD by its name and target; false if it is unborn. Git would then take the name for that of another reference, as refs/tags/HEAD, so
 * what HEAD stands for is looked up by its whole name before.
 */
static bool find_head(const char *name, const char *target, struct found *found)
{
	const char *whole = *target != 0 ? target : name;
	struct texts names = no_texts, lines = no_texts;
	bool may_be_unborn = is_pattern(whole), is_there;

	if (may_be_unborn) {
		add_text(&names, "%s", whole);
		find_references(&names, &lines);
	}
	is_there = (!may_be_unborn || lines.length > 0) && find(name, found);
	if (!is_there && (!may_be_unborn || lines.length > 0))
		fail("HEAD leads to no object");
	clear_texts(&names);
	clear_texts(&lines);
	return is_there;
}

/* The object of HEAD of a namespace, or of the repository; false if it is unborn. */
static bool find_head_in(const char *within, struct found *found)
{
	static char target[LINE_SIZE];
	char name[sizeof space + 4];
	struct command head;

	start_head(&head, within, name, sizeof name);
	receive_head(&head, target, sizeof target);
	return find_head(name, target, found);
}

/*
 * Whether this is the folder of a repository, or a file that leads to one, whose folder is then in `path`. If the file belongs to another
 * user than that of this process, it leads to none: the folder could be any that this user may read.
 */
static bool leads_to_repository(char *path, size_t size)
{
	char line[PATH_MAX], inner[PATH_MAX + 16];
	struct stat state;
	size_t folder = (size_t)(strrchr(path, '/') == NULL ? 0 : strrchr(path, '/') - path + 1);
	bool is_line;
	FILE *file;

	if (stat(path, &state) != 0)
		return false;
	if (S_ISREG(state.st_mode)) {
		file = fopen(path, "r");
		is_line = file != NULL && fstat(fileno(file), &state) == 0 && (state.st_uid == geteuid() || state.st_uid == 0)
			&& fgets(line, sizeof line, file) != NULL && strncmp(line, "gitdir: ", 8) == 0;
		if (file != NULL)
			fclose(file);
		if (!is_line)
			return false;
		line[strcspn(line, "\n")] = 0;
		if (line[8] == '/')
			folder = 0;
		if ((size_t)snprintf(path + folder, size - folder, "%s", line + 8) >= size - folder)
			return false;
	}
	snprintf(inner, sizeof inner, "%s/HEAD", path);
	return lstat(inner, &state) == 0;
}

/* Reads the facts about the repository in this folder: its object format, and where its history is cut off. False if this folder has none. */
static bool read_repository(gitwire_format *format)
{
	static const char *const ask[] = { "git", "-c", "safe.bareRepository=all", "rev-parse", "--git-dir", "--show-object-format",
		"--git-common-dir", "--git-path", "shallow", NULL };
	static const char *const settings[] = { "git", "-c", "safe.bareRepository=all", "config", "-z", "--list", NULL };
	char line[GITWIRE_OBJECT_NAME_SIZE + 2], *answer;
	struct command command, configured;
	FILE *boundary;
	bool is_here;

	start_alone(&command, TO_ERRORS, ask);
	start_alone(&configured, TO_ERRORS, settings); /* meanwhile */
	is_here = (answer = next_line(&command)) != NULL && strcmp(answer, ".") == 0;
	*format = (answer = next_line(&command)) != NULL && strcmp(answer, "sha256") == 0 ? GITWIRE_SHA256 : GITWIRE_SHA1;
	is_worktree = (answer = next_line(&command)) == NULL || strcmp(answer, ".") != 0;
	boundary = (answer = next_line(&command)) == NULL ? NULL : fopen(answer, "r");
	while (boundary != NULL && fgets(line, sizeof line, boundary) != NULL) {
		line[strcspn(line, "\n")] = 0;
		add_name(&own_boundary, line);
	}
	if (boundary != NULL)
		fclose(boundary);
	if (end(&command) != 0 || !is_here)
		return false;
	read_configuration(&configured);
	return true;
}

/*
 * Enters the repository that Git finds by this name; with `strict` only under this very name. Git must not look further up, and it checks
 * whose folder it is.
 */
static bool enter(const char *name, bool strict, gitwire_format *format)
{
	static const char *const ends[] = { "/.git", "", ".git/.git", ".git" };
	char path[PATH_MAX];
	size_t length = strlen(name);

	while (!strict && length > 1 && name[length - 1] == '/')
		length--;
	for (size_t i = strict ? 1 : 0; length > 0 && i < (strict ? 2 : 4); i++) {
		if ((size_t)snprintf(path, sizeof path, "%.*s%s", (int)length, name, ends[i]) >= sizeof path || !leads_to_repository(path, sizeof path))
			continue;
		if (chdir(path) != 0 || getcwd(path, sizeof path) == NULL)
			return false;
		*strrchr(path, '/') = 0;
		setenv("GIT_CEILING_DIRECTORIES", path, 1);
		unsetenv("GIT_DIR");
		unsetenv("GIT_WORK_TREE");
		setenv("GIT_NO_REPLACE_OBJECTS", "1", 1);
		setenv("GIT_NO_LAZY_FETCH", "1", 0);
		return read_repository(format) && setenv("GIT_DIR", ".", 1) == 0;
	}
	return false;
}

/* The namespace that is served: `a/b` of the environment is `refs/namespaces/a/refs/namespaces/b/`. Git has checked it when it read the repository. */
static void read_space(void)
{
	const char *name = getenv("GIT_NAMESPACE");
	size_t length = 0;

	for (size_t part; name != NULL && *name != 0; name += part + (name[part] == '/')) {
		part = strcspn(name, "/");
		if (part > 0)
			length += (size_t)snprintf(space + length, sizeof space - length, "refs/namespaces/%.*s/", (int)part, name);
		if (length >= sizeof space)
			stop("a namespace that is too long");
	}
}
