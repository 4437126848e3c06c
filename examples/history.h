/* What a repository's history decides in a fetch: whether enough is common to make a pack, and the commits at which a shallow clone ends. */
#include "store.h"

/* The objects of the request, looked up in the repository. */
static struct names wants, common, excluded;
static struct names client_boundary; /* those of its commits whose parents the client does not have */

/* The result: the lines of the boundary. */
static struct names shallows, unshallows;

/* Starts `git rev-list` from these commits on, without those that the excluded ones lead to: parents come before children, each with all its parents. */
static void start_walk(struct command *walk, const struct names *from, const struct names *excluded, uint64_t since)
{
	char age[40];
	const char *words[] = { "git", "rev-list", "--parents", "--topo-order", "--reverse", "--stdin", since > 0 ? age : NULL, NULL };

	snprintf(age, sizeof age, "--max-age=%llu", (unsigned long long)since);
	start(walk, TO_ERRORS, words);
	write_names(walk->input, "", from);
	write_names(walk->input, "^", excluded);
	end_input(walk);
}

/* Adds the commits among these objects, and those that the tags among them point to. */
static void add_commits(const struct names *of, struct names *commits)
{
	struct names tags = no_names;

	find_all(of, "", "commit", commits);
	find_all(of, "", "tag", &tags);
	find_all(&tags, "^{}", "commit", commits);
	clear_names(&tags);
}

/* Whether a commit or a parent of it is known. */
static bool reaches(const struct names *known, const char *commit)
{
	struct names alone = no_names, parents = no_names;
	bool is_so = has_name(known, commit);

	add_name(&alone, commit);
	if (!is_so)
		read_commits(&alone, &parents);
	for (size_t i = 0; i < parents.length; i++)
		is_so |= has_name(known, parents.at[i].digits);
	clear_names(&alone);
	clear_names(&parents);
	return is_so;
}

/*
 * Whether each wanted commit is, or has among its ancestors, a commit that the client has by its own account, or a parent of such a commit.
 * No commit older than all of those is looked at, as in Git's own server. If history cannot be read, it is not enough.
 */
static bool is_enough_common(void)
{
	struct names known = no_names, parents = no_names, wanted = no_names;
	struct command walk;
	uint64_t oldest;
	bool is_enough;

	find_all(&common, "", "commit", &known);
	if (known.length == 0)
		return false;
	oldest = read_commits(&known, &parents);
	for (size_t i = 0; i < parents.length; i++)
		add_name(&known, parents.at[i].digits);
	add_commits(&wants, &wanted);
	start_walk(&walk, &wanted, &no_names, oldest);
	for (char *line; (line = next_line(&walk)) != NULL;) {
		char *commit = strsep(&line, " ");
		bool leads_there = false;

		for (char *parent; (parent = strsep(&line, " ")) != NULL;)
			leads_there |= has_name(&known, parent);
		if (leads_there)
			add_name(&known, commit);
	}
	is_enough = end(&walk) == 0;
	for (size_t i = 0; i < wanted.length; i++)
		is_enough &= reaches(&known, wanted.at[i].digits);
	clear_names(&known);
	clear_names(&parents);
	clear_names(&wanted);
	return is_enough;
}

/* The lines of the boundary: the client gets the commits of `within` with their parents, and those of `last` without. */
static void note_boundary(const struct names *within, const struct names *last)
{
	for (size_t i = 0; i < last->length; i++)
		if (!has_name(&client_boundary, last->at[i].digits))
			add_name(&shallows, last->at[i].digits);
	for (size_t i = 0; i < client_boundary.length; i++)
		if (has_name(within, client_boundary.at[i].digits) && !has_name(last, client_boundary.at[i].digits))
			add_name(&unshallows, client_boundary.at[i].digits);
}

/* Cuts the history of the commits in `within` off at this depth, and at the commits in `ends` and the ends of the repository itself. */
static void cut_at_depth(struct names *within, uint64_t depth, const struct names *ends)
{
	struct names last = no_names, inner;

	for (size_t at = 0; at < within->length; depth--) {
		inner = no_names;
		for (; at < within->length; at++)
			if (depth <= 1 || has_name(&own_boundary, within->at[at].digits) || has_name(ends, within->at[at].digits))
				add_name(&last, within->at[at].digits);
			else
				add_name(&inner, within->at[at].digits);
		read_commits(&inner, within);
		clear_names(&inner);
	}
	note_boundary(within, &last);
	clear_names(&last);
}

/* Adds to `commits` those of the client's boundary that can be reached from a reference which clients may know of. */
static void find_reachable(struct names *commits)
{
	static const char *const all[] = { "git", "rev-list", "--not", "--all", "--not", "--stdin", NULL };
	static const char *const shown[] = { "git", "rev-list", "--exclude-hidden=uploadpack", "--not", "--all", "--not", "--stdin", NULL };
	bool hidden = is_set("uploadpack.allowtipsha1inwant", false) || is_set("uploadpack.allowreachablesha1inwant", false)
		|| is_set("uploadpack.allowanysha1inwant", false);
	struct names others = no_names;
	struct command walk;

	start(&walk, TO_ERRORS, hidden ? all : shown);
	write_names(walk.input, "", &client_boundary);
	end_input(&walk);
	for (char *line; (line = next_line(&walk)) != NULL;)
		if (has_name(&client_boundary, line))
			add_name(&others, line);
	if (end(&walk) != 0)
		fail("git rev-list failed");
	for (size_t i = 0; i < client_boundary.length; i++)
		if (!has_name(&others, client_boundary.at[i].digits))
			add_name(commits, client_boundary.at[i].digits);
	clear_names(&others);
}

/* Cuts off the commits that are older than a time (0 for none), and those that the excluded commits lead to. */
static void cut_by_walk(uint64_t since, const struct names *excluded)
{
	struct names within = no_names, last = no_names;
	struct command walk;

	start_walk(&walk, &wants, excluded, since);
	for (char *line; (line = next_line(&walk)) != NULL;) {
		char *commit = strsep(&line, " ");

		for (char *parent; (parent = strsep(&line, " ")) != NULL;)
			if (!has_name(&within, parent))
				add_name(&last, commit);
		add_name(&within, commit);
	}
	if (end(&walk) != 0 || within.length == 0)
		fail("no commits selected for shallow requests");
	note_boundary(&within, &last);
	clear_names(&within);
	clear_names(&last);
}
