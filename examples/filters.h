/* Whether the owner of a repository lets clients use a filter, by the settings of Git's uploadpackfilter. */
#include <stdbool.h>
#include <stdio.h>
#include <stdlib.h>
#include <string.h>

/* The kind of a filter, as the settings name it. */
static const char *filter_kind(const char *filter)
{
	static const char *const kinds[][2] = { { "blob:none", "blob:none" }, { "blob:limit=", "blob:limit" }, { "tree:", "tree" },
		{ "sparse:oid=", "sparse:oid" }, { "object:type=", "object:type" }, { "combine:", "combine" } };

	for (size_t i = 0; i < sizeof kinds / sizeof *kinds; i++)
		if (strncmp(filter, kinds[i][0], strlen(kinds[i][0])) == 0)
			return kinds[i][1];
	return "unknown";
}

/*
 * Cuts the next filter off a combined one, whose parts are separated by `+` and have some bytes as `%` and two digits. As in Git `%00` stands for
 * itself: a NUL would hide what comes after it.
 */
static void cut_filter(const char **rest, char *part)
{
	char digits[3] = "";

	for (; **rest != 0 && **rest != '+'; (*rest)++)
		if (**rest == '%' && sscanf(*rest + 1, "%2[0-9a-fA-F]", digits) == 1 && digits[1] != 0 && strcmp(digits, "00") != 0) {
			*part++ = (char)strtoul(digits, NULL, 16);
			*rest += 2;
		} else {
			*part++ = **rest;
		}
	*part = 0;
	*rest += **rest == '+';
}

/* Whether a text is a number in decimal digits and no greater. Git would take `0x10` and `1k` for numbers too. */
static bool is_number_up_to(const char *text, unsigned long most)
{
	return *text != 0 && text[strspn(text, "0123456789")] == 0 && strtoul(text, NULL, 10) <= most;
}

/* Whether the filter is allowed; if not, the client receives the reason. `depth` is how many filters of filters there may be. */
static bool may_filter(const char *filter, size_t depth, char *reason, size_t size)
{
	const char *kind = filter_kind(filter), *rest = filter + strlen("combine:"), *most;
	char key[64], part[GITWIRE_REFERENCE_NAME_SIZE + 1];
	bool allowed = is_set("uploadpackfilter.allow", true);

	snprintf(key, sizeof key, "uploadpackfilter.%s.allow", kind);
	most = setting("uploadpackfilter.tree.maxdepth", NULL);
	if (depth == 0 || !is_set(key, allowed || (most != NULL && strcmp(kind, "tree") == 0))) {
		snprintf(reason, size, "filter '%s' not supported", kind);
		return false;
	}
	if (strcmp(kind, "tree") == 0 && most != NULL && !is_number_up_to(filter + 5, strtoul(most, NULL, 10))) {
		snprintf(reason, size, "tree filter allows max depth %s, but got %s", most, filter + 5);
		return false;
	}
	while (strcmp(kind, "combine") == 0 && *rest != 0) {
		cut_filter(&rest, part);
		if (!may_filter(part, depth - 1, reason, size))
			return false;
	}
	return true;
}
