/* How the programs of this folder show a peer's bytes: none of them can control a terminal. */
#include <gitwire.h>

#include <stdio.h>

/* As `git2show` shows them. */
static void show_bytes(FILE *to, const void *bytes, size_t length)
{
	const uint8_t *rest = (const uint8_t *)bytes;
	char shown[4096];

	while (length > 0) {
		gitwire_answer answer = gitwire_escape(rest, length, shown, sizeof shown);

		fwrite(shown, 1, answer.length, to);
		rest += answer.used;
		length -= answer.used;
	}
}
