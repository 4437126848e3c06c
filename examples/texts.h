/* Lists of texts. */
#include <stdarg.h>
#include <stdio.h>
#include <stdlib.h>
#include <string.h>

struct texts {
	char **at;
	size_t length, capacity;
};

/* The empty list, with each field named: C++ has no `(struct texts){ 0 }`. */
static const struct texts no_texts = { NULL, 0, 0 };

/* Adds a text of this format, as printf has it. */
__attribute__((format(printf, 2, 3))) static void add_text(struct texts *texts, const char *format, ...)
{
	va_list values;

	if (texts->length == texts->capacity) {
		texts->capacity = 2 * texts->capacity + 16;
		texts->at = (char **)realloc(texts->at, texts->capacity * sizeof *texts->at);
		if (texts->at == NULL)
			stop("no memory");
	}
	va_start(values, format);
	if (vasprintf(&texts->at[texts->length++], format, values) < 0)
		stop("no memory");
	va_end(values);
}

static void clear_texts(struct texts *texts)
{
	for (size_t i = 0; i < texts->length; i++)
		free(texts->at[i]);
	free(texts->at);
	*texts = no_texts;
}
