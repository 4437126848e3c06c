/* What the programs of this folder share. Each defines PROGRAM before it: the name that its error messages begin with. */
#include <stdio.h>
#include <stdlib.h>

static void stop(const char *what)
{
	fprintf(stderr, PROGRAM ": %s\n", what);
	exit(1);
}

/* Reads a whole file, whose bytes are the caller's to free, or ends the program. */
static char *read_file(const char *name, size_t *length)
{
	FILE *file = fopen(name, "rb");
	char *bytes = NULL;
	size_t size = 0;

	if (file == NULL)
		stop("a file cannot be opened");
	for (*length = 0; *length == size; *length += fread(bytes + *length, 1, size - *length, file)) {
		size = 2 * size + 65536;
		bytes = (char *)realloc(bytes, size);
		if (bytes == NULL)
			stop("no memory");
	}
	if (ferror(file) || fclose(file) != 0)
		stop("a file cannot be read");
	return bytes;
}
