/* Bytes to standard output, over as many writes as it takes. */
#ifndef WRITE_WHOLE_H
#define WRITE_WHOLE_H

#include <errno.h>
#include <stdbool.h>
#include <stddef.h>
#include <unistd.h>

/* Writes all the bytes. A write that a signal interrupts is made again; false if one fails. */
static bool write_whole(const void *bytes, size_t length)
{
	const unsigned char *rest = bytes;

	while (length > 0) {
		ssize_t written = write(STDOUT_FILENO, rest, length);
		if (written < 0 && errno == EINTR)
			continue;
		if (written <= 0)
			return false;
		rest += written;
		length -= (size_t)written;
	}
	return true;
}

#endif
