/*
 * What the programs share that call each function of the library: expectations, a buffer, a writer of packets, and a thread with a small
 * stack.
 */
#ifndef LIBRARY_CALLS_H
#define LIBRARY_CALLS_H

#include <gitwire.h>

#include <limits.h>
#include <pthread.h>
#include <stdio.h>
#include <stdlib.h>
#include <string.h>

static int failures;

#define EXPECT(condition) \
	((condition) ? (void)0 : (void)(failures++, printf("%s:%d: %s\n", __FILE__, __LINE__, #condition)))

/* A text, and bytes, as a pointer and a length; and the buffer, for bytes and for a text. */
#define TEXT(text) (text), strlen(text)
#define BYTES(text) (const uint8_t *)(text), strlen(text)
#define BUFFER buffer, sizeof buffer
#define CHARACTERS (char *)buffer, sizeof buffer

#define ONE "1111111111111111111111111111111111111111"
#define TWO "2222222222222222222222222222222222222222"
#define LONG_ONE "1111111111111111111111111111111111111111111111111111111111111111"

static uint8_t buffer[GITWIRE_PACKET_SIZE];
__attribute__((unused)) static gitwire_writer *writer = NULL;

/* Whether exactly these fields are set, and the others are 0. */
static bool tells(gitwire_answer answer, gitwire_result kind, size_t used, uint64_t offset, size_t length)
{
	return answer.kind == kind && answer.used == used && answer.offset == offset && answer.length == length && answer.fault == 0;
}

static inline bool tells_fault(gitwire_answer answer, gitwire_fault fault, size_t used, uint64_t offset)
{
	return answer.kind == GITWIRE_FAILED && answer.fault == fault && answer.used == used && answer.offset == offset && answer.length == 0;
}

/* Whether a whole text was put at the front of the buffer, and the bytes after it were left alone. */
static inline bool wrote(gitwire_answer answer, const char *text)
{
	bool is_it = tells(answer, GITWIRE_DONE, 0, 0, strlen(text)) && memcmp(buffer, text, strlen(text)) == 0;

	for (size_t i = answer.length; i < sizeof buffer; i++)
		is_it = is_it && buffer[i] == '#';
	memset(buffer, '#', sizeof buffer);
	return is_it;
}

/* Runs a function on a stack of its own, of this size, until it returns. A sanitizer takes more, and valgrind needs less. */
static inline bool on_a_stack(size_t stack, void *(*body)(void *), void *argument)
{
#ifdef __SANITIZE_ADDRESS__
	const size_t more = 1048576;
#else
	const size_t more = 0;
#endif
	pthread_attr_t attributes;
	pthread_t thread;

	return pthread_attr_init(&attributes) == 0 && pthread_attr_setstacksize(&attributes, stack + more) == 0
		&& pthread_create(&thread, &attributes, body, argument) == 0 && pthread_join(thread, NULL) == 0;
}

/* Runs all on a small stack; the header states how much a call takes. */
static int on_a_small_stack(void *(*try_all)(void *))
{
	return !on_a_stack(PTHREAD_STACK_MIN, try_all, NULL) || failures > 0;
}

#endif
