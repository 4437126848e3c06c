/* Sets of object names, as their digits. Each keeps the order in which its names were added. */
#include <gitwire.h>

#include <errno.h>
#include <stdbool.h>
#include <stdint.h>
#include <stdio.h>
#include <stdlib.h>
#include <string.h>
#include <sys/random.h>

struct name {
	char digits[GITWIRE_OBJECT_NAME_SIZE + 1];
};

/* A place of a hash table: the number of a name, from 1, or 0 if it is free; and the hash of that name, so that most others are not compared. */
struct place {
	uint32_t number, hash;
};

struct names {
	struct name *at;
	size_t length;
	struct place *places;
	size_t capacity; /* of the table, a power of two */
};

/* The empty set, with each field named: C++ has no `(struct names){ 0 }`. */
static const struct names no_names = { NULL, 0, NULL, 0 };

static uint64_t mixed(uint64_t hash, uint64_t part)
{
	__extension__ unsigned __int128 product = (unsigned __int128)(hash ^ part) * 0x9e3779b97f4a7c15u;

	return (uint64_t)product ^ (uint64_t)(product >> 64);
}

/* A hash under a key that each process chooses anew, so that no client knows names that share a place. */
static uint32_t hash_of(const char *digits, size_t length)
{
	static uint64_t key;
	uint64_t hash, part;

	while (key == 0 && getrandom(&key, sizeof key, 0) < 0)
		if (errno != EINTR)
			stop("no random number");
	for (hash = key; length >= sizeof part; digits += sizeof part, length -= sizeof part) {
		memcpy(&part, digits, sizeof part);
		hash = mixed(hash, part);
	}
	part = 0;
	memcpy(&part, digits, length);
	return (uint32_t)mixed(hash, part);
}

/* The place of the name in the table, or where it would be. */
static struct place *find_place(const struct names *names, const char *digits, uint32_t hash)
{
	size_t at;

	for (at = hash & (names->capacity - 1); names->places[at].number != 0; at = (at + 1) & (names->capacity - 1))
		if (names->places[at].hash == hash && strcmp(names->at[names->places[at].number - 1].digits, digits) == 0)
			break;
	return &names->places[at];
}

static bool has_name(const struct names *names, const char *digits)
{
	return names->capacity > 0 && find_place(names, digits, hash_of(digits, strlen(digits)))->number != 0;
}

static void clear_names(struct names *names)
{
	free(names->at);
	free(names->places);
	*names = no_names;
}

/* Doubles the table, so that at least half of it is free. */
static void enlarge(struct names *names)
{
	size_t capacity = names->capacity == 0 ? 64 : 2 * names->capacity;
	struct place *places = (struct place *)calloc(capacity, sizeof *places);

	names->at = (struct name *)realloc(names->at, capacity / 2 * sizeof *names->at);
	if (names->at == NULL || places == NULL || capacity > UINT32_MAX)
		stop("no memory");
	for (size_t i = 0, at; i < names->capacity; i++) {
		if (names->places[i].number == 0)
			continue;
		for (at = names->places[i].hash & (capacity - 1); places[at].number != 0;)
			at = (at + 1) & (capacity - 1);
		places[at] = names->places[i];
	}
	free(names->places);
	names->places = places;
	names->capacity = capacity;
}

/* Adds a name, unless it is there. What is longer than a name can be is cut off. */
static void add_name(struct names *names, const char *digits)
{
	size_t length = strnlen(digits, GITWIRE_OBJECT_NAME_SIZE);
	uint32_t hash = hash_of(digits, length);
	struct place *place;
	char *name;

	if (names->length == names->capacity / 2)
		enlarge(names);
	name = names->at[names->length].digits; /* the next one, which may stay free */
	memcpy(name, digits, length);
	name[length] = 0;
	place = find_place(names, name, hash);
	if (place->number == 0) {
		place->number = (uint32_t)++names->length;
		place->hash = hash;
	}
}

/* Writes each on a line of its own, after this text. */
static void write_names(FILE *to, const char *before, const struct names *names)
{
	for (size_t i = 0; i < names->length; i++) {
		fputs(before, to);
		fputs(names->at[i].digits, to);
		putc('\n', to);
	}
}
