/* How the programs of this folder end if they cannot continue. Each defines PROGRAM before it: the name that its error messages begin with. */
#include <stdio.h>
#include <stdlib.h>

__attribute__((noreturn)) static void stop(const char *what)
{
	fprintf(stderr, PROGRAM ": %s\n", what);
	exit(1);
}
