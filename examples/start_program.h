/* A program over two pipes, as the programs of this folder have a server there. */
#include <signal.h>
#include <sys/types.h>
#include <unistd.h>

static void close_both(const int *ends)
{
	close(ends[0]);
	close(ends[1]);
}

/* Starts the program of these words; the last of them is NULL. It reads from `*to`, and writes to `*from`. Returns -1 if it cannot be started. */
static pid_t start_program(char *const *words, int *to, int *from)
{
	int asked[2], answered[2];
	pid_t program;

	if (pipe(asked) != 0)
		return -1;
	if (pipe(answered) != 0) {
		close_both(asked);
		return -1;
	}
	program = fork();
	if (program == 0) {
		if (dup2(asked[0], STDIN_FILENO) < 0 || dup2(answered[1], STDOUT_FILENO) < 0)
			_exit(127);
		close_both(asked); /* it must have each pipe only once, so that it can end it */
		close_both(answered);
		execvp(words[0], words);
		_exit(127);
	}
	if (program < 0) {
		close_both(asked);
		close_both(answered);
		return -1;
	}
	signal(SIGPIPE, SIG_IGN); /* a program that has ended is noticed by a write that fails */
	close(asked[0]);
	close(answered[1]);
	*to = asked[1];
	*from = answered[0];
	return program;
}
