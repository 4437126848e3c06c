/* Commands of Git as processes, each with a pipe to its input and one from its output. No shell reads their words. */
#include <errno.h>
#include <fcntl.h>
#include <poll.h>
#include <signal.h>
#include <stdbool.h>
#include <stdint.h>
#include <stdio.h>
#include <stdlib.h>
#include <string.h>
#include <sys/prctl.h>
#include <sys/wait.h>
#include <unistd.h>

/* Where a command writes its messages: to those of this program; into its output, in the words of the C locale; or to a pipe of its own. */
enum reports { TO_ERRORS, TO_OUTPUT, TO_PIPE };

enum { READ_SIZE = 65536 }; /* as much as a pipe holds */

struct command {
	pid_t id;
	FILE *input, *output;
	int messages; /* the pipe of its messages, or -1 */
	bool is_fed;
	char *line, *buffer;
	size_t line_size;
};

/* Ends the program, and the session if there is one, because a command of Git failed. */
__attribute__((noreturn)) static void fail(const char *what);

/* Starts the command of these words; the last of them is NULL. It ends when this program does, however that ends. */
static void start(struct command *command, enum reports reports, const char *const *words)
{
	int input[2], output[2], messages[2] = { -1, -1 };
	pid_t here = getpid();

	if (pipe2(input, O_CLOEXEC) != 0 || pipe2(output, O_CLOEXEC) != 0 || (reports == TO_PIPE && pipe2(messages, O_CLOEXEC) != 0))
		fail("no pipe can be made");
	memset(command, 0, sizeof *command);
	command->messages = messages[0];
	command->id = fork();
	if (command->id == 0) {
		if (reports == TO_OUTPUT)
			setenv("LC_ALL", "C", 1);
		if (prctl(PR_SET_PDEATHSIG, SIGTERM) != 0 || getppid() != here)
			_exit(127);
		signal(SIGPIPE, SIG_DFL);
		dup2(input[0], STDIN_FILENO);
		dup2(output[1], STDOUT_FILENO);
		if (reports != TO_ERRORS)
			dup2(reports == TO_PIPE ? messages[1] : output[1], STDERR_FILENO);
		execvp(words[0], (char *const *)words);
		_exit(127);
	}
	close(input[0]);
	close(output[1]);
	if (reports == TO_PIPE)
		close(messages[1]);
	command->input = fdopen(input[1], "w");
	command->output = fdopen(output[0], "r");
	command->buffer = (char *)malloc(READ_SIZE);
	if (command->id < 0 || command->input == NULL || command->output == NULL || command->buffer == NULL)
		fail("a command of Git cannot be started");
	setvbuf(command->output, command->buffer, _IOFBF, READ_SIZE);
}

/* Ends a command's input. */
static void end_input(struct command *command)
{
	command->is_fed = !ferror(command->input);
	command->is_fed &= fclose(command->input) == 0;
}

/* Starts a command that has no input. */
static void start_alone(struct command *command, enum reports reports, const char *const *words)
{
	start(command, reports, words);
	end_input(command);
}

/* Waits for its end, and returns its status, which is 0 if it succeeded; -1 if it was killed or did not take its input. */
static int end(struct command *command)
{
	bool is_whole = command->is_fed && !ferror(command->output);
	int status;

	fclose(command->output);
	free(command->line);
	free(command->buffer);
	if (command->messages >= 0)
		close(command->messages);
	if (waitpid(command->id, &status, 0) != command->id || !WIFEXITED(status) || !is_whole)
		return -1;
	return WEXITSTATUS(status);
}

/* Lets a pipe hold so many bytes. False if the system refuses, as for a user with many such pipes: it holds 64 kilobytes. */
static bool widen(int pipe, int bytes)
{
	return fcntl(pipe, F_SETPIPE_SZ, bytes) >= 0;
}

static ssize_t read_patiently(void *pipe, char *bytes, size_t size)
{
	struct pollfd output = { (int)(intptr_t)pipe, 0, 0 };

	poll(&output, 1, 1); /* a millisecond, or until its end: data is no event here */
	return read(output.fd, bytes, size);
}

static int close_patiently(void *pipe)
{
	return close((int)(intptr_t)pipe);
}

/*
 * Has the output of a command that prints much in small chunks read in large ones: it goes on into a wide pipe, and this program is not woken up
 * for each chunk. Nothing was read yet.
 */
static void be_patient(struct command *command)
{
	cookie_io_functions_t calls = { read_patiently, NULL, NULL, close_patiently };
	int pipe = fcntl(fileno(command->output), F_DUPFD_CLOEXEC, 3);

	if (pipe < 0 || !widen(pipe, 1 << 20)) {
		close(pipe);
		return;
	}
	fclose(command->output);
	command->output = fopencookie((void *)(intptr_t)pipe, "r", calls);
	if (command->output == NULL)
		fail("a command of Git cannot be read");
	setvbuf(command->output, command->buffer, _IOFBF, READ_SIZE);
}

/* The next line of its output without its LF, valid until the next call, or NULL at the end. A last line without an LF was cut off, and is ignored. */
static char *next_line(struct command *command)
{
	ssize_t length = getline(&command->line, &command->line_size, command->output);

	if (length <= 0 || command->line[length - 1] != '\n')
		return NULL;
	command->line[length - 1] = 0;
	return command->line;
}

/* Its output, a line that fits; false if its status is 1, which reports that there is no such thing. */
static bool answer_of(struct command *command, char *answer, size_t size)
{
	char *line = next_line(command);
	int status;

	if (snprintf(answer, size, "%s", line == NULL ? "" : line) >= (int)size || next_line(command) != NULL)
		fail("a command of Git prints more than it should");
	status = end(command);
	if (status != 0 && status != 1)
		fail("a command of Git failed");
	return status == 0;
}
