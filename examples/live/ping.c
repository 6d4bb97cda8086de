/* Sends six messages through a simulated network, and measures the virtual time until each answer.
 * usage: cc -o ping examples/live/ping.c && ./ping ./netlive examples/live/ping.world run */

#include <stdio.h>
#include <stdlib.h>
#include <string.h>
#include <sys/wait.h>
#include <unistd.h>

enum { PLACE = 1, PINGS = 6 };

static FILE *steps, *answers;
static char line[70000];
static long now;

/* Starts netlive with pipes for its input and its output, and skips its first line. */
static pid_t start(char **command)
{
    int in[2], out[2];
    if (pipe(in) != 0 || pipe(out) != 0) {
        perror("pipe");
        exit(1);
    }
    pid_t child = fork();
    if (child == 0) {
        dup2(in[0], 0);
        dup2(out[1], 1);
        close(in[1]);
        close(out[0]);
        execvp(command[0], command);
        perror(command[0]);
        _exit(127);
    }
    close(in[0]);
    close(out[1]);
    steps = fdopen(in[1], "w");
    answers = fdopen(out[0], "r");
    if (child < 0 || !fgets(line, sizeof line, answers) || strncmp(line, "netlive 1 ", 10) != 0) {
        fprintf(stderr, "ping: netlive does not start: %s\n", line);
        exit(1);
    }
    return child;
}

/* Takes a step, and waits for its answer. Ends the program if the step fails. */
static void step(const char *text)
{
    char word[16];
    fprintf(steps, "%d %s\n", PLACE, text);
    fflush(steps);
    line[0] = 0;
    if (!fgets(line, sizeof line, answers) || sscanf(line, "%*d %*d %ld %15s", &now, word) != 2 || strcmp(word, "answered") != 0) {
        fprintf(stderr, "ping: %s: %s\n", text, line);
        exit(1);
    }
}

int main(int count, char **words)
{
    if (count < 2)
        return fprintf(stderr, "usage: ping NETLIVE WORLD OUT\n"), 1;
    pid_t child = start(words + 1);
    step("until 10");
    step("dial d il!helix!echo");
    for (int number = 1; number <= PINGS; number++) {
        long before = now;
        step("write d ping");
        step("read d 8192");
        printf("%6ld ms: ping %d, %ld ms\n", now, number, now - before);
    }
    fprintf(steps, "%d end\n", PLACE);
    fclose(steps);
    while (fgets(line, sizeof line, answers))
        printf("%s", line);
    return waitpid(child, NULL, 0) == child ? 0 : 1;
}
