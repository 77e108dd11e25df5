/* Makes many calls of a program, one after the other, for `many_calls.py` beside this file.

   Words: the program, the seconds of processor time that a call may take, and those by the clock. Each call stands on
   standard input as the number of its words, each word as its length and its bytes, then likewise what it has in its
   environment beside ours, each as `NAME=VALUE`, and then what is handed to it as its standard input, through a pipe,
   which takes up to 65,536 bytes. What it came to is written to standard output: its wait status, and then what it
   wrote there and to standard error, each as its length and its bytes. Numbers are of 32 bits. */
#define _GNU_SOURCE
#include <errno.h>
#include <fcntl.h>
#include <signal.h>
#include <stdint.h>
#include <stdio.h>
#include <stdlib.h>
#include <string.h>
#include <sys/resource.h>
#include <sys/wait.h>
#include <unistd.h>

enum { MOST_WORDS = 16, PIPE = 65536, ROOM = 1 << 26 };

static pid_t child;

static void need(int holds, const char *what) {
    if (!holds) {
        perror(what);
        exit(1);
    }
}

static void end_child(int number) {
    (void)number;
    if (child > 0)
        kill(child, SIGKILL);
}

/* The next bytes and how many they are, with a 0 behind them. */
static char *next_bytes(uint32_t *length) {
    need(fread(length, sizeof *length, 1, stdin) == 1, "a length");
    char *bytes = malloc(*length + 1);
    need(bytes && fread(bytes, 1, *length, stdin) == *length, "the bytes of a word");
    bytes[*length] = 0;
    return bytes;
}

/* The next list of words, which is put to `words`; how many there are. */
static uint32_t next_words(uint32_t count, char **words) {
    uint32_t length;
    need(count < MOST_WORDS, "more words");
    for (uint32_t at = 0; at < count; at++)
        words[at] = next_bytes(&length);
    words[count] = 0;
    return count;
}

static uint32_t next_number(void) {
    uint32_t number;
    need(fread(&number, sizeof number, 1, stdin) == 1, "a number");
    return number;
}

static void put_bytes(const char *bytes, uint32_t length) {
    need(fwrite(&length, sizeof length, 1, stdout) == 1 && fwrite(bytes, 1, length, stdout) == length, "an answer");
}

/* All that can be read there. */
static uint32_t all_of(int file, char *bytes) {
    uint32_t length = 0;
    ssize_t more;
    while ((more = read(file, bytes + length, ROOM - length)) > 0 || (more < 0 && errno == EINTR))
        length += more > 0 ? more : 0;
    need(more == 0 && length < ROOM, "what a call wrote");
    return length;
}

/* Starts the program that is the first of the words, with these streams, as a child in our memory until it begins. */
static void start(char **words, struct rlimit limit, int input, int output, int errors) {
    pid_t made = vfork();
    need(made >= 0, "a child");
    if (made == 0) {
        setrlimit(RLIMIT_CPU, &limit);
        if (dup2(input, 0) == 0 && dup2(output, 1) == 1 && dup2(errors, 2) == 2)
            execv(words[0], words);
        _exit(127);
    }
    child = made;
}

/* Makes the call of these words, hands it the text, and answers. */
static void call(char **words, const char *text, uint32_t length, struct rlimit limit, unsigned waited, FILE *errors) {
    static char wrote[ROOM];
    int input[2], output[2], status;
    need(length <= PIPE && pipe2(input, O_CLOEXEC) == 0 && pipe2(output, O_CLOEXEC) == 0, "pipes");
    need(write(input[1], text, length) == (ssize_t)length, "the text");
    close(input[1]);
    alarm(waited);
    start(words, limit, input[0], output[1], fileno(errors));
    close(input[0]);
    close(output[1]);
    uint32_t written = all_of(output[0], wrote);
    close(output[0]);
    while (waitpid(child, &status, 0) < 0)
        need(errno == EINTR, "its end");
    alarm(0);
    put_bytes((char *)&status, sizeof status);
    put_bytes(wrote, written);
    lseek(fileno(errors), 0, SEEK_SET);
    put_bytes(wrote, all_of(fileno(errors), wrote));
    need(ftruncate(fileno(errors), 0) == 0 && lseek(fileno(errors), 0, SEEK_SET) == 0, "standard error");
}

int main(int count, char **told) {
    need(count == 4, "three words");
    struct rlimit limit = {strtoul(told[2], 0, 10), strtoul(told[2], 0, 10)};
    FILE *errors = tmpfile();
    need(errors && fcntl(fileno(errors), F_SETFD, FD_CLOEXEC) == 0, "a file");
    sigaction(SIGALRM, &(struct sigaction){.sa_handler = end_child}, 0);
    uint32_t words_count, length;
    while (fread(&words_count, sizeof words_count, 1, stdin) == 1) {
        char *words[MOST_WORDS + 1] = {told[1]}, *settings[MOST_WORDS];
        next_words(words_count, words + 1);
        uint32_t settings_count = next_words(next_number(), settings);
        for (uint32_t at = 0; at < settings_count; at++)
            need(putenv(settings[at]) == 0, "a setting");
        char *text = next_bytes(&length);
        call(words, text, length, limit, strtoul(told[3], 0, 10), errors);
        for (uint32_t at = 0; at < settings_count; at++) {
            char *name = strndup(settings[at], strcspn(settings[at], "="));
            need(name && unsetenv(name) == 0, "a setting");
            free(name);
            free(settings[at]);
        }
        for (uint32_t at = 1; at <= words_count; at++)
            free(words[at]);
        free(text);
    }
    return fflush(stdout) == 0 ? 0 : 1;
}
