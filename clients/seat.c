/* A party of a file, played by C over the program `sjseat`. To copy.
   usage: seat FILE PARTY LINE.., which asks for one line after another, each again as long as it waits, and prints its answer. SJSEAT
   says where the program is, if it isn't on the path. SEAT has its words after the party, as `--run visit`; without it they are `--local`.
   Over a server what a process before this one did is printed first, and as many lines are left out. */
#define _POSIX_C_SOURCE 200809L
#include <stdio.h>
#include <stdlib.h>
#include <string.h>
#include <sys/wait.h>
#include <unistd.h>

struct seat {
    FILE *lines, *answers;
    pid_t child;
    int again;    /* so many lines were done before */
    char *answer; /* the last one */
    size_t room;
};

enum said { FINE, REFUSED, WAITING, STOPPED };

/* The next answer, in seat->answer. */
static enum said answered(struct seat *seat) {
    const char *good[] = {"go", "fine", "took", "opened", "ready", "not", "ends", "ahead"};
    if (getline(&seat->answer, &seat->room, seat->answers) < 0)
        return STOPPED;
    seat->answer[strcspn(seat->answer, "\n")] = 0;
    for (int i = 0; i < 8; i++)
        if (!strncmp(seat->answer, good[i], strlen(good[i])))
            return FINE;
    return !strncmp(seat->answer, "refused", 7) ? REFUSED : !strcmp(seat->answer, "waiting") ? WAITING : STOPPED;
}

/* Starts the program, which plays that party; 0 where it can't. */
static int start(struct seat *seat, char *party) {
    char *program = getenv("SJSEAT") ? getenv("SJSEAT") : "sjseat";
    char *words[16] = {program, party, "--local"}, *more = getenv("SEAT");
    int to[2], from[2];
    for (int i = 2; more && i < 15; i++)
        words[i] = strtok(i == 2 ? more : NULL, " ");
    if (pipe(to) || pipe(from) || (seat->child = fork()) < 0)
        return 0;
    if (seat->child == 0) {
        dup2(to[0], 0), dup2(from[1], 1);
        close(to[0]), close(to[1]), close(from[0]), close(from[1]);
        execvp(program, words);
        _exit(127);
    }
    close(to[0]), close(from[1]);
    seat->lines = fdopen(to[1], "w"), seat->answers = fdopen(from[0], "r");
    return 1;
}

/* Hands over the file; 0 where its party isn't played, and then the answer says why. */
static int begin(struct seat *seat, const char *file, char *party) {
    FILE *text = fopen(file, "r");
    int byte;
    if (!text || !start(seat, party))
        return 0;
    while ((byte = getc(text)) != EOF)
        putc(byte, seat->lines);
    fclose(text);
    fputs("\n%%talk\n", seat->lines);
    fflush(seat->lines);
    for (; answered(seat) == STOPPED && !strncmp(seat->answer ? seat->answer : "", "again ", 6); seat->again++)
        puts(seat->answer);
    return seat->answer && !strcmp(seat->answer, "go");
}

/* Asks for a line, again as long as it waits. */
static enum said ask(struct seat *seat, const char *line) {
    enum said said;
    do {
        fprintf(seat->lines, "%s\n", line);
        fflush(seat->lines);
    } while ((said = answered(seat)) == WAITING);
    return said;
}

/* No further line; prints what comes yet, and gives the status. */
static int leave(struct seat *seat) {
    int status, byte;
    fclose(seat->lines);
    while ((byte = getc(seat->answers)) != EOF)
        putchar(byte);
    waitpid(seat->child, &status, 0);
    free(seat->answer);
    return WIFEXITED(status) ? WEXITSTATUS(status) : 2;
}

int main(int count, char **words) {
    struct seat seat = {0};
    if (count < 3 || !begin(&seat, words[1], words[2]))
        return puts(count < 3 ? "usage: seat FILE PARTY LINE.." : seat.answer ? seat.answer : "not played"), 2;
    for (int i = 3 + seat.again; i < count && ask(&seat, words[i]) != STOPPED; i++)
        puts(seat.answer);
    return leave(&seat);
}
