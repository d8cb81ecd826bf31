/* A host in C99 and POSIX, without a library: a button that is clicked, and a text that counts how often. It starts `PROGRAM host ..`,
   sends lines, and takes by poll what comes out of the two pipes. cc -std=c99 -O1 host.c -o host && ./host ../../scene > picture.ppm */
#define _POSIX_C_SOURCE 200809L
#include <poll.h>
#include <stdint.h>
#include <stdio.h>
#include <stdlib.h>
#include <string.h>
#include <sys/wait.h>
#include <unistd.h>

enum { WIDTH = 160, HEIGHT = 60 };
static uint16_t picture[HEIGHT][WIDTH];
static int to_program, stream, log_lines, marks, clicks;

static void fail(const char *why) { fprintf(stderr, "host: %s\n", why); exit(1); }
static unsigned at(const unsigned char *bytes) { return bytes[0] << 8 | bytes[1]; }

/* Takes a byte of the stream. A record is kept until it is whole: S, width, height; A, x, y, width, height and colours; or F. */
static void take(unsigned char byte) {
    static unsigned char record[9 + 2 * WIDTH * HEIGHT];
    static size_t have;
    record[have++] = byte;
    size_t length = record[0] == 'S' ? 5 : record[0] == 'F' ? 1 : have < 9 ? 9 : 9 + 2 * at(record + 5) * at(record + 7);
    if (length > sizeof record) fail("an area is larger than the picture");
    if (have < length) return;
    have = 0;
    if (record[0] == 'F') marks++;
    if (record[0] != 'A') return;
    unsigned left = at(record + 1), top = at(record + 3), width = at(record + 5), height = at(record + 7);
    if (left + width > WIDTH || top + height > HEIGHT) fail("an area leaves the picture");
    for (unsigned i = 0; i < width * height; i++) picture[top + i / width][left + i % width] = at(record + 9 + 2 * i);
}

/* Takes a byte of the log. Answers whether it ends a reply; an event comes before the reply of its line. */
static int hear(char byte) {
    static char line[8192];
    static size_t have;
    if (have + 1 < sizeof line) line[have++] = byte;
    if (byte != '\n') return 0;
    line[have] = 0;
    have = 0;
    if (strncmp(line, "event clicked 10 ", 17) == 0) clicks++;
    if (strstr(line, "refused") || strstr(line, "fault")) fail(line);
    return line[0] >= '0' && line[0] <= '9';
}

/* Sends a line and waits for its reply, and after a frame for its mark. Whatever comes meanwhile is taken. */
static void say(const char *line) {
    int replied = 0, before = marks, is_frame = strcmp(line, "frame") == 0;
    if (dprintf(to_program, "%s\n", line) < 0) fail("the program has ended");
    while (!replied || (is_frame && marks == before)) {
        unsigned char bytes[4096];
        struct pollfd pipes[] = {{stream, POLLIN, 0}, {log_lines, POLLIN, 0}};
        if (poll(pipes, 2, -1) < 0) fail("poll");
        for (int i = 0; i < 2; i++) {
            ssize_t count = pipes[i].revents ? read(pipes[i].fd, bytes, sizeof bytes) : 0;
            if (pipes[i].revents && count <= 0) fail("the program has ended");
            for (ssize_t k = 0; k < count; k++) if (i == 0) take(bytes[k]); else replied |= hear((char)bytes[k]);
        }
    }
}

int main(int count, char **words) {
    int in[2], out[2], err[2], status = 0;
    if (count < 2 || pipe(in) || pipe(out) || pipe(err)) fail("say the program, as ./host ../../scene");
    if (fork() == 0) {
        dup2(in[0], 0), dup2(out[1], 1), dup2(err[1], 2);
        close(in[1]), close(out[0]), close(err[0]);
        execl(words[1], words[1], "host", "160", "60", "20", (char *)0);
        _exit(127);
    }
    close(in[0]), close(out[1]), close(err[1]);
    to_program = in[1], stream = out[0], log_lines = err[0];
    const char *screen[] = {"new 10 3 button", "align 10 center 0 0", "new 11 10 label", "on 10 clicked say"};
    for (int i = 0; i < 4; i++) say(screen[i]);
    for (int i = 0; i < 4; i++) { /* a count is shown, and then a finger comes and goes */
        char text[64];
        snprintf(text, sizeof text, "text 11 \"Clicked %d times\"", clicks);
        say(text), say("frame"), say("touch 80 30"), say("tick 40"), say("release");
    }
    say("frame"), close(to_program), wait(&status);
    printf("P6\n%d %d\n255\n", WIDTH, HEIGHT);
    for (int i = 0; i < WIDTH * HEIGHT; i++) {
        unsigned c = picture[i / WIDTH][i % WIDTH], red = c >> 11, green = c >> 5 & 63, blue = c & 31;
        printf("%c%c%c", red << 3 | red >> 2, green << 2 | green >> 4, blue << 3 | blue >> 2);
    }
    return WEXITSTATUS(status);
}
