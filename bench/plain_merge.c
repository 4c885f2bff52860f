// Merges sorted BED, and does nothing else: compare.py runs it beside `merge`, to show what the job takes by itself.
//
//     plain_merge [FILE]
//
// Reads FILE, or standard input, and joins the features of a chromosome that overlap or touch. It checks nothing of
// what it reads: each line has to have a chromosome, a start and an end with tabs between them, together of at most
// 32 KiB, and the lines have to be sorted. What stands behind the end is skipped. Starts and ends are written as they
// stand there. Where the file can't be opened, or a read or a write fails, it ends with status 1.
#include <fcntl.h>
#include <stdint.h>
#include <stdlib.h>
#include <string.h>
#include <unistd.h>

enum { BLOCK = 65536 };

// The open run. Its line is the last one of the output, with the greatest end so far.
struct run {
    uint8_t *line;
    size_t length;     // of the line, with its line feed
    size_t before_end; // so many bytes of the line stand before its end
    long end;
};

static uint8_t input[BLOCK];
// The open run's line, and those that a block adds to it, which aren't longer than the block.
static uint8_t output[2 * BLOCK];

// Writes the output up to a place.
static void write_until(const uint8_t *place) {
    ssize_t length = place - output;
    if (write(STDOUT_FILENO, output, (size_t)length) != length) {
        exit(1);
    }
}

// Puts the text between two places at a third one, and a line feed. Answers how many bytes these are.
static size_t put_line(uint8_t *place, const uint8_t *text, const uint8_t *behind) {
    size_t length = (size_t)(behind - text);
    memcpy(place, text, length);
    place[length] = '\n';
    return length + 1;
}

// The place behind the next such byte.
static const uint8_t *place_behind(uint8_t mark, const uint8_t *at) {
    while (*at != mark) {
        at++;
    }
    return at + 1;
}

// Reads the number at a place, which is moved behind it: tabs and line feeds are below all digits.
static long read_number(const uint8_t **place) {
    long number = 0;
    for (; **place >= '0'; ++*place) {
        number = number * 10 + **place - '0';
    }
    return number;
}

// Whether two lines begin with the same name.
static int is_same_name(const uint8_t *line, const uint8_t *other) {
    for (; *line == *other && *line != '\t'; line++) {
        other++;
    }
    return *line == *other;
}

// Merges whole lines, up to a place, into the output. Answers the run that is open then.
static struct run merge_lines(struct run run, const uint8_t *line, const uint8_t *stop) {
    while (line < stop) {
        const uint8_t *at = place_behind('\t', line);
        long start = read_number(&at);
        const uint8_t *end_text = ++at;
        long end = read_number(&at);
        if (start > run.end || !is_same_name(line, run.line)) {
            run.line += run.length;
            run.length = put_line(run.line, line, at);
            run.before_end = (size_t)(end_text - line);
            run.end = end;
        } else if (end > run.end) {
            run.length = run.before_end + put_line(run.line + run.before_end, end_text, at);
            run.end = end;
        }
        line = place_behind('\n', at);
    }
    return run;
}

int main(int count, char **words) {
    int file = count > 1 ? open(words[1], O_RDONLY) : STDIN_FILENO;
    // No run is open yet: each start is behind this end.
    struct run run = {output, 0, 0, -1};
    // So many bytes at the front of the input are of a line that isn't whole yet.
    size_t held = 0;
    ssize_t taken;
    while ((taken = read(file, input + held, BLOCK - held)) > 0 || (taken == 0 && held > 0)) {
        if (taken == 0) {
            // The last line has no line feed.
            input[held] = '\n';
            taken = 1;
        }
        const uint8_t *stop = input + held + taken, *whole = stop;
        while (whole > input && whole[-1] != '\n') {
            whole--;
        }
        run = merge_lines(run, input, whole);
        write_until(run.line);
        memmove(output, run.line, run.length);
        run.line = output;
        held = (size_t)(stop - whole);
        memmove(input, whole, held);
        // Of a line longer than a block only further columns are dropped.
        held = held < BLOCK ? held : BLOCK / 2;
    }
    write_until(output + run.length);
    return taken < 0;
}
