/* Reads a script of files, reads and writes from standard input, makes its calls in the folder that it is run in, one after
   another, and writes a line `out` for each. std_runs.py compares it with the program's word `std`. */

#include <fcntl.h>
#include <stdio.h>
#include <stdlib.h>
#include <string.h>
#include <unistd.h>

enum { FILES = 64, LONGEST = 16384 };

static int opened[FILES];
static unsigned char bytes[LONGEST];

static int digit(char c) {
    return c <= '9' ? c - '0' : c - 'a' + 10;
}

/* The bytes of pairs of digits up to the line's end, and how many they are. */
static size_t bytes_of(const char *hex) {
    size_t count = 0;
    while (hex[0] > ' ' && hex[0] != '-' && count < LONGEST) {
        bytes[count++] = (unsigned char)(digit(hex[0]) * 16 + digit(hex[1]));
        hex += 2;
    }
    return count;
}

static void tell(long job, ssize_t result, size_t count) {
    printf("out %ld %zd ", job, result);
    for (size_t i = 0; i < count; i++) {
        putchar("0123456789abcdef"[bytes[i] >> 4]);
        putchar("0123456789abcdef"[bytes[i] & 15]);
    }
    putchar('\n');
}

static void put_in(long number, const char *hex) {
    char name[24];
    size_t count = bytes_of(hex);
    snprintf(name, sizeof name, "f%ld", number);
    opened[number] = open(name, O_RDWR | O_CREAT | O_TRUNC | O_CLOEXEC, 0666);
    if (write(opened[number], bytes, count) != (ssize_t)count) exit(1);
}

int main(void) {
    char *line = NULL;
    size_t room = 0;
    long job = 0;
    while (getline(&line, &room, stdin) > 0) {
        char *rest = strchr(line, ' ') + 1;
        long number = strtol(rest, &rest, 10);
        if (line[0] == 'f') {
            put_in(number, rest + 1);
            continue;
        }
        long offset = strtol(rest, &rest, 10);
        if (line[0] == 'r') {
            size_t count = (size_t)strtol(rest, &rest, 10);
            memset(bytes, 0, count);
            tell(job++, pread(opened[number], bytes, count, offset), count);
        } else {
            size_t count = bytes_of(rest + 1);
            tell(job++, pwrite(opened[number], bytes, count, offset), count);
        }
    }
    free(line);
    return 0;
}
