// Finds the delimiters of a multipart body by the C library's memmem, a hundred times: what a program without a
// parser of its own would do. The body is the one that `soc_bench bodies` makes. With `copy` it also copies what stands
// between them into memory of its own, as a reader must that is fed in pieces.
#define _GNU_SOURCE
#include <stdint.h>
#include <stdio.h>
#include <stdlib.h>
#include <string.h>
#include <time.h>

#define BOUNDARY "------------------------d74496d66958873e"
#define FRONT                                                                                                          \
    "--" BOUNDARY                                                                                                      \
    "\r\nContent-Disposition: form-data; name=\"upload_file_minidump\"; filename=\"a.dmp\"\r\n"                        \
    "Content-Type: application/octet-stream\r\n\r\n"
#define BACK "\r\n--" BOUNDARY "--\r\n"
#define MARK "\r\n--" BOUNDARY
#define NEAR_LINE MARK "almost"

enum { TIMES = 100, MEGABYTE = 1000000 };

static void fill(unsigned char *dump, size_t length, int is_near) {
    uint64_t state = 1;
    for (size_t i = 0; i < length; i++) {
        state = state * UINT64_C(6364136223846793005) + UINT64_C(1442695040888963407);
        dump[i] = is_near ? (unsigned char)NEAR_LINE[i % (sizeof NEAR_LINE - 1)] : (unsigned char)(state >> 56);
    }
}

// Whether a mark ends as a delimiter does: perhaps two dashes, blanks, and then a line end or the body's end.
static int is_delimiter(const unsigned char *at, const unsigned char *end) {
    int closes = end - at >= 2 && at[0] == '-' && at[1] == '-';
    if (closes)
        at += 2;
    while (at < end && (*at == ' ' || *at == '\t'))
        at++;
    if (closes && at == end)
        return 1;
    return end - at >= 2 && at[0] == '\r' && at[1] == '\n';
}

// Copies bytes into memory of their own, which is freed at once.
static void copy_out(const unsigned char *from, size_t length) {
    unsigned char *copy = malloc(length + 1);
    if (copy == NULL)
        exit(1);
    memcpy(copy, from, length);
    // What was copied counts as used, so that the copy is made.
    __asm__ volatile("" : : "r"(copy) : "memory");
    free(copy);
}

// How many delimiters stand in the body, which is looked at as if a line end stood before it.
static size_t delimiters(const unsigned char *body, size_t length, int copies) {
    const unsigned char *end = body + length, *at = body, *last = body;
    size_t found = 0, first = sizeof MARK - 1 - 2;
    if (length >= first && memcmp(body, &MARK[2], first) == 0) {
        at += first;
        found += (size_t)is_delimiter(at, end);
    }
    while ((at = memmem(at, (size_t)(end - at), MARK, sizeof MARK - 1)) != NULL) {
        const unsigned char *behind = at + (sizeof MARK - 1);
        if (is_delimiter(behind, end)) {
            found++;
            if (copies)
                copy_out(last, (size_t)(at - last));
            last = behind;
        }
        at = behind;
    }
    return found;
}

int main(int argc, char **argv) {
    int copies = argc == 4 && strcmp(argv[3], "copy") == 0;
    if (argc != 3 && !copies)
        return 2;
    size_t content = strtoul(argv[1], NULL, 10) * MEGABYTE;
    size_t length = (sizeof FRONT - 1) + content + (sizeof BACK - 1);
    unsigned char *body = malloc(length);
    if (body == NULL)
        return 1;
    memcpy(body, FRONT, sizeof FRONT - 1);
    fill(body + (sizeof FRONT - 1), content, strcmp(argv[2], "near") == 0);
    memcpy(body + (sizeof FRONT - 1) + content, BACK, sizeof BACK - 1);

    struct timespec start, stop;
    size_t found = 0;
    clock_gettime(CLOCK_MONOTONIC, &start);
    for (int i = 0; i < TIMES; i++)
        found += delimiters(body, length, copies);
    clock_gettime(CLOCK_MONOTONIC, &stop);
    double micros = (double)(stop.tv_sec - start.tv_sec) * 1e6 + (double)(stop.tv_nsec - start.tv_nsec) / 1e3;
    printf("memmem %s%s: %zu delimiters, %.0f MB/s\n", argv[2], copies ? ", copied" : "", found,
           (double)content * TIMES / micros);
    free(body);
    return 0;
}
