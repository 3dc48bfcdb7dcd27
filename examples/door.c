/* Refines the net of a file once and lists its surface points at the refined vertices. The file is the one named as the
 * argument, or else standard input. The status is 1 for a refusal, 2 where the file or memory fails. */
#include <stdio.h>
#include <stdlib.h>
#include <ups.h>

static void fail(const char *what) {
    perror(what);
    exit(2);
}

/* A byte more than asked for, since malloc may answer 0 bytes with a null pointer. */
static void *lend(size_t bytes) {
    void *memory = malloc(bytes + 1);
    if (memory == NULL) {
        fail("memory");
    }
    return memory;
}

/* No file of a net is longer than the greatest net's: with one byte more, the library sees that there is too much. */
static uint8_t *load(const char *path, size_t *len) {
    size_t room = ups_file_bytes(UPS_GREATEST_SIDE, UPS_GREATEST_SIDE) + 1;
    uint8_t *file = (uint8_t *)lend(room);
    FILE *input = path == NULL ? stdin : fopen(path, "rb");
    *len = input == NULL ? 0 : fread(file, 1, room, input);
    if (input == NULL || ferror(input)) {
        fail(path == NULL ? "standard input" : path);
    }
    fclose(input);
    return file;
}

static void list(const int32_t *net, size_t net_len, size_t w, size_t h) {
    int32_t at[UPS_POINT];
    printf("net %zu %zu\n", w, h);
    for (size_t n = 0; n < w * h; n++) {
        size_t i = n % w, j = n / w;
        /* no place at a vertex of an accepted net is refused */
        if (ups_surface_point(net, net_len, w, h, UPS_EDGE * i, UPS_EDGE * j, at, UPS_POINT) == UPS_ACCEPTED) {
            printf("%zu %zu %ld %ld %ld\n", i, j, (long)at[0], (long)at[1], (long)at[2]);
        }
    }
}

/* Where reading is refused, `size` stays 0 by 0, and so there is nothing to lend for the refined net. */
static uint32_t list_refined(const uint8_t *file, size_t file_len) {
    uint64_t size[2] = {0, 0};
    size_t net_len = ups_file_numbers(file, file_len);
    int32_t *net = (int32_t *)lend(net_len * sizeof *net);
    uint32_t refusal = ups_read(file, file_len, net, net_len, size, 2);
    size_t w = (size_t)size[0], h = (size_t)size[1], out_len = ups_refined_numbers(w, h, 1);
    int32_t *out = (int32_t *)lend(out_len * sizeof *out);
    if (refusal == UPS_ACCEPTED) {
        refusal = ups_refine(net, net_len, w, h, 1, out, out_len, NULL, 0);
    }
    if (refusal == UPS_ACCEPTED) {
        list(out, out_len, ups_side_after(w, 1), ups_side_after(h, 1));
    }
    free(out);
    free(net);
    return refusal;
}

int main(int argc, char **argv) {
    size_t file_len;
    uint8_t *file = load(argc < 2 ? NULL : argv[1], &file_len);
    uint32_t refusal = list_refined(file, file_len);
    free(file);
    if (refusal != UPS_ACCEPTED) {
        printf("refused %u\n", (unsigned)refusal);
        fprintf(stderr, "%s\n", ups_refusal_text(refusal));
    }
    if (fflush(stdout) != 0 || ferror(stdout)) {
        fail("standard output");
    }
    return refusal == UPS_ACCEPTED ? 0 : 1;
}
