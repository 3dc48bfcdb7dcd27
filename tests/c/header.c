/* What ups.h adds to the library, against the library: the sizes, the room for a file's net, the record of a vertex,
 * the sentences of the refusals; and that every slice may be a null pointer with length 0. Prints a line for each
 * failure. Memory has the exact length that is lent, so that AddressSanitizer sees the header read past it. */
#include <stdio.h>
#include <stdlib.h>
#include <string.h>
#include <ups.h>

#define COUNT(array) (sizeof(array) / sizeof *(array))

static char subject[80];
static int failures;

static void about(const char *name, size_t w, size_t h, size_t k) {
    snprintf(subject, sizeof subject, "%s, %zu by %zu, %zu", name, w, h, k);
}

static void check(int good, const char *what) {
    if (!good) {
        printf("%s: %s\n", subject, what);
        failures++;
    }
}

/* Memory for `count` elements, all 0. */
static void *lend(size_t count, size_t element) {
    void *memory = calloc(count, element);
    if (memory == NULL && count > 0) {
        puts("no memory");
        exit(1);
    }
    return memory;
}

static int32_t *numbers(size_t count) {
    return (int32_t *)lend(count, sizeof(int32_t));
}

static void check_file_sizes(size_t w, size_t h) {
    size_t n = ups_net_numbers(w, h), bytes = ups_file_bytes(w, h);
    int32_t *net = numbers(n);
    uint8_t *file = (uint8_t *)lend(bytes, 1);
    uint64_t written[1] = {0}, size[2] = {0, 0};
    about("net and file", w, h, 0);
    check(ups_vertex_refusal(net, n, w, h, w - 1, h - 1) == UPS_ACCEPTED, "net");
    check(ups_vertex_refusal(net, n - 1, w, h, w - 1, h - 1) == UPS_SHORT, "a shorter net");
    check(ups_write(net, n, w, h, file, bytes - 1, written, 1) == UPS_ROOM, "a shorter file");
    check(ups_write(net, n, w, h, file, bytes, written, 1) == UPS_ACCEPTED && written[0] == bytes, "file");
    check(ups_file_numbers(file, bytes) == n, "the file's numbers");
    check(ups_read(file, bytes, net, n - 1, size, 2) == UPS_ROOM, "a shorter net to read into");
    check(ups_read(file, bytes, net, n, size, 2) == UPS_ACCEPTED && size[0] == w && size[1] == h, "reading");
    free(file);
    free(net);
}

/* The last place of the refined net tells each refined side by itself. */
static void check_refined_sides(const int32_t *net, size_t w, size_t h, size_t k) {
    size_t n = ups_net_numbers(w, h), refined = ups_refined_numbers(w, h, k), rest = ups_scratch_numbers(w, h, k);
    size_t p = UPS_EDGE * (ups_side_after(w, k) - 1), q = UPS_EDGE * (ups_side_after(h, k) - 1);
    int32_t *out = numbers(refined), *scratch = numbers(rest), at[UPS_POINT];
    check(ups_refined_point(net, n, w, h, k, p, q, out, refined, scratch, rest, at, UPS_POINT) == UPS_ACCEPTED,
          "the last place");
    check(ups_refined_point(net, n, w, h, k, p + 1, q, out, refined, scratch, rest, at, UPS_POINT) == UPS_PLACE,
          "a place beyond the width");
    check(ups_refined_point(net, n, w, h, k, p, q + 1, out, refined, scratch, rest, at, UPS_POINT) == UPS_PLACE,
          "a place beyond the height");
    free(scratch);
    free(out);
}

/* The last place on both sides of a seam, where the net meets that after k steps. */
static void check_seam(const int32_t *net, size_t w, size_t h, size_t k) {
    size_t n = ups_net_numbers(w, h), refined = ups_refined_numbers(w, h, k), rest = ups_scratch_numbers(w, h, k);
    size_t p = UPS_EDGE * (w - 1), q = UPS_EDGE * (h - 1), p2 = p << k, q2 = q << k;
    int32_t *out = numbers(n), *out2 = numbers(refined), *scratch2 = numbers(rest), at[UPS_SEAM_POINTS];
    check(ups_seam_points(net, n, w, h, 0, k, p, q, p2, q2, out, n, NULL, 0, out2, refined, scratch2, rest, at,
                          UPS_SEAM_POINTS) == UPS_ACCEPTED, "the last place of a seam");
    check(ups_seam_points(net, n, w, h, 0, k, p, q, p2 - 1, q2, out, n, NULL, 0, out2, refined, scratch2, rest, at,
                          UPS_SEAM_POINTS) == UPS_PLACE, "another place of a seam");
    check(ups_seam_points(net, n, w, h, 0, k, p, q, p2, q2, out, n, NULL, 0, out2, refined - 1, scratch2, rest, at,
                          UPS_SEAM_POINTS) == UPS_ROOM, "a shorter second output");
    check(rest == 0 || ups_seam_points(net, n, w, h, 0, k, p, q, p2, q2, out, n, NULL, 0, out2, refined, scratch2,
                                       rest - 1, at, UPS_SEAM_POINTS) == UPS_ROOM, "a shorter second scratch");
    free(scratch2);
    free(out2);
    free(out);
}

static void check_steps(size_t w, size_t h, size_t k) {
    size_t n = ups_net_numbers(w, h), refined = ups_refined_numbers(w, h, k), rest = ups_scratch_numbers(w, h, k);
    int32_t *net = numbers(n), *out = numbers(refined), *scratch = numbers(rest);
    about("steps", w, h, k);
    if (refined == 0) {
        check(rest == 0, "scratch of refused steps");
        check(ups_refine(net, n, w, h, k, out, 0, scratch, 0) == UPS_DEPTH, "refused steps");
    } else {
        check(ups_refine(net, n, w, h, k, out, refined, scratch, rest) == UPS_ACCEPTED, "output and scratch");
        check(ups_refine(net, n, w, h, k, out, refined - 1, scratch, rest) == UPS_ROOM, "a shorter output");
        check(rest == 0 || ups_refine(net, n, w, h, k, out, refined, scratch, rest - 1) == UPS_ROOM,
              "a shorter scratch");
        check_refined_sides(net, w, h, k);
        check_seam(net, w, h, k);
    }
    free(scratch);
    free(out);
    free(net);
}

/* Bytes that are all 1: an outline in which every triangle is present. */
static uint8_t *ones(size_t count) {
    uint8_t *bytes = (uint8_t *)lend(count, 1);
    for (size_t n = 0; n < count; n++) {
        bytes[n] = 1;
    }
    return bytes;
}

static void check_outline_sizes(size_t w, size_t h) {
    size_t n = ups_triangles(w, h);
    uint8_t *outline = ones(n);
    uint32_t *search = (uint32_t *)lend(n, sizeof(uint32_t));
    about("outline", w, h, 0);
    check(n == ups_refined_triangles(w, h, 0), "no steps");
    check(ups_check_outline(outline, n, w, h, search, n) == UPS_ACCEPTED, "outline and search");
    check(ups_check_outline(outline, n - 1, w, h, search, n) == UPS_SHORT, "a shorter outline");
    check(ups_check_outline(outline, n, w, h, search, n - 1) == UPS_ROOM, "a shorter search");
    free(search);
    free(outline);
}

static void check_outlined_steps(size_t w, size_t h, size_t k) {
    size_t n = ups_net_numbers(w, h), m = ups_triangles(w, h), bytes = ups_refined_triangles(w, h, k);
    size_t refined = ups_refined_numbers(w, h, k), rest = ups_scratch_numbers(w, h, k);
    int32_t *net = numbers(n), *out = numbers(refined), *scratch = numbers(rest);
    uint8_t *outline = ones(m), *fine = (uint8_t *)lend(bytes, 1);
    uint32_t *search = (uint32_t *)lend(m, sizeof(uint32_t));
    about("steps with an outline", w, h, k);
    check(ups_refine_outlined(net, n, w, h, k, outline, m, out, refined, scratch, rest, fine, bytes, search, m) ==
          (bytes == 0 ? UPS_DEPTH : UPS_ACCEPTED), "all lengths");
    for (size_t at = 0; at < bytes; at++) {
        check(fine[at] == 1, "a missing fine triangle");
    }
    check(bytes == 0 || ups_refine_outlined(net, n, w, h, k, outline, m, out, refined, scratch, rest, fine, bytes - 1,
                                            search, m) == UPS_ROOM, "a shorter fine outline");
    check(bytes == 0 || ups_refine_outlined(net, n, w, h, k, outline, m, out, refined, scratch, rest, fine, bytes,
                                            search, m - 1) == UPS_ROOM, "a shorter search");
    free(search);
    free(fine);
    free(outline);
    free(scratch);
    free(out);
    free(net);
}

static void check_merge_sizes(size_t w, size_t h, int32_t *coarse, int32_t *details) {
    size_t n = ups_net_numbers(w, h), merged = ups_refined_numbers(w, h, 1);
    size_t rest = ups_detail_numbers(ups_side_after(w, 1), ups_side_after(h, 1));
    int32_t *out = numbers(merged);
    about("merge", w, h, 1);
    check(ups_merge(coarse, n, details, rest, w, h, out, merged) == UPS_ACCEPTED, "all lengths");
    check(ups_merge(coarse, n - 1, details, rest, w, h, out, merged) == UPS_SHORT, "a shorter coarse net");
    check(ups_merge(coarse, n, details, rest - 1, w, h, out, merged) == UPS_SHORT, "shorter details");
    check(ups_merge(coarse, n, details, rest, w, h, out, merged - 1) == UPS_ROOM, "a shorter output");
    free(out);
}

static void check_split_sizes(size_t w, size_t h) {
    size_t n = ups_net_numbers(w, h), m = ups_coarse_numbers(w, h), rest = ups_detail_numbers(w, h);
    int32_t *net = numbers(n), *coarse = numbers(m), *details = numbers(rest);
    about("split and clean", w, h, 0);
    if (m == 0) {
        check(rest == 0, "details of even sides");
        check(ups_split(net, n, w, h, coarse, 0, details, 0) == UPS_EVEN, "split of even sides");
        check(ups_clean(details, 0, w, h, 1) == UPS_EVEN, "clean of even sides");
    } else {
        check(ups_split(net, n, w, h, coarse, m, details, rest) == UPS_ACCEPTED, "all lengths");
        check(ups_split(net, n, w, h, coarse, m - 1, details, rest) == UPS_ROOM, "a shorter coarse net");
        check(ups_split(net, n, w, h, coarse, m, details, rest - 1) == UPS_ROOM, "shorter details");
        check(ups_clean(details, rest, w, h, 1) == UPS_ACCEPTED, "details to clean");
        check(ups_clean(details, rest - 1, w, h, 1) == UPS_SHORT, "shorter details to clean");
        check_merge_sizes(ups_coarse_side(w), ups_coarse_side(h), coarse, details);
    }
    free(details);
    free(coarse);
    free(net);
}

static void check_given_sizes(size_t w, size_t h) {
    size_t given_len = ups_given_numbers(w, h), n = ups_net_numbers(w, h);
    int32_t *given = numbers(given_len), *out = numbers(n);
    about("given points", w, h, 0);
    check(ups_from_points(given, given_len, w, h, out, n) == UPS_ACCEPTED, "given points and net");
    check(ups_from_points(given, given_len - 1, w, h, out, n) == UPS_SHORT, "fewer given points");
    check(ups_from_points(given, given_len, w, h, out, n - 1) == UPS_ROOM, "a shorter net");
    free(out);
    free(given);
}

static void check_sizes(size_t w, size_t h) {
    check_file_sizes(w, h);
    check_split_sizes(w, h);
    check_given_sizes(w, h);
    check_outline_sizes(w, h);
    for (size_t k = 0; k <= UPS_GREATEST_DEPTH + 1; k++) {
        check_steps(w, h, k);
        check_outlined_steps(w, h, k);
    }
    check_steps(w, h, SIZE_MAX);
    check_outlined_steps(w, h, SIZE_MAX);
}

/* One side is refused at least, so the library refuses both without a net, and every size is 0. */
static void check_refused(size_t w, size_t h) {
    about("refused sides", w, h, 0);
    check(ups_vertex_refusal(NULL, 0, w, h, 0, 0) == UPS_SIZE, "the library accepts them");
    check(ups_net_numbers(w, h) == 0, "ups_net_numbers");
    for (size_t k = 0; k <= UPS_GREATEST_DEPTH; k++) {
        check(ups_side_after(w, k) == 0 || ups_side_after(h, k) == 0, "ups_side_after");
        check(ups_refined_numbers(w, h, k) == 0, "ups_refined_numbers");
        check(ups_scratch_numbers(w, h, k) == 0, "ups_scratch_numbers");
        check(ups_refined_triangles(w, h, k) == 0, "ups_refined_triangles");
    }
    check(ups_triangles(w, h) == 0, "ups_triangles");
    check(ups_file_bytes(w, h) == 0, "ups_file_bytes");
    check(ups_coarse_side(w) == 0 || ups_coarse_side(h) == 0, "ups_coarse_side");
    check(ups_coarse_numbers(w, h) == 0, "ups_coarse_numbers");
    check(ups_detail_numbers(w, h) == 0, "ups_detail_numbers");
    check(ups_given_numbers(w, h) == 0, "ups_given_numbers");
}

static void check_all_sizes(void) {
    const size_t sides[] = {2, 3, 4, 5, 17, 18, 33, 34, 65, 66, 129, 130, 257, 258, 513, 514, 1023, 1024, 1025};
    /* the last ones would overflow to small sizes in a shift by 1 or 6, or in a product with the record or 4 */
    const size_t refused[] = {0, 1, 1026, 1027, 2049, SIZE_MAX, SIZE_MAX / 2, SIZE_MAX / 2 + 3, SIZE_MAX / 64 + 3,
                              SIZE_MAX / UPS_RECORD + 1, SIZE_MAX / 4 + 2};
    for (size_t n = 0; n < COUNT(sides); n++) {
        check_sizes(sides[n], 3);
        check_sizes(2, sides[n]);
    }
    check_sizes(17, 17);
    check_sizes(UPS_GREATEST_SIDE, UPS_GREATEST_SIDE);
    for (size_t n = 0; n < COUNT(refused); n++) {
        check_refused(refused[n], 3);
        check_refused(3, refused[n]);
        check_refused(refused[n], refused[n]);
    }
}

/* A file of two words alone: with the room that it asks for, the next word is missing; with less there is no room. */
static void check_head(size_t w, size_t h) {
    uint8_t *head = (uint8_t *)lend(8, 1);
    uint64_t size[2];
    size_t n;
    int32_t *net;
    for (int byte = 0; byte < 4; byte++) {
        head[byte] = (uint8_t)(((1u << 28) + w) >> (24 - 8 * byte));
        head[4 + byte] = (uint8_t)(((2u << 28) + h) >> (24 - 8 * byte));
    }
    about("head of a file", w, h, 0);
    n = ups_file_numbers(head, 8);
    net = numbers(n);
    check(n == ups_net_numbers(w, h), "numbers");
    check(ups_read(head, 8, net, n, size, 2) == (n == 0 ? UPS_SIZE : UPS_MISSING_WORD), "reading");
    check(n == 0 || ups_read(head, 8, net, n - 1, size, 2) == UPS_ROOM, "a shorter net");
    head[0] ^= 0xf0;
    head[4] ^= 0x10;
    check(ups_file_numbers(head, 8) == n, "numbers, words of other kinds");
    check(ups_read(head, 8, net, n, size, 2) == UPS_WRONG_WORD, "reading words of other kinds");
    free(net);
    free(head);
}

static void check_file_numbers(void) {
    const size_t sides[] = {0, 1, 2, 3, 255, 256, 1025, 1026, 0x10002, 0x1000002, 0x8000002, 0xfffffff};
    uint8_t whole[4 * (6 * UPS_FILE_WORDS + 3)];
    int32_t net[6 * UPS_RECORD] = {0};
    uint64_t written[1], size[2];
    for (size_t n = 0; n < COUNT(sides); n++) {
        check_head(sides[n], 2);
        check_head(3, sides[n]);
    }
    about("file", 3, 2, 0);
    check(ups_write(net, COUNT(net), 3, 2, whole, COUNT(whole), written, 1) == UPS_ACCEPTED, "writing");
    for (size_t len = 0; len < COUNT(whole); len++) {
        uint8_t *cut = (uint8_t *)lend(len, 1);
        memcpy(cut, whole, len);
        about("cut file", 3, 2, len);
        check(ups_file_numbers(cut, len) == (len < 8 ? 0 : COUNT(net)), "numbers");
        check(ups_read(cut, len, net, ups_file_numbers(cut, len), size, 2) == UPS_MISSING_WORD, "reading");
        free(cut);
    }
    check(ups_file_numbers(NULL, 0) == 0, "numbers of no file");
}

static void check_vertices(void) {
    const size_t w = 3, h = 2, n = ups_net_numbers(w, h);
    int32_t *net = numbers(n);
    about("vertex", w, h, 0);
    for (size_t at = 0; at < n; at++) {
        net[at] = (int32_t)at;
    }
    for (size_t at = 0; at < w * h; at++) {
        const int32_t *record = ups_vertex(net, n, w, h, at % w, at / w);
        check(record == net + at * UPS_RECORD, "another record");
        check(record != NULL && record[UPS_RECORD - 1] == (int32_t)(at * UPS_RECORD + UPS_RECORD - 1), "last number");
    }
    check(ups_vertex(net, n, 1, h, 0, 0) == NULL, "a refused side");
    check(ups_vertex(net, n, w, h, w, 0) == NULL, "no such column");
    check(ups_vertex(net, n, w, h, 0, h) == NULL, "no such row");
    check(ups_vertex(net, n, w, h, SIZE_MAX, SIZE_MAX) == NULL, "the greatest column and row");
    check(ups_vertex(net, n - 1, w, h, 0, 0) == NULL, "a short net");
    check(ups_vertex(NULL, 0, w, h, 0, 0) == NULL, "no net");
    free(net);
}

static void check_texts(void) {
    const char *other = "not a refusal of this library";
    for (uint32_t a = 0; a <= UPS_CONTROL_RANGE; a++) {
        about("sentence", 0, 0, a);
        check(ups_refusal_text(a)[0] != '\0', "empty");
        check(strcmp(ups_refusal_text(a), other) != 0, "not a refusal's");
        for (uint32_t b = 0; b < a; b++) {
            check(strcmp(ups_refusal_text(a), ups_refusal_text(b)) != 0, "another refusal's");
        }
    }
    check(strcmp(ups_refusal_text(UPS_CONTROL_RANGE + 1), other) == 0, "of 17");
    check(strcmp(ups_refusal_text(UINT32_MAX), other) == 0, "of the greatest number");
}

/* For the rest: nets of 3 by 3, of 2 by 2 and of 5 by 5, and what belongs to that of 3 by 3, all accepted. */
enum {
    SIDE = 3,
    NUMBERS = SIDE * SIDE * UPS_RECORD,
    DETAILS = SIDE * SIDE * UPS_DETAIL_RECORD,
    GIVEN = SIDE * SIDE * UPS_GIVEN_RECORD,
    COARSE = 2 * 2 * UPS_RECORD,
    FINER = 5 * 5 * UPS_RECORD,
    TRIANGLES = 2 * 2 * 2,
    FINER_TRIANGLES = 2 * 4 * 4,
    BYTES = 4 * (SIDE * SIDE * UPS_FILE_WORDS + 3)
};

static int32_t net[NUMBERS], coarse[COARSE], details[DETAILS], given[GIVEN], finer[FINER], bezier[UPS_BEZIER];
static int32_t at[UPS_POINT], second[FINER], both[UPS_SEAM_POINTS];
static double view[UPS_POINT];
static uint8_t file[BYTES + 1], outline[TRIANGLES] = {1, 1, 1, 1, 1, 1, 1, 1}, fine[FINER_TRIANGLES];
static uint32_t search[TRIANGLES];
static uint64_t written[1], size[2];

/* The lengths of a point, of the points of a seam and of a Bezier net, exactly. */
static void check_lengths(void) {
    about("length", SIDE, SIDE, 0);
    check(ups_bezier_net(net, NUMBERS, SIDE, SIDE, 1, 1, 1, bezier, UPS_BEZIER) == UPS_ACCEPTED, "bezier_net");
    check(ups_bezier_net(net, NUMBERS, SIDE, SIDE, 1, 1, 1, bezier, UPS_BEZIER - 1) == UPS_ROOM, "bezier_net, less");
    check(ups_surface_point(net, NUMBERS, SIDE, SIDE, 0, 0, at, UPS_POINT) == UPS_ACCEPTED, "surface_point");
    check(ups_surface_point(net, NUMBERS, SIDE, SIDE, 0, 0, at, UPS_POINT - 1) == UPS_ROOM, "surface_point, less");
    check(ups_view_point(net, NUMBERS, SIDE, SIDE, 0, 0, view, UPS_POINT) == UPS_ACCEPTED, "view_point");
    check(ups_view_point(net, NUMBERS, SIDE, SIDE, 0, 0, view, UPS_POINT - 1) == UPS_ROOM, "view_point, less");
    check(ups_refined_point(net, NUMBERS, SIDE, SIDE, 0, 0, 0, finer, FINER, NULL, 0, at, UPS_POINT - 1) == UPS_ROOM,
          "refined_point, less");
    check(ups_seam_points(net, NUMBERS, SIDE, SIDE, 0, 0, 0, 0, 0, 0, finer, FINER, NULL, 0, second, FINER, NULL, 0,
                          both, UPS_SEAM_POINTS - 1) == UPS_ROOM, "seam_points, less");
    check(ups_bezier_net_outlined(net, NUMBERS, SIDE, SIDE, outline, TRIANGLES, 1, 1, 1, bezier, UPS_BEZIER - 1) ==
          UPS_ROOM, "bezier_net_outlined, less");
    check(ups_surface_point_outlined(net, NUMBERS, SIDE, SIDE, outline, TRIANGLES, 0, 0, at, UPS_POINT - 1) ==
          UPS_ROOM, "surface_point_outlined, less");
    check(ups_view_point_outlined(net, NUMBERS, SIDE, SIDE, outline, TRIANGLES, 0, 0, view, UPS_POINT - 1) ==
          UPS_ROOM, "view_point_outlined, less");
    check(ups_refined_point_outlined(net, NUMBERS, SIDE, SIDE, 0, outline, TRIANGLES, 0, 0, finer, FINER, NULL, 0,
                                     fine, FINER_TRIANGLES, search, TRIANGLES, at, UPS_POINT - 1) == UPS_ROOM,
          "refined_point_outlined, less");
}

/* Calls with an outline from which the down triangle of cell (1, 1) is missing, byte 7. */
static void check_outlined(void) {
    const uint8_t last = outline[TRIANGLES - 1];
    about("outlined", SIDE, SIDE, 0);
    outline[TRIANGLES - 1] = 0;
    check(ups_check_outline(outline, TRIANGLES, SIDE, SIDE, search, TRIANGLES) == UPS_ACCEPTED, "check");
    check(ups_bezier_net_outlined(net, NUMBERS, SIDE, SIDE, outline, TRIANGLES, 1, 1, 0, bezier, UPS_BEZIER) ==
          UPS_ACCEPTED, "a present triangle");
    check(ups_bezier_net_outlined(net, NUMBERS, SIDE, SIDE, outline, TRIANGLES, 1, 1, 1, bezier, UPS_BEZIER) ==
          UPS_OFF_DOOR, "a missing triangle");
    check(ups_surface_point_outlined(net, NUMBERS, SIDE, SIDE, outline, TRIANGLES, 2048, 1024, at, UPS_POINT) ==
          UPS_ACCEPTED, "a place on the door");
    check(ups_surface_point_outlined(net, NUMBERS, SIDE, SIDE, outline, TRIANGLES, 2048, 1025, at, UPS_POINT) ==
          UPS_OFF_DOOR, "a place off the door");
    check(ups_view_point_outlined(net, NUMBERS, SIDE, SIDE, outline, TRIANGLES, 2048, 1024, view, UPS_POINT) ==
          UPS_ACCEPTED, "a viewer's point on the door");
    check(ups_refine_outlined(net, NUMBERS, SIDE, SIDE, 1, outline, TRIANGLES, finer, FINER, NULL, 0, fine,
                              FINER_TRIANGLES, search, TRIANGLES) == UPS_ACCEPTED && fine[FINER_TRIANGLES - 1] == 0 &&
          fine[FINER_TRIANGLES - 2] == 0 && fine[FINER_TRIANGLES - 3] == 0 && fine[0] == 1, "refining");
    check(ups_refined_point_outlined(net, NUMBERS, SIDE, SIDE, 1, outline, TRIANGLES, 4096, 2048, finer, FINER, NULL, 0,
                                     fine, FINER_TRIANGLES, search, TRIANGLES, at, UPS_POINT) == UPS_ACCEPTED,
          "a refined point on the door");
    outline[TRIANGLES - 1] = 2;
    check(ups_check_outline(outline, TRIANGLES, SIDE, SIDE, search, TRIANGLES) == UPS_OUTLINE_BYTE, "a byte above 1");
    outline[TRIANGLES - 1] = 1;
    outline[TRIANGLES - 2] = 0;
    check(ups_check_outline(outline, TRIANGLES, SIDE, SIDE, search, TRIANGLES) == UPS_NOT_CONNECTED, "not connected");
    outline[TRIANGLES - 2] = 1;
    outline[TRIANGLES - 1] = last;
}

/* The refusals that nothing else here meets, so that every name has the library's number. */
static void check_other_refusals(void) {
    about("refusal", SIDE, SIDE, 0);
    check(ups_clean(details, DETAILS, SIDE, SIDE, 33554433) == UPS_THRESHOLD, "threshold");
    check(ups_write(net, NUMBERS, SIDE, SIDE, file, BYTES, written, 1) == UPS_ACCEPTED, "write");
    check(ups_read(file, BYTES + 1, net, NUMBERS, size, 2) == UPS_TRAILING, "trailing");
    details[0] = 33554432;
    check(ups_merge(coarse, COARSE, details, DETAILS, 2, 2, net, NUMBERS) == UPS_RESULT, "result");
    details[0] = 33554433;
    check(ups_merge(coarse, COARSE, details, DETAILS, 2, 2, net, NUMBERS) == UPS_RANGE, "range");
    details[0] = 0;
    given[0] = 16777217;
    check(ups_from_points(given, GIVEN, SIDE, SIDE, net, NUMBERS) == UPS_CONTROL_RANGE, "control range");
    given[0] = 0;
}

/* x of p, t1 and t2 of the last vertex, and the control points and the surface point there. */
static void check_through(void) {
    const int32_t due[UPS_RECORD] = {13, 0, 0, 8, 0, 0, 9, 0, 0};
    int32_t *last = given + GIVEN - UPS_GIVEN_RECORD, *through = numbers(NUMBERS);
    about("through given points", SIDE, SIDE, 0);
    last[0] = 10;
    last[3] = 3;
    last[6] = -2;
    check(ups_from_points(given, GIVEN, SIDE, SIDE, through, NUMBERS) == UPS_ACCEPTED &&
          memcmp(through + NUMBERS - UPS_RECORD, due, sizeof due) == 0, "control points");
    check(ups_surface_point(through, NUMBERS, SIDE, SIDE, 2048, 2048, at, UPS_POINT) == UPS_ACCEPTED && at[0] == 10,
          "the given point");
    last[0] = last[3] = last[6] = 0;
    free(through);
}

/* A null pointer with length 0 in the place of each slice. */
static void check_null_points(void) {
    about("null slice of points", SIDE, SIDE, 0);
    check(ups_vertex_refusal(NULL, 0, SIDE, SIDE, 0, 0) == UPS_SHORT, "vertex_refusal, net");
    check(ups_bezier_net(NULL, 0, SIDE, SIDE, 0, 0, 0, bezier, UPS_BEZIER) == UPS_SHORT, "bezier_net, net");
    check(ups_bezier_net(net, NUMBERS, SIDE, SIDE, 0, 0, 0, NULL, 0) == UPS_ROOM, "bezier_net, out");
    check(ups_surface_point(NULL, 0, SIDE, SIDE, 0, 0, at, UPS_POINT) == UPS_SHORT, "surface_point, net");
    check(ups_surface_point(net, NUMBERS, SIDE, SIDE, 0, 0, NULL, 0) == UPS_ROOM, "surface_point, out");
    check(ups_view_point(NULL, 0, SIDE, SIDE, 0, 0, view, UPS_POINT) == UPS_SHORT, "view_point, net");
    check(ups_view_point(net, NUMBERS, SIDE, SIDE, 0, 0, NULL, 0) == UPS_ROOM, "view_point, out");
}

static void check_null_refining(void) {
    about("null slice of refining", SIDE, SIDE, 1);
    check(ups_refine(NULL, 0, SIDE, SIDE, 1, finer, FINER, NULL, 0) == UPS_SHORT, "refine, net");
    check(ups_refine(net, NUMBERS, SIDE, SIDE, 1, NULL, 0, NULL, 0) == UPS_ROOM, "refine, out");
    check(ups_refine(net, NUMBERS, SIDE, SIDE, 1, finer, FINER, NULL, 0) == UPS_ACCEPTED, "refine, scratch");
    check(ups_refine(coarse, COARSE, 2, 2, 2, finer, FINER, NULL, 0) == UPS_ROOM, "refine twice, scratch");
    check(ups_refined_point(NULL, 0, SIDE, SIDE, 1, 0, 0, finer, FINER, NULL, 0, at, UPS_POINT) == UPS_SHORT,
          "refined_point, net");
    check(ups_refined_point(net, NUMBERS, SIDE, SIDE, 1, 0, 0, NULL, 0, NULL, 0, at, UPS_POINT) == UPS_ROOM,
          "refined_point, out");
    check(ups_refined_point(net, NUMBERS, SIDE, SIDE, 1, 0, 0, finer, FINER, NULL, 0, at, UPS_POINT) == UPS_ACCEPTED,
          "refined_point, scratch");
    check(ups_refined_point(coarse, COARSE, 2, 2, 2, 0, 0, finer, FINER, NULL, 0, at, UPS_POINT) == UPS_ROOM,
          "refined_point twice, scratch");
    check(ups_refined_point(net, NUMBERS, SIDE, SIDE, 1, 0, 0, finer, FINER, NULL, 0, NULL, 0) == UPS_ROOM,
          "refined_point, point");
}

static void check_null_seam(void) {
    about("null slice of a seam", SIDE, SIDE, 1);
    check(ups_seam_points(NULL, 0, SIDE, SIDE, 1, 1, 0, 0, 0, 0, finer, FINER, NULL, 0, second, FINER, NULL, 0, both,
                          UPS_SEAM_POINTS) == UPS_SHORT, "seam_points, net");
    check(ups_seam_points(net, NUMBERS, SIDE, SIDE, 1, 1, 0, 0, 0, 0, NULL, 0, NULL, 0, second, FINER, NULL, 0, both,
                          UPS_SEAM_POINTS) == UPS_ROOM, "seam_points, out");
    check(ups_seam_points(net, NUMBERS, SIDE, SIDE, 1, 1, 0, 0, 0, 0, finer, FINER, NULL, 0, NULL, 0, NULL, 0, both,
                          UPS_SEAM_POINTS) == UPS_ROOM, "seam_points, out2");
    check(ups_seam_points(net, NUMBERS, SIDE, SIDE, 1, 1, 0, 0, 0, 0, finer, FINER, NULL, 0, second, FINER, NULL, 0,
                          NULL, 0) == UPS_ROOM, "seam_points, points");
    check(ups_seam_points(net, NUMBERS, SIDE, SIDE, 1, 1, 0, 0, 0, 0, finer, FINER, NULL, 0, second, FINER, NULL, 0,
                          both, UPS_SEAM_POINTS) == UPS_ACCEPTED, "seam_points, both scratches");
    check(ups_seam_points(coarse, COARSE, 2, 2, 2, 1, 0, 0, 0, 0, finer, FINER, NULL, 0, second, FINER, NULL, 0, both,
                          UPS_SEAM_POINTS) == UPS_ROOM, "seam_points twice, scratch");
    check(ups_seam_points(coarse, COARSE, 2, 2, 1, 2, 0, 0, 0, 0, finer, FINER, NULL, 0, second, FINER, NULL, 0, both,
                          UPS_SEAM_POINTS) == UPS_ROOM, "seam_points twice, scratch2");
}

static void check_null_outline(void) {
    about("null slice of an outline", SIDE, SIDE, 0);
    check(ups_check_outline(NULL, 0, SIDE, SIDE, search, TRIANGLES) == UPS_SHORT, "check_outline, outline");
    check(ups_check_outline(outline, TRIANGLES, SIDE, SIDE, NULL, 0) == UPS_ROOM, "check_outline, search");
    check(ups_bezier_net_outlined(net, NUMBERS, SIDE, SIDE, NULL, 0, 0, 0, 0, bezier, UPS_BEZIER) == UPS_SHORT,
          "bezier_net_outlined, outline");
    check(ups_surface_point_outlined(net, NUMBERS, SIDE, SIDE, NULL, 0, 0, 0, at, UPS_POINT) == UPS_SHORT,
          "surface_point_outlined, outline");
    check(ups_view_point_outlined(net, NUMBERS, SIDE, SIDE, NULL, 0, 0, 0, view, UPS_POINT) == UPS_SHORT,
          "view_point_outlined, outline");
    check(ups_refine_outlined(net, NUMBERS, SIDE, SIDE, 1, NULL, 0, finer, FINER, NULL, 0, fine, FINER_TRIANGLES,
                              search, TRIANGLES) == UPS_SHORT, "refine_outlined, outline");
    check(ups_refine_outlined(net, NUMBERS, SIDE, SIDE, 1, outline, TRIANGLES, finer, FINER, NULL, 0, NULL, 0,
                              search, TRIANGLES) == UPS_ROOM, "refine_outlined, fine");
    check(ups_refine_outlined(net, NUMBERS, SIDE, SIDE, 1, outline, TRIANGLES, finer, FINER, NULL, 0, fine,
                              FINER_TRIANGLES, NULL, 0) == UPS_ROOM, "refine_outlined, search");
    check(ups_refined_point_outlined(net, NUMBERS, SIDE, SIDE, 1, NULL, 0, 0, 0, finer, FINER, NULL, 0, fine,
                                     FINER_TRIANGLES, search, TRIANGLES, at, UPS_POINT) == UPS_SHORT,
          "refined_point_outlined, outline");
    check(ups_refined_point_outlined(net, NUMBERS, SIDE, SIDE, 1, outline, TRIANGLES, 0, 0, finer, FINER, NULL, 0,
                                     NULL, 0, search, TRIANGLES, at, UPS_POINT) == UPS_ROOM,
          "refined_point_outlined, fine");
    check(ups_refined_point_outlined(net, NUMBERS, SIDE, SIDE, 1, outline, TRIANGLES, 0, 0, finer, FINER, NULL, 0,
                                     fine, FINER_TRIANGLES, search, TRIANGLES, NULL, 0) == UPS_ROOM,
          "refined_point_outlined, point");
}

static void check_null_details(void) {
    about("null slice of details", SIDE, SIDE, 0);
    check(ups_split(NULL, 0, SIDE, SIDE, coarse, COARSE, details, DETAILS) == UPS_SHORT, "split, net");
    check(ups_split(net, NUMBERS, SIDE, SIDE, NULL, 0, details, DETAILS) == UPS_ROOM, "split, coarse");
    check(ups_split(net, NUMBERS, SIDE, SIDE, coarse, COARSE, NULL, 0) == UPS_ROOM, "split, details");
    check(ups_merge(NULL, 0, details, DETAILS, 2, 2, net, NUMBERS) == UPS_SHORT, "merge, coarse");
    check(ups_merge(coarse, COARSE, NULL, 0, 2, 2, net, NUMBERS) == UPS_SHORT, "merge, details");
    check(ups_merge(coarse, COARSE, details, DETAILS, 2, 2, NULL, 0) == UPS_ROOM, "merge, out");
    check(ups_clean(NULL, 0, SIDE, SIDE, 1) == UPS_SHORT, "clean, details");
}

static void check_null_given(void) {
    about("null slice of given points", SIDE, SIDE, 0);
    check(ups_from_points(NULL, 0, SIDE, SIDE, net, NUMBERS) == UPS_SHORT, "from_points, given");
    check(ups_from_points(given, GIVEN, SIDE, SIDE, NULL, 0) == UPS_ROOM, "from_points, out");
    check(ups_from_points(NULL, 0, 1, SIDE, NULL, 0) == UPS_SIZE, "from_points, both");
}

static void check_null_file(void) {
    about("null slice of a file", SIDE, SIDE, 0);
    check(ups_write(NULL, 0, SIDE, SIDE, file, BYTES, written, 1) == UPS_SHORT, "write, net");
    check(ups_write(net, NUMBERS, SIDE, SIDE, NULL, 0, written, 1) == UPS_ROOM, "write, out");
    check(ups_write(net, NUMBERS, SIDE, SIDE, file, BYTES, NULL, 0) == UPS_ROOM, "write, written");
    check(ups_write(net, NUMBERS, SIDE, SIDE, file, BYTES, written, 1) == UPS_ACCEPTED, "write");
    check(ups_read(NULL, 0, net, NUMBERS, size, 2) == UPS_MISSING_WORD, "read, file");
    check(ups_read(file, BYTES, NULL, 0, size, 2) == UPS_ROOM, "read, net");
    check(ups_read(file, BYTES, net, NUMBERS, NULL, 0) == UPS_ROOM, "read, size");
}

int main(void) {
    check_all_sizes();
    check_file_numbers();
    check_vertices();
    check_texts();
    check_lengths();
    check_other_refusals();
    check_through();
    check_outlined();
    check_null_points();
    check_null_refining();
    check_null_seam();
    check_null_outline();
    check_null_details();
    check_null_given();
    check_null_file();
    return failures > 0;
}
