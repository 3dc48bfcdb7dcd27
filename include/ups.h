/* ups: uniform Powell-Sabin surfaces on a triangular grid. A net of control triangles is a spline surface. The library
 * gives its Bezier nets and surface points, refines it, both with an outline of the door and without, gives the points
 * of two refinements at one place, splits it into a coarse net and details, cleans details and merges both again, makes
 * the net through given points, and writes and reads the net file. Its functions are proved to meet their contracts;
 * the static inline ones of this header are tested against them. The repository's docs/REFERENCE.md has the formulas
 * and the net file. For C99 or later, and C++.
 *
 * Slices. A slice x is a pointer x, then its length x_len in elements. A slice of length 0 may have a null pointer. A
 * slice that is written overlaps no other slice of the same call; slices that are only read may overlap.
 *
 * Answers. Every call answers UPS_ACCEPTED, or the number of its first fault in the order that its comment gives. After
 * a refusal nothing that was lent has changed but the search of a call with an outline, where its comment says so. No
 * call has a precondition except valid slices.
 *
 * Memory. Nets, details, outlines, given points and outputs may be longer than the lengths in a comment: what is beyond
 * those that count is neither read nor changed, and nothing after a result changes. No call needs an initialisation, a
 * heap or global state; calls may run on several threads at once, each with its own outputs. Splitting and merging take
 * less than 40 KB of stack, for a row; the other calls less than 4 KB.
 *
 * Nets. Width w and height h count vertices; vertex (i, j) has column i and row j. Each has a control triangle c1, c2,
 * c3, each x, y, z, in units of 1/1024 mm, from -16,777,216 to 16,777,216. A net stores the vertices row by row, c1 to
 * c3 of each, UPS_RECORD numbers a vertex. Details are stored in the same order, UPS_DETAIL_RECORD numbers a vertex,
 * from -33,554,432 to 33,554,432.
 *
 * Grid. Cell (i, j) has an up triangle with the corners (i, j), (i+1, j), (i, j+1), and a down triangle with the
 * corners (i+1, j), (i, j+1), (i+1, j+1). A place (p, q) counts 1,024ths of an edge, UPS_EDGE, p up to 1024(w-1) and q
 * up to 1024(h-1). Values are rounded to the nearest whole number, halves away from zero (document 02, d). So a net
 * with a coordinate negated, a left door for a right one, gives points, nets, details and Bezier nets with that
 * coordinate negated, and is refused alike.
 *
 * Outlines. An outline says which triangles of a net are on the door: one byte a triangle, 1 present and 0 missing, row
 * by row and cell by cell, up before down: byte 2(j(w-1) + i) is of the up triangle of cell (i, j), the next one of its
 * down triangle. A place is on the door where some present triangle has it, edges included. Where a net is refined, the
 * present triangles have to be connected by edges. */
#ifndef UPS_H
#define UPS_H

#include <stddef.h>
#include <stdint.h>

#ifdef __cplusplus
extern "C" {
#endif

/* Numbers of a vertex in a net, in details and in given points, of a point, of the two points of a seam and of a Bezier
 * net; words of a vertex in a file. */
#define UPS_RECORD 9
#define UPS_DETAIL_RECORD 9
#define UPS_GIVEN_RECORD 9
#define UPS_POINT 3
#define UPS_SEAM_POINTS 6
#define UPS_BEZIER 57
#define UPS_FILE_WORDS 9

/* Parts of an edge that a place counts. */
#define UPS_EDGE 1024

/* A side of a net counts from UPS_LEAST_SIDE to UPS_GREATEST_SIDE vertices; k steps are at most UPS_GREATEST_DEPTH. */
#define UPS_LEAST_SIDE 2
#define UPS_GREATEST_SIDE 1025
#define UPS_GREATEST_DEPTH 6

/* What a call answers; ups_refusal_text says each in words. */
enum ups_refusal {
    UPS_ACCEPTED = 0,
    UPS_SIZE = 1,
    UPS_SHORT = 2,
    UPS_RANGE = 3,
    UPS_DEPTH = 4,
    UPS_ROOM = 5,
    UPS_PLACE = 6,
    UPS_MISSING_WORD = 7,
    UPS_WRONG_WORD = 8,
    UPS_TRAILING = 9,
    UPS_EVEN = 10,
    UPS_RESULT = 11,
    UPS_THRESHOLD = 12,
    UPS_OUTLINE_BYTE = 13,
    UPS_NOT_CONNECTED = 14,
    UPS_OFF_DOOR = 15,
    UPS_CONTROL_RANGE = 16
};

static inline const char *ups_refusal_text(uint32_t refusal) {
    switch (refusal) {
    case UPS_ACCEPTED: return "accepted";
    case UPS_SIZE: return "a side of the net is below 2 or above 1,025";
    case UPS_SHORT: return "the net, the details, the outline or the given points are shorter than the size needs";
    case UPS_RANGE: return "a number is beyond its range";
    case UPS_DEPTH: return "more than 6 steps, or a refined side above 1,025";
    case UPS_ROOM: return "a lent output or scratch is too short";
    case UPS_PLACE: return "the net has no such vertex, triangle or place";
    case UPS_MISSING_WORD: return "the file ends where a word is due";
    case UPS_WRONG_WORD: return "the file has another word than the one that is due";
    case UPS_TRAILING: return "the file has bytes after its end word";
    case UPS_EVEN: return "split and clean need odd sides";
    case UPS_RESULT: return "a number of the result is beyond the net range";
    case UPS_THRESHOLD: return "the threshold is above 33,554,432";
    case UPS_OUTLINE_BYTE: return "a byte of the outline is neither 0 nor 1";
    case UPS_NOT_CONNECTED: return "the present triangles are none, or not connected by edges";
    case UPS_OFF_DOOR: return "the place or the triangle is off the door";
    case UPS_CONTROL_RANGE: return "a control value of the net through the given points is beyond the net range";
    default: return "not a refusal of this library";
    }
}

/* Sizes, before memory is lent. Each is 0 where the library refuses the sides or the steps anyway, so that nothing
 * overflows, whatever is asked: the call then says why and writes nothing. */

/* A side after k steps of refining: (side - 1) times 2 to the power k, plus 1. */
static inline size_t ups_side_after(size_t side, size_t k) {
    size_t after;
    if (side < UPS_LEAST_SIDE || side > UPS_GREATEST_SIDE || k > UPS_GREATEST_DEPTH) {
        return 0;
    }
    after = ((side - 1) << k) + 1;
    return after > UPS_GREATEST_SIDE ? 0 : after;
}

/* Numbers of the net of w by h after k steps. */
static inline size_t ups_refined_numbers(size_t w, size_t h, size_t k) {
    return UPS_RECORD * ups_side_after(w, k) * ups_side_after(h, k);
}

/* Numbers of the scratch for k steps: the net after k - 1 steps where k is 2 or more, else none. */
static inline size_t ups_scratch_numbers(size_t w, size_t h, size_t k) {
    return k < 2 || ups_refined_numbers(w, h, k) == 0 ? 0 : ups_refined_numbers(w, h, k - 1);
}

/* Numbers of a net. */
static inline size_t ups_net_numbers(size_t w, size_t h) {
    return ups_refined_numbers(w, h, 0);
}

/* Triangles of the net of w by h after k steps: bytes of its outline. */
static inline size_t ups_refined_triangles(size_t w, size_t h, size_t k) {
    return ups_refined_numbers(w, h, k) == 0 ? 0 : 2 * (ups_side_after(w, k) - 1) * (ups_side_after(h, k) - 1);
}

/* Triangles of a net: bytes of its outline, and numbers of the search. */
static inline size_t ups_triangles(size_t w, size_t h) {
    return ups_refined_triangles(w, h, 0);
}

/* A side of the coarse net: (side + 1)/2 of an odd side. */
static inline size_t ups_coarse_side(size_t side) {
    return ups_side_after(side, 0) == 0 || side % 2 == 0 ? 0 : side / 2 + 1;
}

/* Numbers of the coarse net of a net of w by h. */
static inline size_t ups_coarse_numbers(size_t w, size_t h) {
    return ups_net_numbers(ups_coarse_side(w), ups_coarse_side(h));
}

/* Numbers of the details of a net of w by h, the fine net. */
static inline size_t ups_detail_numbers(size_t w, size_t h) {
    return ups_coarse_numbers(w, h) == 0 ? 0 : UPS_DETAIL_RECORD * w * h;
}

/* Numbers of the given points of a net of w by h. */
static inline size_t ups_given_numbers(size_t w, size_t h) {
    return ups_net_numbers(w, h) == 0 ? 0 : UPS_GIVEN_RECORD * w * h;
}

/* Bytes of the file of a net: width, height, the numbers and the end, in words of 4 bytes. */
static inline size_t ups_file_bytes(size_t w, size_t h) {
    return ups_net_numbers(w, h) == 0 ? 0 : 4 * (UPS_FILE_WORDS * w * h + 3);
}

/* The payload of a file's word, high byte first: all but the upper 4 bits. */
static inline size_t ups_word_payload(const uint8_t *word) {
    return (size_t)(word[0] & 15) << 24 | (size_t)word[1] << 16 | (size_t)word[2] << 8 | word[3];
}

/* Numbers of the net of a file, by the width and height in its first two words, whatever the words' kinds: the room
 * that ups_read needs. 0 also where these words are not there. */
static inline size_t ups_file_numbers(const uint8_t *file, size_t file_len) {
    return file_len < 8 ? 0 : ups_net_numbers(ups_word_payload(file), ups_word_payload(file + 4));
}

/* Why ups_vertex gives no record; no number is tested.
 * Refuses: UPS_SIZE, UPS_PLACE, UPS_SHORT.
 * Lengths: net ups_net_numbers(w, h).
 * Writes: nothing. */
uint32_t ups_vertex_refusal(const int32_t *net, size_t net_len, size_t w, size_t h, size_t i, size_t j);

/* The Bezier net of a triangle: of the up triangle of cell (i, j) where down is 0, of its down triangle where down is
 * 1. These are 19 points x, y, z, times 36, which makes them whole, in the order s1 s2 s3, u12 u13 u21 u23 u31 u32,
 * v1 v2 v3, r12 r13 r23, m12 m13 m23, z.
 * Refuses: UPS_SIZE, UPS_PLACE (no such cell, or down above 1), UPS_SHORT, UPS_ROOM, UPS_RANGE (of the triangle's nine
 * control points alone).
 * Lengths: net ups_net_numbers(w, h), out UPS_BEZIER.
 * Writes: the first UPS_BEZIER numbers of out. */
uint32_t ups_bezier_net(const int32_t *net, size_t net_len, size_t w, size_t h, size_t i, size_t j, uint32_t down,
                        int32_t *out, size_t out_len);

/* The surface point at place (p, q), x, y, z in the net's units, each rounded once.
 * Refuses: UPS_SIZE, UPS_PLACE, UPS_SHORT, UPS_ROOM, UPS_RANGE (of the nine control points of the place's triangle
 * alone).
 * Lengths: net ups_net_numbers(w, h), out UPS_POINT.
 * Writes: the first UPS_POINT numbers of out. */
uint32_t ups_surface_point(const int32_t *net, size_t net_len, size_t w, size_t h, size_t p, size_t q,
                           int32_t *out, size_t out_len);

/* The surface point of ups_surface_point in millimetres: each of its numbers divided by 1024.
 * Refuses, lengths, writes: as ups_surface_point. */
uint32_t ups_view_point(const int32_t *net, size_t net_len, size_t w, size_t h, size_t p, size_t q,
                        double *out, size_t out_len);

/* The net after k steps of refining, of ups_side_after(w, k) by ups_side_after(h, k). With k = 0 it is a copy.
 * Refuses: UPS_SIZE, UPS_DEPTH, UPS_SHORT, UPS_ROOM (of out or scratch), UPS_RANGE.
 * Lengths: net ups_net_numbers(w, h), out ups_refined_numbers(w, h, k), scratch ups_scratch_numbers(w, h, k).
 * Writes: the first ups_refined_numbers(w, h, k) numbers of out. Where accepted, the first ups_scratch_numbers(w, h, k)
 * numbers of scratch may be anything afterwards. */
uint32_t ups_refine(const int32_t *net, size_t net_len, size_t w, size_t h, size_t k,
                    int32_t *out, size_t out_len, int32_t *scratch, size_t scratch_len);

/* The net after k steps, as ups_refine gives it, and the surface point at place (p, q) of that net. Each coordinate of
 * the point is within (k + 1)/2 units of the exact spline of the starting net, and between the least and the greatest
 * of the nine control values of each starting triangle that the place lies in.
 * Refuses: UPS_SIZE, UPS_DEPTH, UPS_PLACE (of the refined net), UPS_SHORT, UPS_ROOM (of out, scratch or point),
 * UPS_RANGE.
 * Lengths: as ups_refine, point UPS_POINT.
 * Writes: as ups_refine, and the first UPS_POINT numbers of point. */
uint32_t ups_refined_point(const int32_t *net, size_t net_len, size_t w, size_t h, size_t k, size_t p, size_t q,
                           int32_t *out, size_t out_len, int32_t *scratch, size_t scratch_len,
                           int32_t *point, size_t point_len);

/* One place of the net on both sides of a seam, where a refinement by k steps meets one by l: the net after k steps in
 * out and the net after l steps in out2, as ups_refine gives them, and in points x, y, z of the surface point at place
 * (p, q) of the first, then x, y, z of that at place (p2, q2) of the second. These are the same place of the net where
 * p times 2 to the power l is p2 times 2 to the power k, and q and q2 likewise. In each coordinate the two points
 * differ by at most (k + l + 2)/2 units, and where k = l they are equal; each has the promise of ups_refined_point.
 * Refuses: UPS_SIZE, UPS_DEPTH (of k or l), UPS_PLACE (of either refined net, or not the same place of the net),
 * UPS_SHORT, UPS_ROOM (of out, scratch, out2, scratch2 or points), UPS_RANGE.
 * Lengths: net, out and scratch as ups_refine; out2 and scratch2 as out and scratch with l for k; points
 * UPS_SEAM_POINTS.
 * Writes: out and scratch as ups_refine, out2 and scratch2 as these with l for k, and the first UPS_SEAM_POINTS numbers
 * of points. */
uint32_t ups_seam_points(const int32_t *net, size_t net_len, size_t w, size_t h, size_t k, size_t l,
                         size_t p, size_t q, size_t p2, size_t q2,
                         int32_t *out, size_t out_len, int32_t *scratch, size_t scratch_len,
                         int32_t *out2, size_t out2_len, int32_t *scratch2, size_t scratch2_len,
                         int32_t *points, size_t points_len);

/* Whether an outline is one that refining takes.
 * Refuses: UPS_SIZE, UPS_SHORT, UPS_OUTLINE_BYTE, UPS_ROOM (of search), UPS_NOT_CONNECTED.
 * Lengths: outline and search ups_triangles(w, h).
 * Writes: nothing but the first ups_triangles(w, h) numbers of search, which may be anything afterwards where the call
 * is accepted or answers UPS_NOT_CONNECTED. */
uint32_t ups_check_outline(const uint8_t *outline, size_t outline_len, size_t w, size_t h,
                           uint32_t *search, size_t search_len);

/* As ups_bezier_net, of a triangle that is present.
 * Refuses: UPS_SIZE, UPS_PLACE, UPS_SHORT (of net or outline), UPS_OUTLINE_BYTE, UPS_OFF_DOOR (the triangle is
 * missing), UPS_ROOM, UPS_RANGE (of the triangle's nine control points alone).
 * Lengths: as ups_bezier_net, outline ups_triangles(w, h).
 * Writes: as ups_bezier_net. */
uint32_t ups_bezier_net_outlined(const int32_t *net, size_t net_len, size_t w, size_t h,
                                 const uint8_t *outline, size_t outline_len, size_t i, size_t j, uint32_t down,
                                 int32_t *out, size_t out_len);

/* As ups_surface_point, at a place on the door. All bytes of the outline are tested, so the time grows with them.
 * Refuses: UPS_SIZE, UPS_PLACE, UPS_SHORT (of net or outline), UPS_OUTLINE_BYTE, UPS_OFF_DOOR, UPS_ROOM, UPS_RANGE (of
 * the nine control points of the place's triangle alone, also where that triangle is missing and another has the
 * place).
 * Lengths: as ups_surface_point, outline ups_triangles(w, h).
 * Writes: as ups_surface_point. */
uint32_t ups_surface_point_outlined(const int32_t *net, size_t net_len, size_t w, size_t h,
                                    const uint8_t *outline, size_t outline_len, size_t p, size_t q,
                                    int32_t *out, size_t out_len);

/* The surface point of ups_surface_point_outlined in millimetres: each of its numbers divided by 1024.
 * Refuses, lengths, writes: as ups_surface_point_outlined. */
uint32_t ups_view_point_outlined(const int32_t *net, size_t net_len, size_t w, size_t h,
                                 const uint8_t *outline, size_t outline_len, size_t p, size_t q,
                                 double *out, size_t out_len);

/* The net after k steps, as ups_refine gives it, and its outline: a triangle of it is present where it lies in a
 * present triangle of the net. With k = 0 both are copies.
 * Refuses: UPS_SIZE, UPS_DEPTH, UPS_SHORT (of net or outline), UPS_OUTLINE_BYTE, UPS_ROOM (of out, scratch, fine or
 * search), UPS_NOT_CONNECTED, UPS_RANGE (of every vertex).
 * Lengths: as ups_refine, outline and search ups_triangles(w, h), fine ups_refined_triangles(w, h, k).
 * Writes: as ups_refine, and the first ups_refined_triangles(w, h, k) bytes of fine. The first ups_triangles(w, h)
 * numbers of search may be anything afterwards where the call is accepted or answers UPS_NOT_CONNECTED or UPS_RANGE. */
uint32_t ups_refine_outlined(const int32_t *net, size_t net_len, size_t w, size_t h, size_t k,
                             const uint8_t *outline, size_t outline_len,
                             int32_t *out, size_t out_len, int32_t *scratch, size_t scratch_len,
                             uint8_t *fine, size_t fine_len, uint32_t *search, size_t search_len);

/* The net after k steps and its outline, as ups_refine_outlined gives them, and the surface point at place (p, q) of
 * that net, which is on the door, with the promise of ups_refined_point.
 * Refuses: UPS_SIZE, UPS_DEPTH, UPS_PLACE (of the refined net), UPS_SHORT (of net or outline), UPS_OUTLINE_BYTE,
 * UPS_OFF_DOOR, UPS_ROOM (of out, scratch, fine, search or point), UPS_NOT_CONNECTED, UPS_RANGE (of every vertex).
 * Lengths: as ups_refine_outlined, point UPS_POINT.
 * Writes: as ups_refine_outlined, and the first UPS_POINT numbers of point. */
uint32_t ups_refined_point_outlined(const int32_t *net, size_t net_len, size_t w, size_t h, size_t k,
                                    const uint8_t *outline, size_t outline_len, size_t p, size_t q,
                                    int32_t *out, size_t out_len, int32_t *scratch, size_t scratch_len,
                                    uint8_t *fine, size_t fine_len, uint32_t *search, size_t search_len,
                                    int32_t *point, size_t point_len);

/* The coarse net, of ups_coarse_side(w) by ups_coarse_side(h), and the details: the net minus one step of refining of
 * the coarse net. The details of vertices with even column and row are 0. Merging both gives the net again.
 * Refuses: UPS_SIZE, UPS_EVEN, UPS_SHORT, UPS_ROOM (of either output), UPS_RANGE, UPS_RESULT (of the coarse net).
 * Lengths: net ups_net_numbers(w, h), coarse ups_coarse_numbers(w, h), details ups_detail_numbers(w, h).
 * Writes: the first numbers of coarse and of details, as many as the lengths above. */
uint32_t ups_split(const int32_t *net, size_t net_len, size_t w, size_t h,
                   int32_t *coarse, size_t coarse_len, int32_t *details, size_t details_len);

/* The net of a coarse net of w by h and details of the fine sides, W = ups_side_after(w, 1) and
 * H = ups_side_after(h, 1): one step of refining of the coarse net, plus the details.
 * Refuses: UPS_SIZE, UPS_DEPTH (of one step), UPS_SHORT (of either input), UPS_ROOM, UPS_RANGE (of either input),
 * UPS_RESULT.
 * Lengths: coarse ups_net_numbers(w, h), details ups_detail_numbers(W, H), out ups_refined_numbers(w, h, 1).
 * Writes: the first ups_refined_numbers(w, h, 1) numbers of out. */
uint32_t ups_merge(const int32_t *coarse, size_t coarse_len, const int32_t *details, size_t details_len,
                   size_t w, size_t h, int32_t *out, size_t out_len);

/* Sets each detail of size below t to 0; w and h are the fine net's. Merging the details of a split, cleaned once with
 * t above 0, moves no number of the net by t or more.
 * Refuses: UPS_SIZE, UPS_EVEN, UPS_THRESHOLD, UPS_SHORT, UPS_RANGE.
 * Lengths: details ups_detail_numbers(w, h).
 * Writes: those of the first ups_detail_numbers(w, h) details that are of size below t. */
uint32_t ups_clean(int32_t *details, size_t details_len, size_t w, size_t h, uint32_t t);

/* The net through given points, by Hermite interpolation. Given are a point p and two vectors t1 and t2 of each vertex,
 * in this order, each x, y, z, UPS_GIVEN_RECORD numbers a vertex, row by row; they may be any numbers at all. The
 * control points are c1 = p + t1, c2 = p + t2 and c3 = p - t1 - t2, exactly. The surface point at every vertex is p,
 * and so it is after one step of refining; after more steps it may differ. Each quadratic piece of the exact spline
 * that meets the vertex has the derivatives 2 t1 along (1, 0) and 2 t2 along (-1, 1) there, for one edge. No other net
 * has these points and derivatives at its vertices.
 * Refuses: UPS_SIZE, UPS_SHORT, UPS_ROOM, UPS_CONTROL_RANGE.
 * Lengths: given ups_given_numbers(w, h), out ups_net_numbers(w, h).
 * Writes: the first ups_net_numbers(w, h) numbers of out. */
uint32_t ups_from_points(const int32_t *given, size_t given_len, size_t w, size_t h, int32_t *out, size_t out_len);

/* The file of a net, and the count of its bytes.
 * Refuses: UPS_SIZE, UPS_SHORT, UPS_ROOM (of either output), UPS_RANGE.
 * Lengths: net ups_net_numbers(w, h), out ups_file_bytes(w, h), written 1.
 * Writes: the first ups_file_bytes(w, h) bytes of out, and written[0]. */
uint32_t ups_write(const int32_t *net, size_t net_len, size_t w, size_t h,
                   uint8_t *out, size_t out_len, uint64_t *written, size_t written_len);

/* The net of a file, and its width and height.
 * Refuses, word by word: UPS_MISSING_WORD, UPS_WRONG_WORD, UPS_SIZE at the width and at the height; then UPS_ROOM (of
 * either output); UPS_MISSING_WORD, UPS_WRONG_WORD, UPS_RANGE at each number; UPS_MISSING_WORD, UPS_WRONG_WORD at the
 * end word; UPS_TRAILING.
 * Lengths: net ups_file_numbers(file, file_len), size 2.
 * Writes: the first ups_file_numbers(file, file_len) numbers of net, size[0] the width and size[1] the height. */
uint32_t ups_read(const uint8_t *file, size_t file_len, int32_t *net, size_t net_len, uint64_t *size, size_t size_len);

/* The UPS_RECORD numbers of vertex (i, j), as that part of the net; NULL where ups_vertex_refusal does not accept. */
static inline const int32_t *ups_vertex(const int32_t *net, size_t net_len, size_t w, size_t h, size_t i, size_t j) {
    return ups_vertex_refusal(net, net_len, w, h, i, j) == UPS_ACCEPTED ? net + UPS_RECORD * (w * j + i) : NULL;
}

#ifdef __cplusplus
}
#endif

#endif
