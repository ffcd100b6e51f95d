/*
 * rulvimba: light at metal and glass with facets (GGX), as a static library.
 *
 *   tools/build rulvimba_c         makes target/staticlib/librulvimba.a
 *   cc program.c -Iinclude target/staticlib/librulvimba.a
 *
 * Each function of the library is proved, for every input, to return what is said here and to leave in
 * memory what is said here (crates/rulvimba_c/src has the contracts, crates/rulvimba/specs their layout
 * for C, crates/book/specs/Record.antt that of a book's surface). It reads and writes nothing else, keeps
 * no state, allocates nothing, and always returns. What is asked of the caller: a pointer to an array is
 * good for the length that goes with it, a pointer to a path for eight doubles, one to a book's surface for
 * that struct, those to a list for one count, 64 ids and 64 densities; none is NULL (an array of length 0
 * included); a bool is 0 or 1; and what is written to (a path, an output, a buffer, a book's surfaces, each
 * of a list's three parts) overlaps nothing else that is handed in. The processor's float control is the
 * default (round to nearest, nothing flushed to zero): a program linked with -ffast-math, or one that sets
 * a rounding mode, gets other answers. Calls on different memory may run on different threads. The library
 * is for x86-64 with the System V ABI, as on Linux.
 *
 * NUMBERS. Every result has a number: 0 where the call is accepted, else why it is refused, one of
 * RULVIMBA_REFUSED_.. below. Checks go in the order in which each function lists them; the first that
 * fails gives the number. A refusal carries nothing besides: every other field of the result is 0, and
 * memory is as it was. NaN is outside every range. -0 counts as 0 in every range and comparison; its sign
 * is read in the z of a shading normal, where it turns a sampled direction about that normal, and of a
 * facet's normal (rulvimba_g, rulvimba_g1).
 *
 * DIRECTIONS. wo points away from the surface, back to where the light comes from; wi points to where it
 * goes. Light that goes on to another surface has there wo = -wi.
 *
 * SIDES. A normal points to the outer side. On glass eta is the refraction index of the inner side, away from
 * the normal, and outer that of the outer side: ones for air. What counts is the index of the surface, which is
 * their quotient at a wavelength, eta / outer, rounded once, and 0 at wavelength 0. Light enters where wo is on
 * the outer side, its product with the normal not below 0, and leaves where wo is on the inner side, the product
 * below 0; the normal is never turned. On rough glass the normal of the sampled facet stands for it. The
 * backface flag is read on metal alone: where it is set, the light is lost, but on two-sided metal of a material
 * book (rulvimba_book_bounce), which ignores it. On glass it does nothing. Metal without it reflects on either side.
 *
 * DENSITIES. A surface that sends light into one direction has a probability: mean roughness below 0.001,
 * or glass whose index at the leading wavelength (a path's first) is 1.0. Any other has a density per solid
 * angle, per steradian.
 */
#ifndef RULVIMBA_H
#define RULVIMBA_H

/* Raised with each change of a call, of what it answers, of a struct or of a number. */
#define RULVIMBA_VERSION 5

#include <stdbool.h>
#include <stddef.h>
#include <stdint.h>

#ifdef __cplusplus
extern "C" {
#endif

/* ---- why a call is refused ---- */
enum {
    RULVIMBA_REFUSED_ROUGHNESS = 1,     /* or a kind that is neither; of a book's surface also x or y not as given */
    RULVIMBA_REFUSED_ETA = 2,           /* or the values of a lookup */
    RULVIMBA_REFUSED_K = 3,
    RULVIMBA_REFUSED_WAVELENGTH = 4,
    RULVIMBA_REFUSED_DIRECTION = 5,
    RULVIMBA_REFUSED_RANDOM_NUMBER = 6, /* u or the disk number */
    RULVIMBA_REFUSED_CIRCLE_PAIR = 7,   /* c and s */
    RULVIMBA_REFUSED_FILTER = 8,        /* ks or tf */
    RULVIMBA_REFUSED_NOT_FINITE = 9,    /* a density that is not finite; of an arrival also one below 0 */
    RULVIMBA_REFUSED_POWER = 10,
    RULVIMBA_REFUSED_FULL = 11,         /* 64 candidates are present */
    RULVIMBA_REFUSED_ID = 12,           /* an id that arrives and is present, or departs and is not */
    RULVIMBA_REFUSED_OUTER = 13,        /* glass's outer spectrum, behind k; in a book also one that is not ones */
    RULVIMBA_REFUSED_BOOK = 14          /* no book, or one with two equal surfaces; too long, or for the buffer */
};

/* ---- what goes in ---- */

/* A surface's roughness along x and y. */
typedef struct { double x, y; } rulvimba_vec2;

/* A direction is accepted if x*x + y*y + z*z, computed, is from 0.999999 to 1.000001. */
typedef struct { double x, y, z; } rulvimba_vec3;

/* One number for each of a path's four wavelengths. */
typedef struct { double s0, s1, s2, s3; } rulvimba_color;

enum { RULVIMBA_METAL = 0, RULVIMBA_GLASS = 1 };

/*
 * How many entries a spectrum has, which tells how far apart they are: 95 at 360 nm, 365 nm, .. 830 nm, or
 * 471 at 360 nm, 361 nm, .. 830 nm.
 */
enum { RULVIMBA_SAMPLES = 95, RULVIMBA_FINE_SAMPLES = 471 };

/*
 * A surface. Its spectra are lent beside it in each call, each as a pointer and a length: the refraction
 * index eta, the absorption coefficient k and, for glass, outer, the refraction index of what lies outside it,
 * on the normal's side. They have one spacing: as many entries of each. No spacing is kept with a surface, so
 * another call may lend it tables of the other.
 * Every call that takes a surface first checks it: roughness x and y from 1e-5 to 1, else 1, and a kind
 * that is neither RULVIMBA_METAL nor RULVIMBA_GLASS is 1 too; 95 or 471 entries of eta from 0.01 to 100,
 * else 2; as many entries of k, all of them 0 or, on metal alone, all of them from 1e-6 to 100, else 3; on glass
 * as many entries of outer from 0.01 to 100, else 13.
 * Air is ones, and not an outer spectrum that is missing:
 *     double air[RULVIMBA_SAMPLES];
 *     for (int i = 0; i < RULVIMBA_SAMPLES; i++)
 *         air[i] = 1.0;
 * Metal has no outer spectrum: what is lent beside it is not read and never 13, and may be of length 0 (its
 * pointer must not be NULL even then). Between two entries a spectrum is interpolated, save an outer one that is the
 * same throughout: that gives its entry.
 */
typedef struct {
    uint64_t kind;
    rulvimba_vec2 roughness;
} rulvimba_surface;

/* A path: four wavelengths in nm, 0 for one that has ended, and the power left at each. */
typedef struct { rulvimba_color lambda, power; } rulvimba_path;

/*
 * A bounce's arguments but the path and the surface. wo and the shading normal are in world space. u and
 * disk are random numbers from 0 to below 1; c and s are the cosine and the sine of a random angle: each
 * from -1 to 1, c*c + s*s within 1e-12 of 1. ks filters what is reflected and tf what is passed, each from
 * 0 to 1.
 */
typedef struct {
    rulvimba_vec3 wo, normal;
    bool backface;
    double u, disk, c, s;
    rulvimba_color ks, tf;
} rulvimba_bounce_args;

/* ---- what comes back ---- */

typedef struct { uint64_t number; rulvimba_surface surface; } rulvimba_surface_result;
typedef struct { uint64_t number; double value; } rulvimba_float_result;
typedef struct { uint64_t number; rulvimba_color value; } rulvimba_color_result;
typedef struct { uint64_t number; rulvimba_vec3 value; } rulvimba_vec3_result;

/* A mirror's or a bend's answer. direction is zeros but for RULVIMBA_DIRECTION. */
enum { RULVIMBA_NO_ANSWER = 0, RULVIMBA_DIRECTION = 1, RULVIMBA_NONE = 2, RULVIMBA_TOTAL = 3 };
typedef struct { uint64_t number, outcome; rulvimba_vec3 direction; } rulvimba_direction_result;

/*
 * A bounce's answer. outcome is RULVIMBA_REFUSED exactly if number is not 0.
 *   wi               the new direction in world space, not renormalised; zeros if refused or lost
 *   density.finite   1 if the light is reflected or passed and its density is finite; density.value is
 *                    that density, and 0 where finite is 0. Reflected or passed with finite 0: the
 *                    density is not finite
 *   shares.given     1 on glass unless refused; reflected is the Fresnel term F at the first wavelength
 *                    and passed is 1 - F. Their sum, rounded once, is exactly 1. Zeros where given is 0
 */
enum { RULVIMBA_REFUSED = 0, RULVIMBA_LOST = 1, RULVIMBA_REFLECTED = 2, RULVIMBA_PASSED = 3 };
typedef struct {
    uint64_t number, outcome;
    rulvimba_vec3 wi;
    struct { uint64_t finite; double value; } density;
    struct { uint64_t given; double reflected, passed; } shares;
} rulvimba_bounce_result;

/* ---- surfaces ---- */

/*
 * A surface of one roughness from 0 to 1, which is raised to 1e-5 if it is lower. Refused: 1 the kind
 * or the roughness; 2 eta; 3 k; 13 outer. The spectra are not kept: lend the same ones in later calls.
 */
rulvimba_surface_result rulvimba_make_surface(uint64_t kind, double roughness, const double *eta, size_t eta_len,
                                              const double *k, size_t k_len, const double *outer, size_t outer_len);

/* The number that a surface is refused with, 1, 2, 3 or 13, or 0. */
uint64_t rulvimba_check_surface(rulvimba_surface surface, const double *eta, size_t eta_len, const double *k, size_t k_len,
                                const double *outer, size_t outer_len);

/* ---- a path in the caller's memory ---- */

/*
 * Starts a path at four wavelengths from 360 to 830. Returns 0, and *path holds the wavelengths and
 * powers of 1. Refused: 4, and *path is as it was.
 */
uint64_t rulvimba_start(rulvimba_path *path, rulvimba_color lambda);

/*
 * A bounce of *path. Refused: the surface; 4 the path's wavelengths (0 is allowed in the second to the
 * fourth); 10 a power outside 0 to 1; 5 wo, then the normal; 6 u, then disk; 7 c and s; 8 ks, then tf;
 * and *path is as it was. Otherwise *path holds the path after the bounce: on glass, unless eta is the same
 * throughout and outer is too, wavelengths two to four are 0; each power is what it was times the weight at its
 * wavelength, and 0 if the light is lost. Each power is 0 also where a surface that has a density per steradian sends
 * the light exactly along itself: wi's z along the normal, before wi is turned into world space, is 0, or in size so
 * small (at most 2^-512, some 7.5e-155) that the square of its angle's tangent is infinite. Such a bounce is reported
 * as any other, with its direction, density and shares.
 */
rulvimba_bounce_result rulvimba_bounce(rulvimba_path *path, rulvimba_surface surface, const double *eta, size_t eta_len,
                                       const double *k, size_t k_len, const double *outer, size_t outer_len,
                                       rulvimba_bounce_args b);

/*
 * Many bounces on one surface, each on a path of its own and by itself as rulvimba_bounce has it.
 * Bounce i is read from input[27 i] to input[27 i + 26], where backface is "yes" for anything but 0,
 * NaN included:
 *    0..3   wavelengths       11..13 normal                       19..22 ks
 *    4..7   powers            14     backface: yes unless 0       23..26 tf
 *    8..10  wo                15 u   16 disk   17 c   18 s
 * and its answer is written to output[18 i] to output[18 i + 17], whole numbers as doubles:
 *    0..3   wavelengths       8      number                       13 density.finite   14 density.value
 *    4..7   powers            9      outcome                      15 shares.given
 *                             10..12 wi                           16 shares.reflected 17 shares.passed
 * The wavelengths and powers are those after the bounce, and those of the input if it is refused: then
 * 8 has the number, and 9 to 17 are 0. A refused bounce does not keep the others from running.
 * Returns how many bounces were run: as many as both arrays have room for, the lesser of input_len / 27
 * and output_len / 18, rounded down. What lies past their answers in output is as it was.
 */
enum { RULVIMBA_BOUNCE_IN = 27, RULVIMBA_BOUNCE_OUT = 18 };
size_t rulvimba_bounces(rulvimba_surface surface, const double *eta, size_t eta_len, const double *k, size_t k_len,
                        const double *outer, size_t outer_len, const double *input, size_t input_len, double *output,
                        size_t output_len);

/* ---- a material book: surfaces as bytes, for a file ---- */

/*
 * A book begins with the count of its surfaces in four bytes, low byte first. Then comes for each surface a pair
 * of numbers, four bytes each, low byte first: where its part begins, from the book's first byte, and how long it
 * is. The parts follow without gaps, in the order of the pairs. A part has
 *    0        the kind: 0 metal, 1 glass
 *    1        the step: 5 or 1, the nm between two entries
 *    2        the flag: 1 two-sided, else 0
 *    3        the roughness as it was given, a double in eight bytes, low byte first
 *    11       the entries of eta, 95 or 471 such doubles, then as many of k
 * and so 1,531 or 7,547 bytes; k begins at 771 or 3,779. A book has at most 65,536 bytes: at most 42 surfaces, or 8
 * where all have 471 entries. RULVIMBA_BOOK_MAX bytes hold any book (read one byte more of a file, so that a longer
 * one is seen to be none), and RULVIMBA_BOOK_SURFACES structs, some 480 KB, all of its surfaces.
 */
enum { RULVIMBA_BOOK_MAX = 65536, RULVIMBA_BOOK_SURFACES = 42 };

/*
 * A book's surface. The roughness stands twice: as it was given, and raised to 1e-5 if that is lower (what
 * rulvimba_make_surface answers for it). The first `entries` places of each spectrum are its entries. Two-sided
 * metal ignores the backface flag of a bounce; on glass the flag is kept and does nothing.
 * A book has air outside: a surface that was read has ones in outer, and one that is to be written is to have them
 * on glass; on metal they are never looked at.
 * Every call that takes such a surface first checks it: given is from 0 to 1, and x and y both equal the greater of
 * given and 1e-5, else 1, and a kind that is neither RULVIMBA_METAL nor RULVIMBA_GLASS is 1 too; then eta, of 95 or
 * 471 entries, 2; k 3; on glass outer 13; each as on any surface.
 * To fill one: make the surface by rulvimba_make_surface, and take its kind and roughness, the roughness that it was
 * made of as given, and the spectra's entries.
 */
typedef struct {
    uint64_t kind;
    uint64_t two_sided;                   /* yes unless 0 */
    double given;
    rulvimba_vec2 roughness;              /* raised */
    size_t entries;                       /* 95 or 471, of each spectrum */
    double eta[RULVIMBA_FINE_SAMPLES];
    double k[RULVIMBA_FINE_SAMPLES];
    double outer[RULVIMBA_FINE_SAMPLES];
} rulvimba_book_surface;

typedef struct { uint64_t number; size_t count; } rulvimba_count_result;

/*
 * Reads a book, which is the whole of the bytes. Returns how many surfaces it has; those from the one at `first` on
 * (0 is the book's first) are stored in as many of the structs as there are, in the book's order; a place past a
 * spectrum's entries is 0. All structs past the last surface are as they were. With surfaces_len 0 it is the count alone.
 * Refused: 14 for bytes that are laid out in any other way, or two surfaces that are equal; then each surface in
 * order, by 1, 2, 3; and every struct is as it was.
 * Two surfaces are equal if they have the same kind, the same raised roughness and the same entries, numbers taken by
 * value; whether they are two-sided doesn't count.
 */
rulvimba_count_result rulvimba_read_book(const uint8_t *book, size_t book_len, size_t first,
                                         rulvimba_book_surface *surfaces, size_t surfaces_len);

/*
 * Writes a book of the surfaces, in their order; one that is equal to an earlier one is left out. Returns how many
 * bytes it has, which then stand at the front of the buffer; what lies past them there is as it was.
 * Refused: each surface in order, by 1, 2, 3, or 13 for glass whose outer spectrum is not 1 throughout; then 14 for a
 * book that would have more than 65,536 bytes, or more than the buffer; and the buffer is as it was.
 */
rulvimba_count_result rulvimba_write_book(const rulvimba_book_surface *surfaces, size_t surfaces_len, uint8_t *buffer,
                                          size_t buffer_len);

/* The number that a book's surface is refused with in a bounce, 1, 2, 3 or 13, or 0. (To be written it may be 13 besides,
 * where its outer spectrum is accepted but isn't ones.) */
uint64_t rulvimba_check_book_surface(const rulvimba_book_surface *surface);

/*
 * The surface that every other call takes: lend s->eta, s->k and s->outer with it, s->entries each. A book's surface
 * that is refused as 1 becomes one that they refuse as 1 too. (Before s->entries is lent as a length, it is to be at
 * most 471, as it is in every surface that isn't refused.) None of these calls knows of two-sided metal: hand
 * rulvimba_bounce and rulvimba_bounces its backface as false.
 */
rulvimba_surface rulvimba_surface_of_book(const rulvimba_book_surface *surface);

/*
 * A bounce of *path on a book's surface: what rulvimba_bounce answers and leaves on a surface of that kind, roughness
 * and spectra, but that backface counts as false on two-sided metal. Refused: the surface; then as rulvimba_bounce.
 */
rulvimba_bounce_result rulvimba_book_bounce(rulvimba_path *path, const rulvimba_book_surface *surface,
                                            rulvimba_bounce_args b);

/* ---- terms. Directions are local here: z is along the shading normal ---- */

/*
 * A spectrum's value at a wavelength, and 0 at wavelength 0. This is how eta and k are read, and an outer spectrum
 * that varies; one that is the same throughout is read as its entry instead. Refused: 2 for a length that is
 * neither 95 nor 471, or an entry that is not finite; 4 for a wavelength that is neither 0 nor from 360 to 830.
 */
rulvimba_float_result rulvimba_lookup(const double *values, size_t values_len, double lambda);

/* Facet terms: Lambda, the shadowing of one and of two directions, and the density of facet normals. Lambda of a
 * direction exactly along the surface is 0, as if nothing shadowed it; G and G1 read it so, and a bounce's weight does
 * not (rulvimba_bounce).
 * Refused: the surface; 5 a direction. */
rulvimba_float_result rulvimba_lambda(rulvimba_surface surface, const double *eta, size_t eta_len, const double *k,
                                      size_t k_len, const double *outer, size_t outer_len, rulvimba_vec3 w);
rulvimba_float_result rulvimba_g1(rulvimba_surface surface, const double *eta, size_t eta_len, const double *k,
                                  size_t k_len, const double *outer, size_t outer_len, rulvimba_vec3 wo,
                                  rulvimba_vec3 wh);
rulvimba_float_result rulvimba_g(rulvimba_surface surface, const double *eta, size_t eta_len, const double *k,
                                 size_t k_len, const double *outer, size_t outer_len, rulvimba_vec3 wo, rulvimba_vec3 wi,
                                 rulvimba_vec3 wh);
rulvimba_float_result rulvimba_d(rulvimba_surface surface, const double *eta, size_t eta_len, const double *k,
                                 size_t k_len, const double *outer, size_t outer_len, rulvimba_vec3 wh);

/* The Fresnel term at one wavelength, and at four. Refused: the surface; 5 wo, then wh; 4 a wavelength
 * that is neither 0 nor from 360 to 830. */
rulvimba_float_result rulvimba_fresnel_at(rulvimba_surface surface, const double *eta, size_t eta_len, const double *k,
                                          size_t k_len, const double *outer, size_t outer_len, rulvimba_vec3 wo,
                                          rulvimba_vec3 wh, double lambda);
rulvimba_color_result rulvimba_fresnel(rulvimba_surface surface, const double *eta, size_t eta_len, const double *k,
                                       size_t k_len, const double *outer, size_t outer_len, rulvimba_vec3 wo,
                                       rulvimba_vec3 wh, rulvimba_color lambda);

/* A facet's normal, sampled. Refused: the surface; 5 wo; 6 disk; 7 c and s. */
rulvimba_vec3_result rulvimba_sample_normal(rulvimba_surface surface, const double *eta, size_t eta_len, const double *k,
                                            size_t k_len, const double *outer, size_t outer_len, rulvimba_vec3 wo,
                                            double disk, double c, double s);

/* A mirror: the direction, or none if it lies below the surface. Refused: 5 wo, then n. */
rulvimba_direction_result rulvimba_reflect(rulvimba_vec3 wo, rulvimba_vec3 n);

/* A bend at an index, which of a surface is eta / outer, from 0.01 to 100: the direction, none, or total internal
 * reflection. A surface's own index may lie from about 0.0001 to about 10000: this call refuses what is beyond its limits.
 * Refused: 2 the index; 5 wo, then n. */
rulvimba_direction_result rulvimba_refract(double eta, rulvimba_vec3 wo, rulvimba_vec3 n);

/* The density with which wi is sampled for wo, at the leading wavelength. Refused: the surface; 5 wo, then wi;
 * 4 a wavelength outside 360 to 830, 0 included; 9 a density that is not finite. */
rulvimba_float_result rulvimba_density(rulvimba_surface surface, const double *eta, size_t eta_len, const double *k,
                                       size_t k_len, const double *outer, size_t outer_len, rulvimba_vec3 wo,
                                       rulvimba_vec3 wi, bool reflection, double lambda);

/* ---- the brightest directions: a list of candidates in the caller's memory ---- */

/* A candidate direction: the caller's number for it, from 0 to 65535, and its density. (C cuts a larger
 * number to its last 16 bits: see to it that ids fit.) */
typedef struct { uint16_t id; double density; } rulvimba_candidate;

/*
 * Up to 64 candidates: ids[0] and densities[0] are the first of the list, ids[count - 1] and
 * densities[count - 1] the last. A list is empty where count is 0, whatever the places hold, as in
 *     rulvimba_candidates list = {0};
 * Arrivals and departures are to be all that changes it. Then, after every call, it is exactly the present
 * candidates, each a single time, greatest density first and equal densities in order of arrival; count is
 * at most 64. -0.0 and 0.0 are equal densities, and each is kept as it came. A candidate that departs and
 * arrives again stands behind its equals. A list knows no measure: that its densities are all per
 * steradian, or all probabilities, is for the caller to see to.
 */
enum { RULVIMBA_CANDIDATES = 64 };
typedef struct {
    size_t count;
    uint16_t ids[RULVIMBA_CANDIDATES];
    double densities[RULVIMBA_CANDIDATES];
} rulvimba_candidates;

/*
 * An arrival, and the departure of the candidate that has the id, on the three parts of a list, wherever
 * they stand. They return 0, and the first *count places hold the new list; every place past it is as it was.
 * Refused: an arrival 9 for a density that is not finite or is below 0 (-0.0 is not); 11 if 64 are present;
 * 12 if the id is present; a departure 12 if the id is not present; and count, ids and densities are as
 * they were.
 * On a list that was filled in any other way: a count above 64 counts as 64; an arrival is put before the
 * first whose density is less than its own, or else at the end; of several with the id the first departs.
 */
uint64_t rulvimba_arrive_in(size_t *count, uint16_t *ids, double *densities, rulvimba_candidate candidate);
uint64_t rulvimba_depart_in(size_t *count, uint16_t *ids, double *densities, uint16_t id);

/* The same on a list as a struct: these two only hand its parts to the two above, and are no symbols of the
 * library. */
static inline uint64_t rulvimba_arrive(rulvimba_candidates *list, rulvimba_candidate candidate)
{
    return rulvimba_arrive_in(&list->count, list->ids, list->densities, candidate);
}

static inline uint64_t rulvimba_depart(rulvimba_candidates *list, uint16_t id)
{
    return rulvimba_depart_in(&list->count, list->ids, list->densities, id);
}

#ifdef __cplusplus
}
#endif

#endif
