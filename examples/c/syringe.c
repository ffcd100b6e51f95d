/*
 * Light at a filled syringe, through the static library: a path enters the glass barrel, goes from the glass into
 * the water, and meets the steel of the needle. At the end a material book has its surfaces. The water's index is a
 * published one; the other optical values are illustrative and are no data of a material.
 *
 *   syringe           prints the path, and must print examples/expected
 *   syringe --bench   times rulvimba_bounces
 */
#include <inttypes.h>
#include <math.h>
#include <stdio.h>
#include <stdlib.h>
#include <string.h>
#include <time.h>

#include "rulvimba.h"

#define ENTRIES RULVIMBA_SAMPLES
#define FINE RULVIMBA_FINE_SAMPLES
#define MANY 1000
#define MATERIALS 4

static double glass_eta[ENTRIES], glass_k[ENTRIES], steel_eta[ENTRIES], steel_k[ENTRIES];
static double foil_eta[ENTRIES], foil_k[ENTRIES], air[ENTRIES], water[ENTRIES];
static double fine_eta[FINE], fine_k[FINE], fine_air[FINE];
static double input[MANY * RULVIMBA_BOUNCE_IN], output[MANY * RULVIMBA_BOUNCE_OUT];
static rulvimba_book_surface materials[MATERIALS], read_back[RULVIMBA_BOOK_SURFACES];
static uint8_t book[RULVIMBA_BOOK_MAX], other_book[RULVIMBA_BOOK_MAX];
static const rulvimba_color wavelengths = {450.0, 530.0, 610.0, 690.0};

/* The spectra of a surface, which are lent with it in each call. Outside the barrel is air, and inside it water: both
 * walls are glass, with a normal that points out of it. Metal has no outer spectrum, so that none is lent. */
typedef struct { const double *eta, *k, *outer; size_t len, outer_len; } spectra;
static const spectra of_outer_wall = {glass_eta, glass_k, air, ENTRIES, ENTRIES};
static const spectra of_inner_wall = {glass_eta, glass_k, water, ENTRIES, ENTRIES};
static const spectra of_fine_wall = {fine_eta, fine_k, fine_air, FINE, FINE};
static const spectra of_steel = {steel_eta, steel_k, air, ENTRIES, 0};
static const spectra of_foil = {foil_eta, foil_k, air, ENTRIES, 0};
#define LENT(s) (s).eta, (s).len, (s).k, (s).len, (s).outer, (s).outer_len

/* The refraction index of water at 20 degrees C, by the formula of Daimon and Masumura, Applied Optics 46 (2007),
 * p. 3811: wavelengths are in nm here and in micrometres there. */
static double water_index(double wavelength) {
    double l2 = wavelength * wavelength * 1e-6;
    return sqrt(1.0 + 0.5684027565 * l2 / (l2 - 0.005101829712) + 0.1726177391 * l2 / (l2 - 0.01821153936) +
                0.02086189578 * l2 / (l2 - 0.02620722293) + 0.1130748688 * l2 / (l2 - 10.69792721));
}

static uint64_t bits(double x) {
    uint64_t b;
    memcpy(&b, &x, sizeof b);
    return b;
}

static void print_path(const rulvimba_path *p) {
    printf("  wavelengths %.1f %.1f %.1f %.1f\n", p->lambda.s0, p->lambda.s1, p->lambda.s2, p->lambda.s3);
    printf("  powers      %.6f %.6f %.6f %.6f\n", p->power.s0, p->power.s1, p->power.s2, p->power.s3);
    printf("  in bits     %016" PRIx64 " %016" PRIx64 " %016" PRIx64 " %016" PRIx64 "\n", bits(p->power.s0),
           bits(p->power.s1), bits(p->power.s2), bits(p->power.s3));
}

static void print_bounce(const char *where, rulvimba_bounce_result r, const rulvimba_path *p) {
    static const char *const outcomes[] = {"refused", "lost", "reflected", "passed"};
    printf("%s: %s", where, outcomes[r.outcome]);
    if (r.outcome == RULVIMBA_REFUSED)
        printf(" %" PRIu64, r.number);
    printf("\n");
    if (r.outcome == RULVIMBA_REFLECTED || r.outcome == RULVIMBA_PASSED) {
        printf("  direction   %.6f %.6f %.6f\n", r.wi.x, r.wi.y, r.wi.z);
        if (r.density.finite)
            printf("  density     %.6f\n", r.density.value);
        else
            printf("  density     not finite\n");
    }
    if (r.shares.given)
        printf("  shares      %.6f %.6f\n", r.shares.reflected, r.shares.passed);
    print_path(p);
}

static rulvimba_vec3 turned(rulvimba_vec3 w) {
    return (rulvimba_vec3){-w.x, -w.y, -w.z};
}

static rulvimba_surface make(uint64_t kind, double roughness, spectra s) {
    rulvimba_surface_result r = rulvimba_make_surface(kind, roughness, LENT(s));
    if (r.number != 0) {
        printf("a surface is refused: %" PRIu64 "\n", r.number);
        exit(1);
    }
    return r.surface;
}

/* bounce i of the array: a path of its own, and numbers that differ from bounce to bounce */
static void fill(double *b, size_t i) {
    double t = (double)i / MANY;
    const double path[8] = {450.0, 530.0, 610.0, 690.0, 1.0, 1.0, 1.0, 1.0};
    memcpy(b, path, sizeof path);
    double z = 1.0 - 0.9 * t;
    b[8] = sqrt(1.0 - z * z);
    b[9] = 0.0;
    b[10] = z;
    b[11] = 0.0;
    b[12] = 0.0;
    b[13] = 1.0;
    b[14] = 0.0;
    b[15] = t;
    b[16] = 1.0 - t - 1.0 / (2 * MANY);
    b[17] = i % 2 ? 0.6 : -0.8;
    b[18] = i % 2 ? 0.8 : 0.6;
    for (int j = 19; j < 27; j++)
        b[j] = 0.9;
}

static void many(rulvimba_surface surface, spectra s) {
    for (size_t i = 0; i < MANY; i++)
        fill(input + i * RULVIMBA_BOUNCE_IN, i);
    input[7 * RULVIMBA_BOUNCE_IN + 15] = 1.0; /* bounce 7 has a u that is refused */
    size_t n = rulvimba_bounces(surface, LENT(s), input, MANY * RULVIMBA_BOUNCE_IN, output, MANY * RULVIMBA_BOUNCE_OUT);
    size_t outcomes[4] = {0, 0, 0, 0};
    uint64_t sum = 0;
    for (size_t i = 0; i < n; i++) {
        const double *o = output + i * RULVIMBA_BOUNCE_OUT;
        outcomes[(int)o[9]]++;
        for (int j = 0; j < RULVIMBA_BOUNCE_OUT; j++)
            sum = sum * 31 + bits(o[j]);
    }
    printf("many: %zu bounces, %zu refused, %zu lost, %zu reflected, %zu passed; sum of the bits %016" PRIx64 "\n", n,
           outcomes[0], outcomes[1], outcomes[2], outcomes[3], sum);
    printf("  the refused one has number %.0f and powers %.1f\n", output[7 * RULVIMBA_BOUNCE_OUT + 8],
           output[7 * RULVIMBA_BOUNCE_OUT + 4]);

    /* one by one, on paths in memory: the same answers */
    size_t differ = 0;
    for (size_t i = 0; i < n; i++) {
        const double *b = input + i * RULVIMBA_BOUNCE_IN;
        rulvimba_path p = {{b[0], b[1], b[2], b[3]}, {b[4], b[5], b[6], b[7]}};
        rulvimba_bounce_args a = {{b[8], b[9], b[10]},         {b[11], b[12], b[13]},
                                  b[14] != 0.0,                b[15],
                                  b[16],                       b[17],
                                  b[18],                       {b[19], b[20], b[21], b[22]},
                                  {b[23], b[24], b[25], b[26]}};
        rulvimba_bounce_result r = rulvimba_bounce(&p, surface, LENT(s), a);
        const double one[RULVIMBA_BOUNCE_OUT] = {
            p.lambda.s0,      p.lambda.s1,        p.lambda.s2,      p.lambda.s3,
            p.power.s0,       p.power.s1,         p.power.s2,       p.power.s3,
            (double)r.number, (double)r.outcome,  r.wi.x,           r.wi.y,
            r.wi.z,           (double)r.density.finite, r.density.value, (double)r.shares.given,
            r.shares.reflected, r.shares.passed};
        differ += memcmp(one, output + i * RULVIMBA_BOUNCE_OUT, sizeof one) != 0;
    }
    printf("  one by one: %zu differ\n", differ);

    /* an output with room for two: what lies past their answers is as it was */
    double few[2 * RULVIMBA_BOUNCE_OUT + 5];
    size_t few_len = sizeof few / sizeof few[0], kept = 0;
    for (size_t i = 0; i < few_len; i++)
        few[i] = -1.0;
    n = rulvimba_bounces(surface, LENT(s), input, MANY * RULVIMBA_BOUNCE_IN, few, few_len);
    for (size_t i = 2 * RULVIMBA_BOUNCE_OUT; i < few_len; i++)
        kept += few[i] == -1.0;
    printf("  room for two: %zu bounces, the first two as before: %s, %zu of 5 doubles past them kept\n", n,
           memcmp(few, output, 2 * RULVIMBA_BOUNCE_OUT * sizeof few[0]) == 0 ? "yes" : "no", kept);
}

static void print_list(const char *what, const rulvimba_candidates *list) {
    printf("%s:", what);
    for (size_t i = 0; i < list->count; i++)
        printf(" %" PRIu16 " (%.6f)", list->ids[i], list->densities[i]);
    printf("\n");
}

/* five directions, by the density with which a surface sends light from wo there, brightest first; two lie
 * as far to either side, so that they are equal and stand as they arrived. A shutter covers the first: it is
 * withdrawn */
static void brightest(rulvimba_surface surface, spectra s, rulvimba_vec3 wo) {
    static const struct { uint16_t id; rulvimba_vec3 wi; } directions[] = {
        {10, {0.0, -0.28, 0.96}}, {20, {0.0, -0.6, 0.8}},      {30, {0.0, -0.8, 0.6}},
        {40, {0.36, -0.48, 0.8}}, {50, {-0.36, -0.48, 0.8}}};
    rulvimba_candidates list = {0};
    for (size_t i = 0; i < sizeof directions / sizeof directions[0]; i++) {
        rulvimba_float_result f = rulvimba_density(surface, LENT(s), wo, directions[i].wi, true, 530.0);
        if (f.number == 0)
            rulvimba_arrive(&list, (rulvimba_candidate){directions[i].id, f.value});
    }
    print_list("brightest", &list);
    printf("  20 again: %" PRIu64, rulvimba_arrive(&list, (rulvimba_candidate){20, 1.0}));
    printf(", a density below 0: %" PRIu64, rulvimba_arrive(&list, (rulvimba_candidate){60, -1.0}));
    printf(", 20 is withdrawn: %" PRIu64, rulvimba_depart(&list, 20));
    printf(" and again: %" PRIu64 "\n", rulvimba_depart(&list, 20));
    print_list("without it", &list);
}

/* Snell's law at a wall whose normal is along z, for light that goes from the glass to the water: the index times the
 * sine of the angle is the same on both sides, but for rounding */
static void snell(rulvimba_vec3 wo, rulvimba_vec3 wi, double wavelength) {
    double in_glass = sqrt(wo.x * wo.x + wo.y * wo.y), in_water = sqrt(wi.x * wi.x + wi.y * wi.y);
    double n_glass = rulvimba_lookup(glass_eta, ENTRIES, wavelength).value;
    double n_water = rulvimba_lookup(water, ENTRIES, wavelength).value;
    double a = n_glass * in_glass, b = n_water * in_water;
    printf("Snell's law: in the glass %.6f * %.6f = %.6f, in the water %.6f * %.6f = %.6f, equal but for rounding: %s\n",
           n_glass, in_glass, a, n_water, in_water, b, fabs(a - b) < 1e-15 ? "yes" : "no");
}

/* a surface for a book: it has the roughness as it is given beside the raised one, and its spectra with it */
static rulvimba_book_surface for_book(uint64_t kind, bool two_sided, double roughness, spectra s) {
    rulvimba_surface made = make(kind, roughness, s);
    rulvimba_book_surface b = {.kind = kind, .two_sided = two_sided, .given = roughness, .entries = s.len};
    b.roughness = made.roughness;
    memcpy(b.eta, s.eta, s.len * sizeof b.eta[0]);
    memcpy(b.k, s.k, s.len * sizeof b.k[0]);
    memcpy(b.outer, s.outer, s.outer_len * sizeof b.outer[0]);
    return b;
}

/* a book of the needle's steel, the outer wall's glass and the aluminium foil of the pouch that the syringe comes in,
 * metal with two sides. The glass is handed in once more with a roughness of 0.00001, to which 0.0 is raised: the two
 * are equal, and the second is left out. Returns how many bytes the book has */
static size_t write_materials(void) {
    materials[0] = for_book(RULVIMBA_METAL, false, 0.3, of_steel);
    materials[1] = for_book(RULVIMBA_GLASS, false, 0.0, of_outer_wall);
    materials[2] = for_book(RULVIMBA_METAL, true, 0.1, of_foil);
    materials[3] = for_book(RULVIMBA_GLASS, false, 0.00001, of_outer_wall);
    rulvimba_count_result written = rulvimba_write_book(materials, MATERIALS, book, sizeof book);
    uint64_t sum = 0;
    for (size_t i = 0; i < written.count; i++)
        sum = sum * 31 + book[i];
    printf("a book of %d surfaces: %" PRIu64 ", %zu bytes; sum of the bytes %016" PRIx64 "\n", MATERIALS, written.number,
           written.count, sum);
    return written.count;
}

/* whether light has the same answer on a book's surface as on the surface itself, and the same path after it */
static const char *same_bounce(const rulvimba_book_surface *of_book, rulvimba_surface surface, spectra s,
                               rulvimba_bounce_args args) {
    rulvimba_path p, q;
    rulvimba_start(&p, wavelengths);
    q = p;
    rulvimba_bounce_result a = rulvimba_book_bounce(&p, of_book, args), b = rulvimba_bounce(&q, surface, LENT(s), args);
    return memcmp(&a, &b, sizeof a) == 0 && memcmp(&p, &q, sizeof p) == 0 ? "yes" : "no";
}

/* the book is read; light bounces on its surfaces, and any other call takes them with their own spectra */
static void read_materials(size_t len, rulvimba_surface steel, rulvimba_surface glass, rulvimba_bounce_args args) {
    rulvimba_count_result r = rulvimba_read_book(book, len, 0, read_back, RULVIMBA_BOOK_SURFACES);
    printf("  read: %" PRIu64 ", %zu surfaces", r.number, r.count);
    r = rulvimba_write_book(read_back, r.count, other_book, sizeof other_book);
    printf("; written again: %" PRIu64 ", the same bytes: %s\n", r.number,
           r.count == len && memcmp(book, other_book, len) == 0 ? "yes" : "no");
    printf("  a bounce as on the surface itself: steel %s, glass %s\n",
           same_bounce(&read_back[0], steel, of_steel, args), same_bounce(&read_back[1], glass, of_outer_wall, args));
    const rulvimba_book_surface *b = &read_back[1];
    spectra s = {b->eta, b->k, b->outer, b->entries, b->entries};
    rulvimba_surface surface = rulvimba_surface_of_book(b);
    rulvimba_float_result f = rulvimba_fresnel_at(surface, LENT(s), args.wo, args.normal, 530.0);
    printf("  the glass: roughness %.5f as given, %.5f raised; fresnel: %" PRIu64 " %.6f\n", b->given, b->roughness.x,
           f.number, f.value);
}

/* light that meets metal from behind, with the backface flag: the foil reflects it, and on the steel it is lost */
static void from_behind(rulvimba_bounce_args args) {
    args.wo.z = -args.wo.z;
    args.backface = true;
    rulvimba_path path;
    rulvimba_start(&path, wavelengths);
    rulvimba_bounce_result r = rulvimba_book_bounce(&path, &read_back[2], args);
    print_bounce("foil from behind", r, &path);
    r = rulvimba_book_bounce(&path, &read_back[0], args);
    print_bounce("steel from behind", r, &path);
}

/* a book with a wrong byte; a buffer that is a byte too short; and glass that touches water, where a book has air */
static void refused_books(size_t len) {
    memcpy(other_book, book, len);
    other_book[4 + 8 * 3] = 2; /* behind the count and three pairs: the kind of the first surface */
    rulvimba_count_result r = rulvimba_read_book(other_book, len, 0, read_back, RULVIMBA_BOOK_SURFACES);
    printf("a damaged byte: %" PRIu64, r.number);
    memset(other_book, 0xff, len);
    r = rulvimba_write_book(materials, MATERIALS, other_book, len - 1);
    size_t kept = 0;
    for (size_t i = 0; i < len; i++)
        kept += other_book[i] == 0xff;
    printf("; a byte too little room: %" PRIu64 ", %zu of %zu bytes kept\n", r.number, kept, len);
    materials[1] = for_book(RULVIMBA_GLASS, false, 0.0, of_inner_wall);
    r = rulvimba_write_book(materials, MATERIALS, other_book, sizeof other_book);
    printf("glass that touches water: to bounce on %" PRIu64 ", in a book %" PRIu64 "\n",
           rulvimba_check_book_surface(&materials[1]), r.number);
}

static void bench(const char *name, rulvimba_surface surface, spectra s) {
    for (size_t i = 0; i < MANY; i++)
        fill(input + i * RULVIMBA_BOUNCE_IN, i);
    double best = 1e9;
    for (int run = 0; run < 20; run++) {
        struct timespec a, b;
        timespec_get(&a, TIME_UTC);
        for (int times = 0; times < 100; times++)
            rulvimba_bounces(surface, LENT(s), input, MANY * RULVIMBA_BOUNCE_IN, output, MANY * RULVIMBA_BOUNCE_OUT);
        timespec_get(&b, TIME_UTC);
        double seconds = (double)(b.tv_sec - a.tv_sec) + 1e-9 * (double)(b.tv_nsec - a.tv_nsec);
        if (seconds < best)
            best = seconds;
    }
    printf("%s: %.0f ns a bounce, %.2f million bounces a second\n", name, best * 1e9 / (100.0 * MANY),
           100.0 * MANY / best / 1e6);
}

int main(int argc, char **argv) {
    for (int i = 0; i < ENTRIES; i++) {
        glass_eta[i] = 1.53 - 0.0002 * i; /* disperses a little */
        glass_k[i] = 0.0;
        air[i] = 1.0;
        water[i] = water_index(360.0 + 5.0 * i);
        steel_eta[i] = 2.0 + 0.01 * i;
        steel_k[i] = 3.0 + 0.01 * i;
        foil_eta[i] = 0.4 + 0.015 * i;
        foil_k[i] = 4.4 + 0.04 * i;
    }
    for (int i = 0; i < FINE; i++) {
        fine_eta[i] = 1.53 - 0.00004 * i; /* the same glass, 1 nm apart */
        fine_k[i] = 0.0;
        fine_air[i] = 1.0;
    }
    rulvimba_surface glass = make(RULVIMBA_GLASS, 0.0, of_outer_wall);
    rulvimba_surface rough_glass = make(RULVIMBA_GLASS, 0.2, of_outer_wall);
    rulvimba_surface steel = make(RULVIMBA_METAL, 0.3, of_steel);

    if (argc > 1 && strcmp(argv[1], "--bench") == 0) {
        bench("steel, roughness 0.3", steel, of_steel);
        bench("glass, roughness 0.2", rough_glass, of_outer_wall);
        bench("glass, smooth       ", glass, of_outer_wall);
        return 0;
    }

    rulvimba_path path;
    printf("start: %" PRIu64 "\n", rulvimba_start(&path, wavelengths));
    print_path(&path);

    /* through the barrel: wo points back to the lamp */
    rulvimba_bounce_args barrel = {{0.0, 0.6, 0.8}, {0.0, 0.0, 1.0}, false, 0.5, 0.25, 0.6, 0.8, {1.0, 1.0, 1.0, 1.0}, {0.9, 0.9, 0.9, 0.9}};
    rulvimba_bounce_result r = rulvimba_bounce(&path, glass, LENT(of_outer_wall), barrel);
    print_bounce("glass barrel", r, &path);

    /* from the glass into the water: wo is where the light came from, so the direction turned round. The surface is
     * the same, and the water's index is lent in place of the air's */
    rulvimba_bounce_args inner_wall = barrel;
    inner_wall.wo = turned(r.wi);
    inner_wall.normal = (rulvimba_vec3){0.0, 0.0, -1.0};
    r = rulvimba_bounce(&path, glass, LENT(of_inner_wall), inner_wall);
    print_bounce("inner wall, water", r, &path);
    snell(inner_wall.wo, r.wi, path.lambda.s0);

    /* the needle */
    rulvimba_bounce_args needle = barrel;
    needle.wo = turned(r.wi);
    r = rulvimba_bounce(&path, steel, LENT(of_steel), needle);
    print_bounce("needle steel", r, &path);

    /* a direction of length 2 is refused, and the path is kept */
    rulvimba_bounce_args bad = barrel;
    bad.wo.z = 2.0;
    r = rulvimba_bounce(&path, steel, LENT(of_steel), bad);
    print_bounce("too long a direction", r, &path);
    printf("a start at 200 nm: %" PRIu64 "\n", rulvimba_start(&path, (rulvimba_color){200.0, 530.0, 610.0, 690.0}));
    print_path(&path);

    /* the barrel's glass by a table at 1 nm: the surface is the same, the tables are lent */
    rulvimba_start(&path, (rulvimba_color){450.5, 530.5, 610.5, 690.5});
    r = rulvimba_bounce(&path, glass, LENT(of_fine_wall), barrel);
    print_bounce("glass barrel, 1 nm", r, &path);
    spectra mixed = {fine_eta, fine_k, water, FINE, ENTRIES};
    printf("eta and k at 1 nm, water at 5 nm: %" PRIu64, rulvimba_check_surface(glass, LENT(mixed)));
    printf("; eta at 1 nm, k at 5 nm: %" PRIu64 "\n",
           rulvimba_check_surface(glass, fine_eta, FINE, glass_k, ENTRIES, fine_air, FINE));

    /* glass is to have an outer spectrum, and 13 comes before the directions; metal has none */
    spectra nothing_outside = {glass_eta, glass_k, air, ENTRIES, 0};
    printf("no outer spectrum: glass %" PRIu64 ", with too long a direction %" PRIu64 ", steel %" PRIu64 "\n",
           rulvimba_check_surface(glass, LENT(nothing_outside)), rulvimba_lambda(glass, LENT(nothing_outside), bad.wo).number,
           rulvimba_check_surface(steel, LENT(of_steel)));

    /* terms */
    rulvimba_vec3 z = {0.0, 0.0, 1.0}, w = {0.0, 0.6, 0.8};
    rulvimba_float_result f = rulvimba_lookup(glass_eta, ENTRIES, 589.3);
    printf("lookup: %" PRIu64 " %.6f; ", f.number, f.value);
    f = rulvimba_lookup(fine_eta, FINE, 589.3);
    printf("at 1 nm: %" PRIu64 " %.6f; ", f.number, f.value);
    f = rulvimba_lookup(glass_eta, 94, 589.3);
    printf("of 94 entries: %" PRIu64 "\n", f.number);
    f = rulvimba_lambda(steel, LENT(of_steel), w);
    printf("lambda: %" PRIu64 " %.6f\n", f.number, f.value);
    f = rulvimba_g1(steel, LENT(of_steel), w, z);
    printf("g1: %" PRIu64 " %.6f\n", f.number, f.value);
    f = rulvimba_g(steel, LENT(of_steel), w, w, z);
    printf("g: %" PRIu64 " %.6f\n", f.number, f.value);
    f = rulvimba_d(steel, LENT(of_steel), z);
    printf("d: %" PRIu64 " %.6f\n", f.number, f.value);
    f = rulvimba_fresnel_at(steel, LENT(of_steel), w, z, 530.0);
    printf("fresnel at one wavelength: %" PRIu64 " %.6f\n", f.number, f.value);
    rulvimba_color_result fs = rulvimba_fresnel(steel, LENT(of_steel), w, z, wavelengths);
    printf("fresnel at four: %" PRIu64 " %.6f %.6f %.6f %.6f\n", fs.number, fs.value.s0, fs.value.s1, fs.value.s2, fs.value.s3);
    rulvimba_vec3_result n = rulvimba_sample_normal(steel, LENT(of_steel), w, 0.25, 0.6, 0.8);
    printf("sampled normal: %" PRIu64 " %.6f %.6f %.6f\n", n.number, n.value.x, n.value.y, n.value.z);
    rulvimba_direction_result d = rulvimba_reflect(w, z);
    printf("mirror: %" PRIu64 " %" PRIu64 " %.6f %.6f %.6f\n", d.number, d.outcome, d.direction.x, d.direction.y, d.direction.z);
    d = rulvimba_refract(1.5, w, z);
    printf("bend: %" PRIu64 " %" PRIu64 " %.6f %.6f %.6f\n", d.number, d.outcome, d.direction.x, d.direction.y, d.direction.z);
    d = rulvimba_refract(0.5, (rulvimba_vec3){0.0, 0.8, 0.6}, z);
    printf("bend: %" PRIu64 " %" PRIu64 "\n", d.number, d.outcome);
    f = rulvimba_density(steel, LENT(of_steel), w, (rulvimba_vec3){0.0, -0.6, 0.8}, true, 530.0);
    printf("density: %" PRIu64 " %.6f\n", f.number, f.value);
    rulvimba_surface odd = steel;
    odd.kind = 2;
    printf("a kind of 2: %" PRIu64 "\n", rulvimba_check_surface(odd, LENT(of_steel)));
    printf("steel as glass: %" PRIu64 "\n", rulvimba_make_surface(RULVIMBA_GLASS, 0.3, LENT(of_steel)).number);

    brightest(steel, of_steel, w);
    many(rough_glass, of_outer_wall);
    many(rough_glass, of_inner_wall);
    many(steel, of_steel);

    /* surfaces as bytes, for a file */
    size_t len = write_materials();
    read_materials(len, steel, glass, barrel);
    from_behind(barrel);
    refused_books(len);
    return 0;
}
