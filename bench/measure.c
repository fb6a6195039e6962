/* Ratios of processor time, at n = 8, 16 and 32.
 *
 *   measure OFFICE DENSE ROUGH FILES    accepted nets of three kinds as tests/emit.py writes them, and those of the first as files, as tests/emit.py listing does
 *
 * A line for each: what is measured, what it is compared with, n, the ratio. Both run on the same samples in turns in one process; a ratio is taken within a
 * round, and the median of ROUNDS is printed. Every answer is compared first. With BEFORE another archive of the library is linked too, its names with before_ put before them; with ARB Arb is. */
#include "calls.h"
#include "timing.h"

enum { ROUNDS_OF_ARB = ROUNDS < 5 ? ROUNDS : 5 };

#ifdef BEFORE
check_on_lists before_kodarfi_check;
listing_of before_kodarfi_listing;
build_of before_kodarfi_build;
search_of before_kodarfi_find_weights;
#endif

static struct nets office = {.what = "check, office"}, dense = {.what = "check, dense"}, rough = {.what = "check, rough"};

/* What is done with two versions; false where it failed. */
typedef bool pair_of(const char *what, const struct version *one, const struct version *other, uint32_t rounds);

static bool compare(const char *what, const struct version *one, const struct version *other, uint32_t rounds) {
    const struct version *const both[] = {one, other};
    (void)rounds;
    for (uint32_t k = 0; k < 2; k++) {
        if (both[k]->agrees(both[k])) continue;
        fprintf(stderr, "measure: %s, '%s': an answer differs\n", what, both[k]->name);
        return false;
    }
    return true;
}

static double time_of(const struct version *version, uint32_t n) {
    const double start = processor_time();
    version->run(version, n);
    return processor_time() - start;
}

static bool measure(const char *what, const struct version *one, const struct version *other, uint32_t rounds) {
    double ratios[ROUNDS];
    for (uint32_t n = 8; n <= 32; n *= 2) {
        for (uint32_t round = 0; round < rounds; round++) {
            const double time = time_of(one, n);
            ratios[round] = time / time_of(other, n);
        }
        printf("%s\t%s\t%u\t%.4f\n", what, other->name, n, median_of(ratios, rounds));
    }
    return true;
}

static bool each_check(pair_of *each, const struct nets *nets) {
    const struct version proved = checks("check", kodarfi_check, nets);
    const struct version others[] = {
        checks("naive in C", native_check_naive, nets),
        checks("quick in C", native_check_quick, nets),
        checks("sparse in C", native_check_sparse, nets),
#ifdef BEFORE
        checks("before", before_kodarfi_check, nets),
#endif
    };
    for (uint32_t k = 0; k < sizeof others / sizeof *others; k++) {
        if (!each(nets->what, &proved, &others[k], ROUNDS)) return false;
    }
#ifdef ARB
    const struct version arb = arb_solves(nets);
    if (nets == &office && !each(nets->what, &proved, &arb, ROUNDS_OF_ARB)) return false;
#endif
    return true;
}

static bool each_other(pair_of *each) {
    const struct version check = checks("check, office", kodarfi_check, &office), listing = listings("listing", kodarfi_listing), plain = builds("plain C", native_build),
                         build = builds("build", kodarfi_build), one = searches("one list", kodarfi_find_weights, 1), search = searches("search", kodarfi_find_weights, 64);
    bool good = each("listing, office", &listing, &check, ROUNDS) && each("build of 8n lines", &build, &plain, ROUNDS) &&
                each("build of 8n lines", &build, &check, ROUNDS) && each("search, 64 lists", &search, &one, ROUNDS);
#ifdef BEFORE
    const struct version old_listing = listings("before", before_kodarfi_listing), old_build = builds("before", before_kodarfi_build),
                         old_search = searches("before", before_kodarfi_find_weights, 64);
    good = good && each("listing, office", &listing, &old_listing, ROUNDS) && each("build of 8n lines", &build, &old_build, ROUNDS) &&
           each("search, 64 lists", &search, &old_search, ROUNDS);
#endif
    return good;
}

static bool every_pair(pair_of *each) {
    return each_check(each, &office) && each_check(each, &dense) && each_check(each, &rough) && each_other(each);
}

int main(int argc, char **argv) {
    if (argc != 5) {
        fprintf(stderr, "usage: measure OFFICE DENSE ROUGH FILES\n");
        return 2;
    }
    if (!read_nets(&office, argv[1]) || !read_nets(&dense, argv[2]) || !read_nets(&rough, argv[3]) || !read_files(argv[4])) {
        fprintf(stderr, "measure: %d samples of each size were expected in each file\n", EACH);
        return 2;
    }
    make_lists();
    make_problems();
    if (!every_pair(compare) || !every_pair(measure)) return 1;
    if (fflush(stdout) != 0 || ferror(stdout)) {
        perror("measure");
        return 2;
    }
    return 0;
}
