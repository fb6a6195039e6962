/* The calls that are measured, each on all its samples with n equations. */
#ifndef CALLS_H
#define CALLS_H

#include "listed.h"
#include "nets.h"

/* The shapes of kodarfi_build and kodarfi_find_weights. */
typedef uint32_t build_of(uint32_t n, const struct kodarfi_observation *observations, size_t observations_len, int64_t *matrix, size_t matrix_len,
                          int64_t *right, size_t right_len);
typedef uint32_t search_of(uint32_t n, uint32_t t, const int64_t *matrix, size_t matrix_len, const int64_t *inverse, size_t inverse_len,
                           uint32_t allowance, int64_t *weights, size_t weights_len, uint32_t *tried, uint64_t places[2]);

/* EACH samples of each of three sizes; bench/run says how many. */
enum { MOST_NETS = 3 * EACH };

/* Accepted nets of a kind, with their outcomes. */
struct nets {
    const char *what;
    uint32_t count;
    struct net nets[MOST_NETS];
    struct outcome expected[MOST_NETS];
};

/* One version of a call: `run` calls it on every sample with n equations, `agrees` is whether it answers every sample rightly. */
struct version {
    const char *name;
    void (*run)(const struct version *version, uint32_t n);
    bool (*agrees)(const struct version *version);
    const struct nets *nets;
    check_on_lists *check;
    listing_of *listing;
    build_of *build;
    search_of *search;
    uint32_t allowance;
};

/* The samples: nets and files are read, and what is in the file is not what it should be where they give false; field lines and problems are made, the same in every run. */
bool read_nets(struct nets *nets, const char *path);
bool read_files(const char *path);
void make_lists(void);
void make_problems(void);

/* Versions of the check on lists, of a listing, of a build of 8 n field lines with keys of their own, and of a search that finds no good list among the allowed ones. */
struct version checks(const char *name, check_on_lists *check, const struct nets *nets);
struct version listings(const char *name, listing_of *listing);
struct version builds(const char *name, build_of *build);
struct version searches(const char *name, search_of *search, uint32_t allowance);

/* A build in C, written apart from the proved one; the lines pass every test. */
build_of native_build;

/* Arb's arb_mat_solve_preapprox on the same nets, where it is there (arb.c): the right side and the unit columns, with the guess and the inverse as approximations. */
struct version arb_solves(const struct nets *nets);

#endif
