/* Arb's arb_mat_solve_preapprox on the nets of the check: A·X = (b, I) with G / T as the approximate inverse and (X / S, G / T) as the approximate solution, at 64 bits. */
#include "calls.h"

#include <arb_mat.h>

enum { BITS = 64 };

/* A net as Arb takes it. */
struct balls {
    arb_mat_t A, right, inverse, guess, solved;
};

/* Made where answers are compared, so before anything is measured. */
static struct balls made[MOST_NETS];

static void set(arb_mat_t to, uint32_t row, uint32_t column, int64_t number, uint32_t steps) {
    arb_set_si(arb_mat_entry(to, row, column), number);
    arb_mul_2exp_si(arb_mat_entry(to, row, column), arb_mat_entry(to, row, column), -(slong)steps);
}

static void make(struct balls *y, const struct net *x) {
    const slong n = x->n;
    arb_mat_init(y->A, n, n);
    arb_mat_init(y->right, n, n + 1);
    arb_mat_init(y->inverse, n, n);
    arb_mat_init(y->guess, n, n + 1);
    arb_mat_init(y->solved, n, n + 1);
    for (uint32_t i = 0; i < x->n; i++) {
        set(y->right, i, 0, x->right[i], 0);
        set(y->right, i, i + 1, 1, 0);
        set(y->guess, i, 0, x->guess[i], x->s);
        for (uint32_t j = 0; j < x->n; j++) {
            set(y->A, i, j, x->matrix[i * x->n + j], 0);
            set(y->inverse, i, j, x->inverse[i * x->n + j], x->t);
            set(y->guess, i, j + 1, x->inverse[i * x->n + j], x->t);
        }
    }
}

static bool solve(struct balls *y) {
    return arb_mat_solve_preapprox(y->solved, y->A, y->right, y->inverse, y->guess, BITS) != 0;
}

static void run_solves(const struct version *version, uint32_t n) {
    for (uint32_t k = 0; k < version->nets->count; k++) {
        if (version->nets->nets[k].n == n) solve(&made[k]);
    }
}

/* Whether the ball meets the guess with its limit, as the exact number does. */
static bool meets(arb_srcptr ball, int64_t guess, uint64_t limit, uint32_t steps) {
    arb_t low, high;
    arb_init(low);
    arb_init(high);
    arb_set_si(low, guess - (int64_t)limit);
    arb_set_si(high, guess + (int64_t)limit);
    arb_mul_2exp_si(low, low, -(slong)steps);
    arb_mul_2exp_si(high, high, -(slong)steps);
    const bool is_met = !arb_lt(ball, low) && !arb_gt(ball, high);
    arb_clear(low);
    arb_clear(high);
    return is_met;
}

static bool solves_agree(const struct version *version) {
    bool right = true;
    for (uint32_t k = 0; k < version->nets->count; k++) {
        make(&made[k], &version->nets->nets[k]);
        const struct net *x = &version->nets->nets[k];
        const struct outcome *y = &version->nets->expected[k];
        right = right && solve(&made[k]);
        for (uint32_t i = 0; i < x->n && right; i++) {
            right = meets(arb_mat_entry(made[k].solved, i, 0), x->guess[i], y->solution[i], x->s);
            for (uint32_t j = 0; j < x->n; j++) {
                right = right && meets(arb_mat_entry(made[k].solved, i, j + 1), x->inverse[i * x->n + j], y->inverse[i * x->n + j], x->t);
            }
        }
    }
    return right;
}

struct version arb_solves(const struct nets *nets) {
    return (struct version){"Arb's arb_mat_solve_preapprox", run_solves, solves_agree, .nets = nets};
}
