/* From field lines to heights with limits, in C: net. The solver is a plain one in doubles, and nobody needs to trust it.
 *
 * Exit status 0 where the net is accepted, 1 where something is refused; the refusal is then given in plain words. */
#include "kodarfi_net.h"

static struct kodarfi_net net;
static struct kodarfi_bounds bounds;
static struct kodarfi_heights heights;
static struct kodarfi_ends ends;

/* Marks 1 and 2 from the fixed mark 0, in millimetres, with a weight for each line; key 3 was sent twice. */
static const struct kodarfi_observation LINES[] = {{1, 0, 1, 1204, 1}, {2, 1, 2, -377, 2}, {3, 0, 2, 829, 1}, {3, 0, 2, 829, 1}};

static int64_t rounded(double x) { return (int64_t)(x < 0 ? x - 0.5 : x + 0.5); }

/* Heights and inverse of two equations, by Cramer's rule. */
static void solve(void) {
    const double a = (double)net.matrix[0], b = (double)net.matrix[1], c = (double)net.matrix[2], d = (double)net.matrix[3], det = a * d - b * c;
    const double inverse[4] = {d / det, -b / det, -c / det, a / det};
    for (int i = 0; i < 4; i++) net.inverse[i] = rounded(inverse[i] * (double)(1 << net.t));
    for (int i = 0; i < 2; i++) heights.heights[i] = inverse[2 * i] * (double)net.right[0] + inverse[2 * i + 1] * (double)net.right[1];
}

static int refused(const struct kodarfi_refusal *refusal) {
    char text[2048];
    kodarfi_text(refusal, text, sizeof text);
    fputs(text, stderr);
    return 1;
}

int main(void) {
    struct kodarfi_refusal refusal;
    kodarfi_net_clear(&net, 2, 10, 20);
    if (kodarfi_net_build(&net, LINES, sizeof LINES / sizeof *LINES, &refusal)) return refused(&refusal);
    /* each difference is known to half a millimetre, so a right side to half the weights of its lines, 1.5, rounded up */
    net.tolerance[0] = net.tolerance[1] = 2;
    solve();
    if (kodarfi_net_guesses(&net, &heights, &refusal)) return refused(&refusal);
    if (kodarfi_net_check(&net, &bounds, &refusal)) return refused(&refusal);
    if (kodarfi_net_intervals(&net, &bounds, &ends, &refusal)) return refused(&refusal);
    for (uint32_t i = 0; i < net.n; i++) printf("mark %" PRIu32 " lies between %.3f and %.3f mm\n", i + 1, ends.low[i], ends.high[i]);
    return 0;
}
