"""Whether exact solutions and inverses, in whole numbers over q as document 01 has them, lie within limits."""


def is_within(steps, q, exact, guess, limits):
    """Whether exact/q lies within limits, in steps, of the guess: |S·N_i − q·X_i| is at most q·E_i for every i."""
    return all([abs(steps * N - q * X) <= q * E for N, X, E in zip(exact, guess, limits)])


def corners(net, H):
    """The right sides within the tolerances that move each height the farthest, up and down, and the right side itself."""
    yield net.right
    if any(net.tolerance):
        for row in H:
            yield [b + (d if h > 0 else -d) for b, d, h in zip(net.right, net.tolerance, row)]
            yield [b - (d if h > 0 else -d) for b, d, h in zip(net.right, net.tolerance, row)]
