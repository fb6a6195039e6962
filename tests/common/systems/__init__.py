"""Systems of equations with a proposal, made by chance: the usual ones, those at the edge of demand 3, and those at the ends of ranges and tests."""
