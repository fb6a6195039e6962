"""Named mutants of the headers and of calls, and the program that must detect each."""

from header.read import constants

NET = "kodarfi_net.h"

# Mutants of headers: the program that must detect it, the file, a text in it and another text for it. Every constant is tried one off, too (off_by_one).
HEADERS = {
    "fewer bytes decide a file": ("constants", "kodarfi.h", "KODARFI_FILE_LENGTH 65536", "KODARFI_FILE_LENGTH 21299"),
    "less stack than a conversion takes": ("stack", "kodarfi.h", "KODARFI_STACK_MAX 114688", "KODARFI_STACK_MAX 86016"),
    "from after to": ("constants", "kodarfi.h", "    uint32_t from;\n    uint32_t to;\n", "    uint32_t to;\n    uint32_t from;\n"),
    "a weight before the difference": ("constants", "kodarfi.h", "    int64_t difference;\n    uint32_t weight;\n", "    uint32_t weight;\n    int64_t difference;\n"),
    "a difference of 32 bits": ("constants", "kodarfi.h", "int64_t difference;", "int32_t difference;"),
    "right sides for tolerances": ("nets", NET, "KODARFI_COLUMN_((net)->right), KODARFI_COLUMN_((net)->tolerance)", "KODARFI_COLUMN_((net)->tolerance), KODARFI_COLUMN_((net)->right)"),
    "guesses for tolerances": ("nets", NET, "KODARFI_COLUMN_((net)->tolerance), KODARFI_COLUMN_((net)->guess)", "KODARFI_COLUMN_((net)->guess), KODARFI_COLUMN_((net)->tolerance)"),
    "guesses for weights": ("nets", NET, "KODARFI_MATRIX_((net)->inverse), KODARFI_COLUMN_((net)->weights)", "KODARFI_MATRIX_((net)->inverse), KODARFI_COLUMN_((net)->guess)"),
    "the matrix for the inverse": ("nets", NET, "kodarfi_check(net->n, net->s, net->t, KODARFI_MATRIX_(net->matrix)", "kodarfi_check(net->n, net->s, net->t, KODARFI_MATRIX_(net->inverse)"),
    "s for t": ("nets", NET, "kodarfi_check(net->n, net->s, net->t,", "kodarfi_check(net->n, net->t, net->s,"),
    "a short list": ("nets", NET, "#define KODARFI_COLUMN_(list) (list), KODARFI_COLUMN_LENGTH", "#define KODARFI_COLUMN_(list) (list), 31"),
    "a half of 527": ("nets", NET, "net->half, KODARFI_HALF_LENGTH, KODARFI_PROPOSAL_", "net->half, KODARFI_HALF_LENGTH - 1, KODARFI_PROPOSAL_"),
    "a half filled out on one side": ("nets", NET, "net->matrix[i * half->n + j] = net->matrix[j * half->n + i] =", "net->matrix[i * half->n + j] ="),
    "a half filled out in rows of 32": ("nets", NET, "net->matrix[i * half->n + j] =", "net->matrix[i * 32 + j] ="),
    "tolerances not filled out": ("nets", NET, "    memcpy(net->tolerance, half->tolerance, sizeof net->tolerance);\n", ""),
    "weights of 0": ("nets", NET, "net->weights[i] = 1;", "net->weights[i] = 0;"),
    "the main net for the dependent one": ("nets", NET, "KODARFI_MATRIX_(dependent->matrix)", "KODARFI_MATRIX_(main_net->matrix)"),
    "limits of two nets exchanged": ("nets", NET, "KODARFI_BOUNDS_(main_bounds), dependent->n", "KODARFI_BOUNDS_(dependent_bounds), dependent->n"),
    "no net": ("nets", NET, "&refusal->net, refusal->places);\n}", "(uint32_t[1]){0}, refusal->places);\n}"),
    "the coarser steps": ("nets", NET, "first->s > second->s ?", "first->s < second->s ?"),
    "ends of two proposals exchanged": ("nets", NET, "KODARFI_COLUMN_(intervals->low),\n", "KODARFI_COLUMN_(intervals->high),\n"),
    "steps on a refusal": ("nets", NET, "if (refusal->number == KODARFI_ACCEPTED) intervals->s", "intervals->s"),
    "an old refusal": ("nets", NET, "    memset(refusal, 0, sizeof *refusal);\n", ""),
    "ends of doubles exchanged": ("nets", NET, "KODARFI_COLUMN_(ends->low)", "KODARFI_COLUMN_(ends->high)"),
    "inverse limits for heights": ("nets", NET, "KODARFI_COLUMN_(bounds->solution), KODARFI_COLUMN_(ends->low)", "KODARFI_COLUMN_(bounds->inverse), KODARFI_COLUMN_(ends->low)"),
    "the matrix for the inverse of a search": ("nets", NET, "KODARFI_MATRIX_(net->inverse), allowance", "KODARFI_MATRIX_(net->matrix), allowance"),
    "the matrix for the inverse of a factor": ("nets", NET, "KODARFI_MATRIX_(net->inverse), KODARFI_COLUMN_(net->weights),\n", "KODARFI_MATRIX_(net->matrix), KODARFI_COLUMN_(net->weights),\n"),
    "a factor upside down": ("nets", NET, "&factor->numerator, &factor->denominator", "&factor->denominator, &factor->numerator"),
    "an allowance of 64": ("nets", NET, "KODARFI_MATRIX_(net->inverse), allowance", "KODARFI_MATRIX_(net->inverse), 64"),
    "no line of a build": ("nets", NET, "KODARFI_COLUMN_(net->right), &refusal->line)", "KODARFI_COLUMN_(net->right), (uint64_t[1]){0})"),
    "no line of a conversion": ("nets", NET, "refusal->places, &refusal->line)", "refusal->places, (uint64_t[1]){0})"),
    "a line less": ("nets", NET, "kodarfi_build_line(net->n, lines, count,", "kodarfi_build_line(net->n, lines, count ? count - 1 : 0,"),
    "a line left among the places": ("nets", NET, "        refusal->places[0] = 0;\n", ""),
    "a line for 13": ("nets", NET, "    case KODARFI_AFTER_END:\n", "    case KODARFI_AFTER_END:\n    case KODARFI_MISSING:\n"),
    "no line for 12": ("nets", NET, "    case KODARFI_REPEATED:\n", ""),
    "a byte less to convert into": ("nets", NET, "KODARFI_CONVERTED_LENGTH, &converted", "64, &converted"),
    "a text past its buffer": ("words", NET, "(text_len) - (so_far) : 0", "(text_len) - (so_far) + 1 : 0"),
    "row and column exchanged in words": ("words", NET, "places[0], places[1])", "places[1], places[0])"),
    "another net in words": ("words", NET, 'refusal->net == 1 ? "first"', 'refusal->net == 2 ? "first"'),
    "no line in words": ("words", NET, 'if (refusal->line)', 'if (0)'),
    "expected and to do exchanged": ("words", NET, "words->what, words->expected, words->to_do);", "words->what, words->to_do, words->expected);"),
    "a word less": ("words", "kodarfi_text.h", "a lent list too short", "a list too short"),
    "a row less": ("words", "kodarfi_text.h", "{18, ", "{98, "),
}

# Mutants of calls: the program that must detect it, the call, and what it does before the real one.
CALLS = {
    "the first line is read where there is none": ("stack", "kodarfi_build", "if (observations[0].key == 0) n = n + 1 - 1;"),
    "no lines are no equations": ("header++", "kodarfi_build", "if (!observations) return 8;"),
    "a null list is read": ("stack", "kodarfi_guesses", "if (values[0] != values[0]) n = n + 1 - 1;"),
    "a call of 120 kilobytes": ("stack", "kodarfi_entry", "volatile char room[120 * 1024]; for (size_t k = 0; k < sizeof room; k++) room[k] = 1;"),
}

# Constants that are not tried one off: one less is as true.
NOT_EXACT = {"KODARFI_FILE_LENGTH", "KODARFI_STACK_MAX", "KODARFI_LISTING_LENGTH"}


def off_by_one():
    """A mutant of the header for every constant."""
    for name, number in constants().items():
        if name not in NOT_EXACT:
            wrong = number + 1 if number <= 22 and name != "KODARFI_SCALE_MAX" else number - 1
            yield f"{name} is {wrong}", ("constants", "kodarfi.h", f"#define {name} ", f"#define {name} {wrong} + 0 * ")
