"""The data's way from a file to its listing: the steps, the crate of each, and the refusals that it can end with."""

from storeys import storeys_of
from svg import FAINT, INK, Fault, Page

# What happens, the crates, what is handed on, and the papers' numbers of the refusals.
STEPS = (
    ("Bytes of standard input", ("program_input", "register"), "the first 65,536 bytes, which decide any file", ""),
    ("Lines", ("file",), "a line without its line feed, one after another", ""),
    ("A form", ("line", "line_parts"), "its kind, its index i and its numbers", "1, 2"),
    ("Numbers in lists", ("loader", "loader_lists"), "n, s, t, and six lists: A, b, d, X, G, w", "3, 4, 11 to 15"),
    ("Lengths and ranges", ("check_ranges",), "numbers that cannot overflow below", "8, 3 (on lists alone)"),
    ("Margins", ("check_defects", "check_margins"), "D = T·I − G·A, and g = T·w − |D|·w, above 0", "5"),
    ("Residuals", ("check_residuals", "check_allowances"), "r = S·b − A·X with slack S·d; the inverse's columns", "6, 7"),
    ("Limits", ("check_bounds", "check_inverse_bounds"), "p = G·r; the largest w·(|p| + |G|·slack)/g, rounded up", ""),
    ("Register entries", ("entry",), "V, and a limit that covers its rounding", ""),
    ("The listing", ("listing_report", "listing_refusal"), "at most 32,768 bytes, to standard output", ""),
)
WIDTH, TOP, HEIGHT, STEP = 860, 62, 42, 54
LEFT, RIGHT, FAR = 16, 620, 700
RED, CHECK, OTHER = "#b3402a", "#e3f3ea", "#e6eefb"


def draw(text):
    _, named = storeys_of(text)
    page = Page("The data's way: from a file to its listing", WIDTH, TOP + STEP * len(STEPS) + 4)
    page.words(FAR, TOP - 10, "refused with", size=11, fill=FAINT)
    last = TOP + STEP * (len(STEPS) - 1)
    for at, (what, crates, handed, numbers) in enumerate(STEPS):
        lost = [crate for crate in crates if crate not in named]
        if lost:
            raise Fault(f"the step '{what}' names the crate {lost[0]}, which crates.txt does not have")
        y = TOP + STEP * at
        if at + 1 < len(STEPS):
            page.line(LEFT + 40, y + HEIGHT, LEFT + 40, y + STEP - 6, INK, 1.5)
            page.add("polygon", points=f"{LEFT + 36},{y + STEP - 7} {LEFT + 44},{y + STEP - 7} {LEFT + 40},{y + STEP}", fill=INK)
        page.box(LEFT, y, RIGHT - LEFT, HEIGHT, CHECK if crates[0].startswith("check_") else OTHER, rx=4)
        page.words(LEFT + 10, y + 18, what, weight="600")
        page.code(LEFT + 10, y + 34, " ".join(crates))
        page.words(LEFT + 270, y + 26, handed, size=11)
        if numbers:
            page.line(RIGHT, y + HEIGHT / 2, FAR - 8, y + HEIGHT / 2, RED, 1.5)
            page.words(FAR, y + HEIGHT / 2 + 4, numbers, fill=RED, weight="600")
    first_refused = next(TOP + STEP * at for at, step in enumerate(STEPS) if step[3])
    page.line(RIGHT + 40, first_refused + HEIGHT / 2, RIGHT + 40, last + HEIGHT / 2, RED, 1.5)
    page.line(RIGHT, last + HEIGHT / 2, RIGHT + 40, last + HEIGHT / 2, RED, 1.5)
    page.words(FAR, last + HEIGHT / 2 + 4, "one line (refused N (..))", size=11, fill=RED)
    return page.text()
