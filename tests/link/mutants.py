"""The mutants of the library's calls that only a test of the binary interface can detect, and the shim in C that has them: each call of include/kodarfi.h passes
through to the library, whose own calls have the names real_*, and where the environment's MUTANT names one of its mutants, something is done before or after.

  python3 tests/link/mutants.py shim    the shim
  python3 tests/link/mutants.py names   the mutants, one a line, each after the files of calls that must detect it"""

import sys
from pathlib import Path

sys.path.insert(0, str(Path(__file__).resolve().parent.parent))

from common.mutated import main
from header.read import parameters_of, prototypes

# Sizes that are cut in every call, with the files of the calls that have them.
CUT = {
    "n": "check half dependent common weights quality build doubles",
    "s": "check half dependent common entry doubles",
    "t": "check half dependent common weights quality",
    "allowance": "weights",
}

# By name: the file of calls, the call, and what is done before it and after it.
MUTANTS = {
    "right_and_tolerance_exchanged": ("check", "check", "EXCHANGE(right, tolerance);", ""),
    "places_of_32_bits": ("check", "check", "", "narrow(places, 2);"),
    "length_of_limits_unread": ("check", "check", "solution_bounds_len = KODARFI_COLUMN_LENGTH;", ""),
    "limits_of_32_bits": ("half", "check_half", "", "if (number == 0) narrow(solution_bounds, n);"),
    # in the lowest byte of a register, whose other bytes may hold anything
    "half_number_of_8_bits": ("half", "check_half", "", "number |= 0x5eed00;"),
    "coupling_and_matrix_exchanged": ("dependent", "check_dependent", "EXCHANGE(coupling, matrix2);", ""),
    "net_not_written": ("dependent", "check_dependent", "KEEP(net, 4);", "PUT_BACK(net, 4);"),
    "low_written_on_refusal": ("common", "common", "", "if (number != 0) low[0] = 0;"),
    "high_not_written": ("common", "common", "KEEP(high, 256);", "PUT_BACK(high, 256);"),
    "guess_of_32_bits": ("entry", "entry", "guess = (int32_t)guess;", ""),
    "value_and_bound_exchanged": ("entry", "entry", "EXCHANGE(value, value_bound);", ""),
    "tried_not_written": ("weights", "find_weights", "KEEP(tried, 4);", "PUT_BACK(tried, 4);"),
    "scale_and_allowance_exchanged": ("weights", "find_weights", "EXCHANGE(t, allowance);", ""),
    "numerator_of_32_bits": ("quality", "quality", "KEEP(UPPER(numerator), 4);", "PUT_BACK(UPPER(numerator), 4);"),
    "fields_packed": ("build", "build", "observations = packed(observations, observations_len);", ""),
    "right_sides_not_written": ("build", "build_half", "KEEP(right, 256);", "PUT_BACK(right, 256);"),
    "line_of_32_bits": ("build", "build_line", "KEEP(UPPER(line), 4);", "PUT_BACK(UPPER(line), 4);"),
    "half_length_in_bytes": ("build", "build_half_line", "half_len *= sizeof *half;", ""),
    "values_of_32_bits": ("doubles", "guesses", "values = widened(values);", ""),
    "low_written_past_n": ("doubles", "intervals", "", "if (number == 0) low[n] = 0;"),
    "guesses_of_32_bits_without_sign": ("doubles", "intervals", "guess = without_sign(guess);", ""),
    "listing_ended_by_zero": ("listing", "listing", "", "listing[*written] = 0;"),
    "written_of_32_bits": ("listing", "listing", "KEEP(UPPER(written), 4);", "PUT_BACK(UPPER(written), 4);"),
    "byte_past_the_buffer": ("convert", "convert", "", "out[out_len] = 0;"),
    "places_and_line_exchanged": ("convert", "convert_line", "EXCHANGE(places, line);", ""),
    "ninth_number_left": ("loader", "loader_new", "KEEP(&loader[8], 4);", "PUT_BACK(&loader[8], 4);"),
    # a pointer taken as the length of a line is above 320: the library must answer 1 and not read
    "line_and_its_length_exchanged": ("loader", "loader_take", "EXCHANGE(line, line_len);", ""),
    "guess_written_for_tolerance": ("loader", "loader_take", "EXCHANGE(guess, tolerance);", ""),
    "lengths_exchanged": ("loader", "loader_check", "EXCHANGE(guess_len, inverse_len);", ""),
}


def done(name, text):
    return f'    if (is_mutant("{name}")) {{ {text} }}'


def shim():
    yield '#include "shim.h"\n'
    for result, name, parameters in prototypes():
        declared, handed = parameters_of(parameters)
        yield f"{result} real_{name}({declared});\n{result} {name}({declared}) {{"
        yield from (done(f"{base}_of_{bits}_bits", f"{size} = (uint{bits}_t){size};") for _, size in parameters for base in CUT if size.rstrip("12") == base for bits in (8, 16))
        own = {mutant: edits for mutant, (_, call, *edits) in MUTANTS.items() if f"kodarfi_{call}" == name}
        yield from (done(mutant, before) for mutant, (before, _) in own.items() if before)
        yield f"    {'uint32_t number = ' if result != 'void' else ''}real_{name}({handed});"
        yield from (done(mutant, after) for mutant, (_, after) in own.items() if after)
        yield f"    {'return number;' if result != 'void' else ''}\n}}\n"


def names():
    yield from (f"{files},{size}_of_{bits}_bits" for size, files in CUT.items() for bits in (8, 16))
    yield from (f"{file},{name}" for name, (file, *_) in MUTANTS.items())


if __name__ == "__main__":
    main(lambda: print("\n".join({"shim": shim, "names": names}[sys.argv[1]]())) or 0)
