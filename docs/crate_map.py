#!/usr/bin/env python3
"""The crates by layers, each with what the first words of its README say.

    crate_map.py                    the lists, one for each layer
    crate_map.py --into DOCUMENT    puts them between their two marks in the document
    crate_map.py --check DOCUMENT   ends with 1 where they stand there otherwise

LAYERS is where a crate is given its place. A crate stands only on crates of its own layer and of those before it, which is tested
at each run, by crates.txt.
"""
import pathlib
import re
import sys

TOP = pathlib.Path(__file__).resolve().parents[1]
MARKS = ("<!-- crates -->", "<!-- end of the crates -->")
# The longest line of a crate, in words; a longer first sentence is cut at a colon or a semicolon.
MOST_WORDS = 16
LAYERS = (
    ("1. Numbers, lists and the outside", "src_sink exact_field incid_sets frac128 tier_frac"),
    ("2. Mathematics, away from files and code", "polyhedra lineality tableaux representations"),
    ("3. Rows, linear programs, double description",
     "lin_rows guessed_rows shown_bases exact_simplex whole_programs whole_simplex short_basis short_programs short_simplex double_descr"
     " geo_duality"),
    ("4. Texts of problems and logs", "word_lines deriv_log rep_text vlp_problem vlp_reader vlp_printer"),
    ("5. What a problem, a log and an overflow mean",
     "upper_image vlp_matrices lp_form cone_rules log_rules log_versions overflows"),
    ("6. The checkers, and what is told",
     "entry_checks log_live log_solved log_answer cert_check log_upgrade rep_conv sol_writer commands"),
    ("7. The solver",
     "program_columns shown_program listed_columns bounded_simplex benson_program cone_dual outer_approx recession"
     " lower_image benson_primal benson_dual solver rep_convert"),
    ("8. Sets, weights and the program",
     "projection poly_calc weighing replies bensolve_main bensolve"),
    ("Beside the program: cases and benchmarks", "number_cases program_cases engine_cases cases bench_calls"),
)


def read_crates():
    """Each crate of crates.txt, with those of this repository on which it stands directly."""
    found = {}
    for line in (TOP / "crates.txt").read_text().splitlines():
        if line.strip() and not line.startswith("#"):
            name, _, below = line.partition(":")
            found[name.split()[0]] = below.split()
    return {name: [each for each in below if each in found] for name, below in found.items()}


def first_words(name):
    """The first sentence of a README, or the longest front of it that ends at a colon or a semicolon and is short enough."""
    text = (TOP / "crates" / name / "README.md").read_text()
    paragraph = text.split("\n\n")[1].replace("\n", " ")
    paragraph = re.sub(r"\[([^]]*)\]\([^)]*\)", r"\1", paragraph)
    sentence = re.split(r"(?<=\.)\s", paragraph)[0].rstrip(".")
    fronts = [sentence] + [sentence[:found.start()] for found in reversed(list(re.finditer(r"[:;] ", sentence)))]
    return next((front for front in fronts if len(front.split()) <= MOST_WORDS), fronts[-1])


def faults(crates):
    """What is wrong with LAYERS: a crate without a layer or with two, a name that is none, a crate that stands on a later layer."""
    layer_of, told = {}, []
    for number, (_, names) in enumerate(LAYERS):
        for name in names.split():
            if name in layer_of:
                told.append(f"{name} has two layers")
            if name not in crates:
                told.append(f"{name} is no crate of crates.txt")
            layer_of[name] = number
    told += [f"{name} has no layer in docs/crate_map.py" for name in crates if name not in layer_of]
    for name, below in crates.items():
        told += [f"{name} stands on {each}, of a later layer" for each in below if layer_of.get(each, 0) > layer_of.get(name, 99)]
    return told


def lists():
    parts = []
    for title, names in LAYERS:
        lines = [f"- [{name}](../crates/{name}/README.md): {first_words(name)}" for name in names.split()]
        parts.append(f"**{title}**\n\n" + "\n".join(lines))
    return "\n\n".join(parts)


def main():
    words = sys.argv[1:]
    crates = read_crates()
    wrong = faults(crates)
    if wrong:
        sys.exit("\n".join(wrong))
    made = lists()
    if not words:
        print(made)
        return
    if len(words) != 2 or words[0] not in ("--into", "--check"):
        sys.exit(__doc__)
    path = pathlib.Path(words[1])
    text = path.read_text()
    front, rest = text.split(MARKS[0], 1)
    _, back = rest.split(MARKS[1], 1)
    wanted = f"{front}{MARKS[0]}\n{made}\n{MARKS[1]}{back}"
    if words[0] == "--into":
        path.write_text(wanted)
    elif text != wanted:
        sys.exit(f"{words[1]} is not what the crates say: docs/crate_map.py --into {words[1]} makes its lists anew")


if __name__ == "__main__":
    main()
