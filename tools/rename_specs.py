#!/usr/bin/env python3
"""Brings the names of the repository's own definitions and lemmas to snake case: `searchFrom-1` becomes `search_from_1`.

    python3 tools/rename_specs.py          # at the top of the repository, once, after the toolchain's own port
    python3 tools/rename_specs.py --list   # only prints the names, old and new

A name is the repository's own if it stands in a crate's specs/ and no file imports it from a library. Types and modules keep their
names, as do functions of src/. Two names that would fall together are listed in APART and stay apart by what is written there.
"""
import glob
import re
import sys

TOKEN = re.compile(r"[^\s(){},;.\[\]λ→`\"]+")
USE = re.compile(r"^\s*(?:ghost |pub )?use ([^\s{;]+?)\.\{([^}]*)\}", re.M)

# Where a new name would be that of something else.
APART = {
    # a lemma beside the definition that it is about
    "lowest-free": "lowest_free_lem",
    "first-line": "first_line_lem",
    "well-formed": "well_formed_holds",
    "records-fit": "records_fit_lem",
    "changes-now": "changes_now_lem",
    "packed-well": "packed_well_lem",
    "packs-rows": "packs_rows_lem",
    "same-succ": "same_succ_lem",
    "held-in-help": "held_in_help_lem",
    "held-in-search": "held_in_search_lem",
    "held-in-insert": "held_in_insert_lem",
    "named-is-held": "named_is_held_lem",
    "empty-map": "empty_map_lem",
    "has-key": "has_key_lem",
    "with-succ": "with_succ_lem",
    "row-found": "row_found_lem",
    "map-after-move": "map_after_move_lem",
    "mark-of": "mark_of_lem",
    "key-at-most": "key_at_most_lem",
    "flagged-only": "flagged_only_lem",
    "is-linked": "is_linked_lem",
    "is-request": "is_request_holds",
    "few-helps": "few_helps_hold",
    "not-both": "not_both_lem",
    "odd-words": "odd_words_lem",
    # a state and a schedule beside the definition that they show
    "ninth-help": "ninth_help_asked",
    "try-flag-10": "try_flag_10_walked",
    # a call of the worked schedules beside the lemma that two outcomes coincide
    "stepOnce": "stepped_once",
    "submitOnce": "submitted_once",
    "turnOnce": "turned_once",
    # a field, a local value
    "with-lent": "lent_in_place",
    "linked-row": "row_linked",
    "back-of": "back_of_five",
    # an operator
    "given-when": "given_when",
    "◌given-when◌": "◌given_when◌",
}

# Names that the toolchain's port has brought to snake case already, each a lemma beside a definition whose name becomes the same:
# in which crate, and what the lemma is called.
PORTED = {
    ("order", "same_bit"): "same_bit_lem",
    ("order", "reads_now"): "reads_now_lem",
    ("order", "key_below"): "key_below_lem",
    ("kept", "is_free"): "is_free_lem",
}


# A field with the name of a lemma of LineConditions.
FIELD = re.compile(r"(?<=\.)has-key(?![\w-])|(?<![\w-])has-key(?= = | : \((?:R |rowAt rows row))")


def own_crates():
    return [line.split(":")[0].strip() for line in open("crates.txt") if line.strip() and not line.startswith("#")]


def antt_files(part):
    return sorted(glob.glob(f"crates/*/{part}/**/*.antt", recursive=True))


def without_comments(text):
    return "\n".join(re.sub(r"(^|\s)--.*$", "", line) for line in text.split("\n"))


def library_names(own):
    names = set()
    for path in antt_files("specs") + antt_files("proofs") + glob.glob("crates/*/src/*.rt"):
        for module, items in USE.findall(open(path).read()):
            parts = module.split(".")
            if parts[0] == "Rattle" and len(parts) > 1 and parts[1] in own:
                continue
            for item in items.split(","):
                names.add(item.strip().split(" as ")[0].strip())
    return names


def snake(name):
    name = name.replace("-", "_")
    name = re.sub(r"([a-z0-9])([A-Z])", lambda m: m.group(1) + "_" + m.group(2).lower(), name)
    return re.sub(r"([a-z])(128)\b", r"\1_\2", name)


def wants_renaming(token):
    if re.search(r"[#:·]", token) or not re.search(r"[A-Za-z]", token):
        return False
    if not re.match(r"[a-z]", token):
        return False
    return bool(re.search(r"[a-zA-Z0-9']-[a-zA-Z0-9]", token) or re.search(r"[a-z0-9][A-Z]", token))


def renaming():
    library = library_names(own_crates())
    found = set()
    everything = set()
    for path in antt_files("specs"):
        for token in TOKEN.findall(without_comments(open(path).read())):
            everything.add(token)
            if wants_renaming(token) and token not in library:
                found.add(token)
    names = {old: APART.get(old, snake(old)) for old in found | set(APART)}
    for old, new in list(names.items()):
        others = [o for o, n in names.items() if n == new and o != old]
        if others or new in everything or new in library:
            print(f"together: {old} and {others or 'a name that is there'} become {new}", file=sys.stderr)
    return names


def respell(text, names):
    text = FIELD.sub("has_key", text)
    return TOKEN.sub(lambda m: names.get(m.group(0), m.group(0)), text)


def respell_module(path, text, names):
    crate = path.split("/")[1]
    own = {old: new for (where, old), new in PORTED.items() if where == crate}
    return library_choice(path, respell(text, {**names, **own}))


CHOICE = "if◌then◌else◌"


def library_choice(path, text):
    """Takes `if .. then .. else ..` from the library, which has it now; model's State had one of its own."""
    if path.endswith("crates/model/specs/State.antt"):
        text = re.sub(r"infixr 5 if◌then◌else◌\n.*\n.*\n.*\n\n", "", text)
        return text.replace("use Rattle.std.specs.Prelude.{", "use Rattle.std.specs.Prelude.{" + CHOICE + ", ", 1)
    of_state = re.compile(r"(use Rattle\.model\.specs\.State\.\{)([^}]*)(\})")
    found = of_state.search(text)
    if not found or CHOICE not in found.group(2):
        return text
    rest = [it.strip() for it in found.group(2).split(",") if it.strip() != CHOICE]
    line = found.group(1) + ", ".join(rest) + found.group(3)
    text = text[: found.start()] + (line if rest else "") + text[found.end() :]
    if not rest:
        text = text[: found.start()].rstrip("\n") + "\n" + text[found.start() :].lstrip("\n")
    prelude = "use Rattle.std.specs.Prelude.{"
    if prelude in text:
        return text.replace(prelude, prelude + CHOICE + ", ", 1)
    return re.sub(r"^use ", prelude + CHOICE + "}\nuse ", text, count=1, flags=re.M)


def respell_clauses(text, names):
    """In a program's source: `ghost use` lines and clauses, not the code."""
    out = []
    depth = 0
    clause = False
    for line in text.split("\n"):
        starts = re.match(r"\s*(ensures|requires|ghost|invariant|decreases)\b", line)
        if starts or clause:
            clause = True
            out.append(respell(line, names))
            depth += line.count("{") - line.count("}")
            if depth <= 0 and ("}" in line or line.rstrip().endswith(";")):
                clause = False
                depth = 0
        else:
            out.append(line)
    return "\n".join(out)


def respell_edit(text, names):
    """In a must-fail edit of a definition every line, in one of code the clauses alone."""
    out = []
    antt = False
    for line in text.split("\n"):
        if line.startswith("file:"):
            antt = line.rstrip().endswith(".antt")
        clause = re.search(r"\b(ensures|requires|ghost)\b", line)
        out.append(respell(line, names) if (antt or clause) and not line.startswith(("#", "file:")) else line)
    return "\n".join(out)


def respell_page(text, names):
    """In a page: what stands between backquotes."""
    return re.sub(r"`([^`\n]+)`", lambda m: "`" + respell(m.group(1), names) + "`", text)


def write(path, text, new):
    if new != text:
        open(path, "w").write(new)


def main():
    names = renaming()
    if "--list" in sys.argv:
        for old in sorted(names):
            print(old, names[old])
        return
    for path in antt_files("specs") + antt_files("proofs"):
        names_here = open(path).read()
        write(path, names_here, respell_module(path, names_here, names))
    places = []
    places += [(path, respell_clauses) for path in glob.glob("crates/*/src/*.rt")]
    places += [(path, respell_edit) for path in glob.glob("crates/*/must-fail/*.edit")]
    places += [(path, respell_page) for path in glob.glob("docs/**/*.md", recursive=True) + ["README.md"]]
    for path, how in places:
        text = open(path).read()
        write(path, text, how(text, names))
    print(f"{len(names)} names")


if __name__ == "__main__":
    main()
