#!/usr/bin/env python3
"""What the prover does not look at: that every contract says something, and that every statement is the one that is proved.

    python3 tools/promises.py [ROOT]

Prints a line for each fault and fails if there is one. Comments never count: they are taken out first. The rules:

Contracts (src/**/*.rt)
 - No function is foreign: the contract of a function without a body is assumed. `pub use` hands on a public function or constant of the crate's own, by
   its file and under its name.
 - Every `requires` and `ensures` is a plain fact, with no star, and holds no comment. An `ensures` speaks of the result or of what is lent afterwards
   (`p.new`); no part of it is trivially true (`x ≡ x`, `A → A`, `(h : x < x) → ..`, `¬ (x < x)`, `Unit`, a type of values, ..) or left to be found (`_`, a
   tactic); it names nothing by a path and no operator by its whole name. This holds of private functions and of programs too.
 - A public function of a library (`pub`, of a trait, or visible to C; also in an `impl`, also in a deeper file) has no `requires`, but for those of
   SERVING, which proved code alone calls: none of these is visible to C. Equations fix its result (`result ≡ ..`, or each field of it; of a reference
   what it refers to and where, `result.now ≡ ..` and `result.ref_ptr ≡ ..`) and what is behind each `&mut` afterwards (`p.new ≡ ..`, perhaps as an
   argument of what builds a record of its arguments). Such an equation stands under no premise and is no one of several answers. Its right side names a
   definition of specs/ and, unless all is lent for writing, a parameter; it names neither the result nor anything afterwards (`.new`, `.exit`). Every
   word of it is known. Every clause names a definition of specs/; every parameter stands in an equation; no parameter, of a type's or a constant's
   either, hides a name. In a clause no name is bound but by a `let x = .. in` at its front, and that name is nobody else's.
 - The functions of READING alone may lack such equations, since what is read no contract can say. In place of one, under no premise, a definition of
   specs/ is applied to the result, or to what is behind a `&mut` afterwards, or to a term that holds it; or what is behind the `&mut` keeps its length
   (`length p.new ≡ length p.old`). Nothing need be said of what is read from, a `&mut` of a type that is known as a reader alone. Their clauses need not
   each name a definition of specs/, nor their equations every parameter. Each is the only public function of its name in its crate, and not visible to
   C.
 - Beside the functions' clauses and the imports nothing is `ghost`: who makes a type owes its ghost fields, and a model hides from clauses what it
   does not show. A struct that no other crate can name may have ghost fields: what they say is what its functions require, and no public one takes
   or gives it. They are plain facts, as clauses are.
 - An `impl` of std's `Iterator` says what it gives in `next_gives` and how long it goes on in `remaining`, each by the name of a definition of specs/;
   these stand for the clauses of `next`, which has none of its own. The former is in GIVING: it was read, and fixes what comes and what is left.
 - No type holds a `&mut` but a room, a struct of nothing else than `&mut`s of slices of numbers, whose name no other struct has, and no type holds a
   room. A public function takes a room by `&` or `&mut` alone, and gives none; of one taken by `&mut` a clause says that it has the same slices
   afterwards, and an equation fixes what is behind all of them. No struct has a field of a name that a clause reads of a reference (`now`, `old`,
   `new`, ..).
Names (src/ and specs/)
 - The names of LIBRARY come from their library path alone, the names of LENT from nowhere; neither is given another meaning in specs/, nor is the sign
   of an operator. Contracts take nothing else from a library, definitions no other operator; specs/ has no operator of its own.
 - An import lists its names and takes each from the file of specs/ that defines it; a source brings in no name twice. For contracts it gives none
   another name (`as`); in specs/ the other name is one that nothing has in src/ or specs/.
Definitions and proofs (specs/ and proofs/)
 - No axiom and no hole. Each file is declared by the Lib.antt beside it; each folder of proofs/ belongs to a function, or to a cycle of functions, and
   has a whole proof or what the prover asks for.
 - A file of specs/ has no sections and none of the words of UNREAD, and names nothing by a path and no operator by its whole name. No part of a record,
   a predicate or a closed statement there is trivially true or left to be found.
Statements
 - A theorem of THEOREMS stands once in its file, at the left margin, with its statement alone for a type and its proof right behind. The file imports
   the statement from the file of specs/ that defines it, closed (`Type 0`, no parameters) and no data type, and nothing else has its name.
 - Every closed type of specs/ is the statement of a listed theorem or stands in DATA. What the files of VECTOR_FILES prove is listed, but for what
   serves another proof there. The tables name only what is there.
Must-fail edits
 - A line that names the slip, a file of src/ or specs/, and pairs of lines: the old one occurs once in what the pairs before made, the new one differs.
"""
import pathlib
import re
import sys
from dataclasses import dataclass, field

sys.dont_write_bytecode = True
from rattle_text import (
    AnttSource,
    RattleSource,
    antt_tokens,
    arguments,
    bare,
    bound_types,
    canonical,
    groups,
    head,
    heads,
    outside,
    split_words,
)

# crate, proof file, theorem, its statement: the one place where the statement is proved.
THEOREMS = [
    ("refusal", "Names", "numbers_tell", "NumbersTell"),
    ("octets", "Computed", "octet_examples", "OctetExamples"),
    ("md5_digest", "Promises", "any_cutting", "AnyCutting"),
    ("md5_digest", "Promises", "pieces_taken", "PiecesTaken"),
    ("md5_digest", "Promises", "tail_zero", "TailZero"),
    ("md5_digest", "Promises", "refused_kept", "RefusedKept"),
    ("md5_digest", "Promises", "padded_size", "PaddedSize"),
    ("md5_digest", "Vectors", "md5_vectors", "Md5Vectors"),
    ("md5_digest", "Limits", "md5_limits", "Md5Limits"),
    ("hmac_md5", "Vectors", "hmac_vectors", "HmacVectors"),
    ("hmac_md5", "Limits", "hmac_limits", "HmacLimits"),
    ("dhcp_message", "Decoding", "round_trips", "RoundTrips"),
    ("dhcp_message", "Lowest", "lowest_given", "LowestGiven"),
    ("dhcp_message", "Lowest", "shape_given", "ShapeGiven"),
    ("dhcp_message", "Typing", "type_says", "TypeSays"),
    ("dhcp_message", "Seals", "form_says_lem", "FormSays"),
    ("dhcp_message", "Relays", "relay_keeps", "RelayKeeps"),
    ("dhcp_message", "Relays", "relay_may", "RelayMay"),
    ("dhcp_message", "Seals", "seal_laws", "SealLaws"),
    ("dhcp_message", "Replays", "new_says", "NewSays"),
    ("dhcp_message", "Examples", "bench_examples", "BenchExamples"),
    ("dhcp_message", "Examples", "layout_pinned", "LayoutPinned"),
    ("key_book", "Says", "sized_says", "SizedSays"),
    ("key_book", "Says", "mark_fits_says", "MarkFitsSays"),
    ("key_book", "Says", "sound_says", "SoundSays"),
    ("key_book", "Says", "row_says", "RowSays"),
    ("key_book", "Says", "rows_within", "RowsWithin"),
    ("key_book", "Says", "key_says", "KeySays"),
    ("key_book", "Says", "sound_depends", "SoundDepends"),
    ("key_book", "Says", "row_depends", "RowDepends"),
    ("key_book", "Says", "key_depends", "KeyDepends"),
    ("key_book", "Halves", "known_says", "KnownSays"),
    ("key_book", "Halves", "row_holds", "RowHolds"),
    ("key_book", "Halves", "ascending_finds", "AscendingFinds"),
    ("key_book", "Halves", "known_depends", "KnownDepends"),
    ("key_book", "Looks", "digits_say", "DigitsSay"),
    ("key_book", "Looks", "few_looks", "FewLooks"),
    ("key_book", "Computed", "example_10", "Example10"),
    ("key_book", "Computed", "book_limits", "BookLimits"),
    ("key_book", "Computed", "marks_pinned", "MarksPinned"),
    ("key_book", "Computed", "example_12", "Example12"),
    ("forcerenew", "Soundness", "rows_say", "RowsSay"),
    ("forcerenew", "Offsets", "offsets_say", "OffsetsSay"),
    ("forcerenew", "Computed", "nonce_examples", "NonceExamples"),
    ("book_card", "Says", "front_says", "FrontSays"),
    ("book_card", "Says", "card_says", "CardSays"),
    ("book_card", "Says", "malformed_says", "MalformedSays"),
    ("card_laws", "ByRow", "read_says", "ReadSays"),
    ("card_laws", "Largest", "largest_card", "LargestCard"),
    ("card_laws", "Trips", "write_then_read", "WriteThenRead"),
    ("card_laws", "Trips", "read_then_write", "ReadThenWrite"),
    ("card_laws", "Moved", "read_then_write_moves", "ReadThenWriteMoves"),
    ("card_laws", "Moved", "move_keeps_rows", "MoveKeepsRows"),
    ("card_laws", "Moved", "move_copies", "MoveCopies"),
    ("card_laws", "Moved", "there_and_back", "ThereAndBack"),
    ("card_laws", "Depends", "write_depends", "WriteDepends"),
    ("card_laws", "Computed", "example_1", "Example1"),
    ("card_laws", "Computed", "example_2", "Example2"),
    ("card_laws", "Computed", "marked_cards", "MarkedCards"),
    ("card_laws", "Computed", "ordered_bytes", "OrderedBytes"),
    ("card_laws", "Computed", "front_example", "FrontExample"),
    ("card_pieces", "Limits", "within_says", "WithinSays"),
    ("card_pieces", "Limits", "ended_says", "EndedSays"),
    ("card_pieces", "Limits", "numbers_back", "NumbersBack"),
    ("card_pieces", "Joins", "tail_zero", "TailZero"),
    ("card_pieces", "Depends", "pieces_depend", "PiecesDepend"),
    ("card_pieces", "Joins", "feed_joins", "FeedJoins"),
    ("card_pieces", "Good", "good_says", "GoodSays"),
    ("card_pieces", "Cuttings", "pieces_taken", "PiecesTaken"),
    ("card_pieces", "Cuttings", "any_cutting", "AnyCutting"),
    ("card_pieces", "Computed", "pieces_example", "PiecesExample"),
    ("rimemagpie", "Stated", "state_back", "StateBack"),
    ("verdict_line", "Says", "decimal_says", "DecimalSays"),
    ("verdict_line", "Says", "size_within_lem", "SizeWithin"),
    ("verdict_line", "Says", "longest_line", "LongestLine"),
    ("verdict_line", "Computed", "line_examples", "LineExamples"),
    ("file_verdict", "Says", "content_says", "ContentSays"),
    ("file_verdict", "Says", "line_says", "LineSays"),
    ("file_verdict", "Computed", "example_9", "Example9"),
    ("comparison", "Naming", "names_what_differs", "NamesWhatDiffers"),
    ("comparison", "Equal", "equal_says", "EqualSays"),
    ("comparison", "RelayOnly", "relay_only_says", "RelayOnlySays"),
    ("comparison", "Fitting", "lines_fit", "LinesFit"),
    ("comparison", "Computed", "comparison_example", "ComparisonExample"),
    ("comparison_verdict", "Says", "report_says", "ReportSays"),
    ("known_verdict", "Scanning", "argument_says", "ArgumentSays"),
    ("known_verdict", "Numerals", "id_says", "IdSays"),
    ("known_verdict", "Says", "known_line_says", "KnownLineSays"),
    ("known_verdict", "Computed", "id_examples", "IdExamples"),
    ("known_verdict", "Computed", "known_examples", "KnownExamples"),
    ("capture", "Headers", "header_says", "HeaderSays"),
    ("capture", "Headers", "record_header_says", "RecordHeaderSays"),
    ("capture", "Records", "records_say", "RecordsSay"),
    ("capture", "Payloads", "payload_says", "PayloadSays"),
    ("capture", "Computed", "capture_examples", "CaptureExamples"),
    ("capture_verdict", "Answered", "verdicts_are_answers", "VerdictsAreAnswers"),
    ("capture_verdict", "Stepped", "by_record", "ByRecord"),
    ("capture_verdict", "Says", "failure_says", "FailureSays"),
    ("capture_verdict", "Says", "lines_say", "LinesSay"),
    ("capture_verdict", "Computed", "recording_example", "RecordingExample"),
    ("demands", "Demand1", "demand_1", "Demand1"),
    ("demands", "Demand2", "demand_2", "Demand2"),
    ("demands", "Demand3", "runs_keep_sound", "RunsKeepSound"),
    ("demands", "Demand3", "demand_3", "Demand3"),
    ("demands", "Woven", "woven_is_rearranged", "WovenIsRearranged"),
    ("demands", "Dependence", "dependence", "Dependence"),
    ("demands", "LastCounter", "last_counter", "LastCounter"),
    ("demands", "History", "history", "History"),
    ("demands", "Bench", "bench_table", "BenchTable"),
    ("worked_runs", "Shuffled", "shuffled", "Shuffled"),
    ("worked_runs", "Crossed", "crossed", "Crossed"),
    ("worked_runs", "MoreNumbers", "more_numbers", "MoreNumbers"),
    ("worked_runs", "OtherBooks", "other_books", "OtherBooks"),
]

# crate and name of the closed records that are data and state nothing.
DATA = [
    ("key_book", "Book"),
    ("key_book", "Search"),
    ("forcerenew", "Servers"),
    ("forcerenew", "Server"),
    ("book_card", "Row"),
    ("book_card", "FrontRows"),
    ("card_pieces", "Run"),
    ("card_pieces", "Outcome"),
    ("capture", "Record"),
    ("capture", "Records"),
    ("comparison", "Field"),
    ("comparison", "Parts"),
    ("demands", "State"),
]

# Crates whose functions serve the other crates and are no entries: they may ask something of their callers, since every caller is proved to give it.
SERVING = ("octets",)

# crate and name of the public functions whose answer depends on what is read from a file. No other may lack an equation.
READING = [
    ("program_files", "read_more"),
    ("program_files", "read_file"),
    ("program_files", "load_book"),
]

# crate and definition of what an iterator gives: for what is left before and after, it fixes what comes, or that nothing does, and what is left then.
GIVING = [
    ("dhcp_message", "GivesOption"),
    ("book_card", "GivesRow"),
]

# The files of a function's proof: written whole, or what the prover asks for.
PROOF_FILES = ("Proof", "Invariants", "Answers")

# Proof files of examples and of the RFCs' vectors: everything that they prove is a listed statement.
VECTOR_FILES = ("Vectors", "Computed", "Examples")

# The names that contracts and definitions take from the libraries, by the one path that each comes from.
LIBRARY = {
    name: path
    for path, names in {
        "Rattle.std.specs.Option": "option_copied",
        "Rattle.std.specs.Prelude": """
            ◌≡◌ ◌↔◌ ◌≢◌ ◌⊎◌ Bool true false cond not ◌&&◌ ◌||◌ List [] ◌∷◌ ◌++◌ map
            ℕ zero suc ◌+◌ ◌-◌ ◌*◌ ◌/◌ ◌%◌ ◌^◌ ◌<◌ ◌≤◌ ℤ pos negsuc
            Option Some None unwrap_or ok_or option_map Result Ok Err
            length get_or slice_index slice_get take drop replicate set ltb leb eqb bit_and bit_or bit_xor
            ◌==◌ IsTrue IsFalse IsSome IsNone IsOk IsErr IfSome IfNone IfOk IfErr OnSome OnOk OnErr""",
    }.items()
    for name in names.split()
}
# Of these the ones that a definition's left side may hold, as patterns.
CONSTRUCTORS = set("true false None Some Ok Err [] ∷ zero suc pos negsuc".split())
# The words that the operators of LIBRARY stand between their arguments as.
SIGNS = {sign for name in LIBRARY if "◌" in name for sign in name.split("◌") if sign}
# What every clause and definition has without an import.
LENT = set("result ◌×◌ × ¬◌ ¬ Unit tt ⊥ absurd Type →".split())
# What a clause reads of a reference: what is behind it now, before the call and afterwards, itself as it was lent and afterwards, where it points.
OF_REFERENCES = ("now", "old", "new", "entry", "exit", "ref_ptr", "ghost_name")

# The operators of LIBRARY that bind tighter than an equation.
TIGHT = set("+ - * / % ^ ++ ∷ && || ==".split())
RELATIONS = ("≡", "≤", "↔", "==")
# The types of values, of which a clause is no fact, and what is true of anything.
VALUES = "ℕ ℤ Bool List Option Result Type".split()
UNITS = ("Unit", "⊤")
# The constructors of which a value has one or the other.
OTHER = {"true": "false", "false": "true", "Some": "None", "None": "Some", "Ok": "Err", "Err": "Ok"}
# Tests of a value, and what says something only where a value is built so, by the constructor that each asks for.
TESTS = {"IsTrue": "true", "T": "true", "IsFalse": "false", "IsSome": "Some", "IsNone": "None", "IsOk": "Ok", "IsErr": "Err"}
CASES = {"IfSome": "Some", "OnSome": "Some", "IfNone": "None", "IfOk": "Ok", "OnOk": "Ok", "IfErr": "Err", "OnErr": "Err"}
# What binds looser than `×`: around it a product is no list of parts.
LOOSER = ("→", "↔", "⊎")
# The words of antt that give a name a meaning inside a term.
BINDERS = (":", "λ", "∀", "let", "do", "←", "elim")
# The words of antt that have a term found: what it means is then not in the text.
TACTICS = set("rw rw⁻¹ simp search grw cc omega grind hlevel assumption first_of".split())
# The words of antt that name a thing in ways that these rules don't read, or have operators bind otherwise: specs/ does without.
UNREAD = ("open", "do", "deriving", "pattern", "mutual", "infix", "infixl", "infixr")
# What the path of a name begins with, where it is written in a term and not imported.
ROOTS = ("Rattle", "package", "mathlib", "lib", "native", "Prim", "mir", "borrow", "denote")
# What stands at the left margin of a file of specs/.
SORTS = ("use", "mod", "signature", "clause", "record", "data")


@dataclass
class Lists:
    """What the rules go by beside the sources: the tables above, or those of a made-up project."""

    theorems: list = field(default_factory=lambda: THEOREMS)
    data: list = field(default_factory=lambda: DATA)
    reading: list = field(default_factory=lambda: READING)
    giving: list = field(default_factory=lambda: GIVING)


class Crate:
    """A crate's sources by their path below it, and what its definitions are."""

    def __init__(self, folder, root):
        self.name, self.folder, self.root = folder.name, folder, root
        self.src = self.read("src", ".rt", RattleSource)
        self.specs = self.read("specs", ".antt", AnttSource)
        self.proofs = self.read("proofs", ".antt", AnttSource)

    def read(self, part, ending, source):
        files = sorted((self.folder / part).rglob(f"*{ending}"))
        return {str(file.relative_to(self.folder)): source(file.read_text()) for file in files}

    def place(self, path, line):
        return f"{(self.folder / path).relative_to(self.root)}:{line}"

    def definitions(self, module):
        """What a file of specs/ defines at its left margin, by name."""
        source = self.specs.get(f"specs/{module}.antt")
        return source.definitions if source else {}


def crates_of(root):
    folders = sorted(folder for folder in (root / "crates").iterdir() if folder.is_dir())
    return {folder.name: Crate(folder, root) for folder in folders}


# ---- what is trivially true


def trivial_parts(words):
    """The parts of a proposition that hold whatever the names in them mean."""
    for group in groups(words):
        premises, conclusion = implication(group)
        ends = [part for part in split_words(bare(conclusion), ("×", "⊎")) if is_proposition(part)]
        if any(never_holds(premise) or any(same(premise, end) for end in ends) for premise in premises):
            yield " ".join(group)
        for part in split_words(group, ("→", "×", "⊎", ",", ";", "=", ":", "in")):
            if always_holds(part):
                yield " ".join(part)


def implication(words):
    """Its premises, a product's one by one and without the names that they have, and what stands behind the last arrow."""
    *before, conclusion = split_words(words, ("→",))
    premises = [premise for part in before for premise in premises_in(part)]
    if outside(bare(conclusion), ("→",)):
        more, conclusion = implication(bare(conclusion))
        premises += more
    return premises, conclusion


def premises_in(words):
    """What is asked for in front of an arrow, part by part."""
    parts = [part for kind in bound_types(words) for part in parts_of(kind)]
    return parts if parts == [words] else [premise for part in parts for premise in premises_in(part)]


def always_holds(words):
    """`x ≡ x`, `x ≤ x`, `0 ≤ x`, `A ↔ A`, `0 ≢ 1`, `IsOk (Ok x)`, `OnOk (Err x) A`, or that what never holds does not."""
    pairs = [split_words(words, (relation,)) for relation in RELATIONS]
    at_most, unequal = (split_words(words, (relation,)) for relation in ("≤", "≢"))
    (asked, built), (case, of) = asked_and_built(words, TESTS), asked_and_built(words, CASES)
    return (
        any(len(sides) == 2 and sides[0] and same(*sides) for sides in pairs)
        or len(at_most) == 2 and canonical(at_most[0]) in (["0"], ["zero"])
        or len(unequal) == 2 and apart(*unequal)
        or asked == built
        or OTHER.get(case) == of
        or words[:1] == ["¬"] and never_holds(bare(words[1:]))
    )


def never_holds(words):
    """`⊥`, or plainly as much: `x ≢ x`, `x < x`, `x < 0`, `0 ≡ 1`, `Some x ≡ None`, `IsOk (Err x)`, `¬ (x ≡ x)`."""
    unequal, less, equal = ([canonical(side) for side in split_words(words, (relation,))] for relation in ("≢", "<", "≡"))
    asked, built = asked_and_built(words, TESTS)
    return (
        words == ["⊥"]
        or words[:2] == ["⊥", "{"]
        or OTHER.get(asked) == built
        or words[:1] == ["¬"] and (always_holds(bare(words[1:])) or is_unit(words[1:]))
        or any(len(sides) == 2 and sides[0] == sides[1] for sides in (unequal, less))
        or len(less) == 2 and less[1] in (["0"], ["zero"])
        or len(equal) == 2 and apart(*equal)
    )


def asked_and_built(words, tests):
    """The constructor that such a test asks for, None where it is none, and the one, or "", that builds what it is applied to."""
    words = canonical(words)
    return (tests[words[0]], built_by(arguments(words)[0])) if words[1:] and words[0] in tests else (None, "")


def apart(one, other):
    """Two numbers as they are written, or what two constructors build."""
    built = (built_by(one), built_by(other))
    return built[0] == OTHER.get(built[1]) or built[0] != built[1] and all(each.isdigit() for each in built)


def built_by(words):
    """The constructor that builds a value, or the number that it is; "" where it is neither, or an operator stands in it."""
    words = canonical(words)
    is_number = len(words) == 1 and words[0].isdigit()
    return words[0] if is_number or words[:1] and words[0] in OTHER and not outside(words, SIGNS) else ""


def same(one, other):
    return canonical(one) == canonical(other)


def is_proposition(words):
    """Not a type of values, such as numbers, lists or answers."""
    return first_of(words) not in VALUES


def is_unit(words):
    """Whatever is given, there is nothing to show."""
    return any(first_of(part) in UNITS for part in split_words(conclusion_of(words), ("⊎",)))


def says_nothing(words):
    """A part of what is to show, or one of two that may be shown, is nothing, or is a type of values."""
    parts = split_words(conclusion_of(words), ("×", "⊎"))
    return any(says_nothing(part) for part in parts) if len(parts) > 1 else first_of(parts[0]) in (*UNITS, *VALUES)


def first_of(words):
    return "".join(canonical(words)[:1])


def conclusion_of(words):
    """What stands behind the last arrow, also of those in brackets there."""
    *premises, last = split_words(bare(words), ("→",))
    return conclusion_of(last) if premises else bare(last)


# ---- contracts


def without_let(words):
    """A `let x = v in t` with v put in for x, and the names that were so bound, outermost first. One that is not plain stays: its name is no plain
    word or stands nowhere behind it, or its value binds a name, leaves a place open or is not whole."""
    words = bare(words)
    if words[:1] != ["let"] or words[2:3] != ["="]:
        return words, []
    name, end = words[1], next((place for place, word in enumerate(words) if word == "in"), len(words))
    value, rest = words[3:end], words[end + 1 :]
    plain = re.fullmatch(r"[a-z]\w*", name) and value and not {"=", ";", "_", *BINDERS} & {*value}
    if not plain or not whole(value) or name not in heads(rest):
        return words, []
    body, names = without_let([w for word in rest for w in put_in(word, name, value)])
    return body, [name, *names]


def put_in(word, name, value):
    """The value in a word's place, if the word is the name or a field of what it names."""
    return ["(", *value, ")", *(f".{each}" for each in word.split(".")[1:])] if head(word) == name else [word]


def whole(words):
    """Every bracket in it is closed in it, and none before it is opened."""
    depth = 0
    for word in words:
        depth += {"(": 1, "{": 1, ")": -1, "}": -1}.get(word, 0)
        if depth < 0:
            return False
    return depth == 0


def parts_of(words):
    """The parts of a product, with a `let` put in for its name. An implication is one part, and so is what else binds looser than a product."""
    words, _ = without_let(words)
    if outside(words, LOOSER) or not outside(words, ("×",)):
        return [words]
    return [part for piece in split_words(words, ("×",)) for part in parts_of(piece)]


@dataclass
class Reading:
    """An `ensures` taken apart: the words of what is said, with each `let` at its front put in, the names of these, and what stands under no premise:
    the equations, and the other parts, which hold none."""

    words: list
    lets: list
    equations: list
    others: list

    @classmethod
    def of(cls, clause, known):
        """`known` are the names that an equation may hold; another may be an operator that takes the equation apart."""
        said, lets = without_let(antt_tokens(clause.text))
        plain = known | TIGHT | {"result", "(", ")", "≡"}
        sides = [split_words(part, ("≡",)) for part in parts_of(said) if all(head(word) in plain or re.match(r"\.|\d", word) for word in part)]
        others = [canonical(part) for part, *more in sides if part and not more and "≡" not in part]
        return cls(said, lets, [pair for pair in sides if len(pair) == 2], others)


def owing_types(crate):
    """The types of a crate that have ghost fields, or hold one that has."""
    owing = {fact.label.split(".")[0] for source in crate.src.values() for fact in source.inner_facts()}
    said = [(name, set(re.findall(r"\w+", text))) for source in crate.src.values() for name, _, text in source.types_said]
    while more := {name for name, words in said if owing & words} - owing:
        owing |= more
    return owing


def words_in_types(function):
    return {word for each in [*(parameter.type for parameter in function.parameters), function.result] for word in re.findall(r"\w+", each)}


def contract_faults(crates, lists):
    sources = [(crate.place(path, 1), source) for crate in crates.values() for path, source in crate.src.items()]
    rooms = {name: fields for _, source in sources for name, fields in source.rooms.items()}
    for name in sorted(rooms):
        named = [place for place, source in sources if name in source.structs]
        yield from (f"{place}: `{name}`, which lends lists together, is the name of another struct too" for place in named if named[1:])
    for crate in crates.values():
        owing = owing_types(crate)
        for path, source in crate.src.items():
            imported = imports(crates, source)
            for line, fault in source_faults(source):
                yield f"{crate.place(path, line)}: {fault}"
            for name, line, text in source.types_said:
                for room in sorted({*rooms} & set(re.findall(r"\w+", text)) - {name}):
                    yield f"{crate.place(path, line)}: `{name}` holds a `{room}`: of what it lends no contract is asked"
            for _, line, said in source.iterators:
                yield from (f"{crate.place(path, line)}: {fault}" for fault in iterator_faults(said, imported, crate.name, lists))
            for function in source.functions:
                place = f"{crate.place(path, function.line)}: fn {function.name}"
                if function.foreign:
                    yield f"{place} has no body: its contract would be assumed"
                for clause in function.clauses:
                    for fault in clause_faults(clause, function):
                        yield f"{place}, line {clause.line}: {fault}"
                by_members = function.name == "next" and not function.clauses and function.around in [around for around, *_ in source.iterators]
                if function.public and path != "src/main.rt" and not by_members:
                    for each in sorted(owing & words_in_types(function)):
                        yield f"{place} takes or gives a `{each}`, whose ghost fields its callers would owe"
                    reads = (crate.name, function.name) in lists.reading and not function.owner
                    for fault in public_faults(function, imported, (source.structs, rooms), crate.name in SERVING, reads):
                        yield f"{place} {fault}"
    yield from reading_faults(crates, lists)


def reading_faults(crates, lists):
    for crate_name, name in lists.reading:
        sources = crates[crate_name].src.values() if crate_name in crates else []
        found = [each for source in sources for each in source.functions if each.name == name and each.public]
        if len(found) != 1 or found[0].owner:
            yield f"{crate_name} has {len(found)} public functions `{name}`, where one, in no `impl`, is listed as one that reads"


def source_faults(source):
    """What stands beside the functions and changes what a clause reads."""
    for line in source.ghosts():
        yield line, "`ghost` is no import and no clause of a function: what a clause reads of the type, or a caller owes, would stand elsewhere"
    for fact in source.inner_facts():
        for fault in inner_fact_faults(fact):
            yield fact.line, f"the ghost field `{fact.label}`: {fault}"
    for name, line in source.lending_types():
        yield line, f"`{name}` holds a `&mut`: of what it lends no contract is asked"
    for name, fields in source.structs.items():
        for each in sorted({*fields} & {*OF_REFERENCES}):
            yield 1, f"struct {name} has a field `{each}`, which a clause reads of a reference"


def handed_on_faults(crates):
    for crate in crates.values():
        for path, source in crate.src.items():
            for named, line in source.handed_on():
                *modules, name = re.split(r"\s*::\s*", named)
                file = crate.src.get("/".join(["src", *(module for module in modules if module not in ("crate", "self"))]) + ".rt")
                is_function = file and any(each.name == name and each.public and not each.owner for each in file.functions)
                if not is_function and not (file and re.search(rf"\bpub\s+const\s+{re.escape(name)}\b", file.text)):
                    yield f"{crate.place(path, line)}: `pub use {named}` names no public function or constant of this crate's own"


def clause_faults(clause, function):
    words = antt_tokens(clause.text)
    if clause.commented:
        yield "a clause holds a comment"
    if clause.starred or {"⌜", "⌝"} & {*words}:
        yield "the clause is no plain fact"
    elif clause.kind == "ensures":
        yield from said_clause_faults(Reading.of(clause, set()).words, function)


def iterator_faults(said, imported, crate_name, lists):
    """What an iterator gives and how long it goes on stands in two definitions of specs/, for the clauses of its `next`. The former is listed."""
    if sorted(clause.label for clause in said) != ["next_gives", "remaining"]:
        yield "an iterator says what it gives in `next_gives` and how long it goes on in `remaining`, and nothing else"
    for clause in said:
        if not imported.get(clause.text.strip()):
            yield f"`{clause.label}` of an iterator is no definition of specs/: `{clause.text.strip()}`"
        elif clause.label == "next_gives" and (crate_name, clause.text.strip()) not in lists.giving:
            yield f"`{clause.text.strip()}` is not in the table GIVING"


def inner_fact_faults(fact):
    words = antt_tokens(fact.text)
    if fact.commented:
        yield "a clause holds a comment"
    if {"⌜", "⌝"} & {*words}:
        yield "the clause is no plain fact"
    yield from empty_faults(without_let(words)[0])


def said_clause_faults(words, function):
    lent = [parameter.name for parameter in function.parameters if parameter.lent_mutably]
    if not any(speaks_of(words, name) for name in ("", *lent)):
        yield "the clause speaks neither of the result nor of what is lent afterwards"
    yield from empty_faults(words)


def empty_faults(words):
    """What is said is true of anything, or leaves something to be found, or names a thing by its path."""
    for part in trivial_parts(words):
        yield f"`{part}` is trivially true"
    if any(says_nothing(part) for part in parts_of(words)):
        yield "the clause says nothing"
    if leaves_open(words):
        yield "`_`, or a tactic, stands for whatever makes the clause true"
    yield from path_faults(words)


def path_faults(words):
    """A name by its path, or an operator by its whole name: neither is read as what an import brings."""
    for word in sorted({*words}):
        if "." in word[1:] and head(word) in ROOTS:
            yield f"`{word}` is named by its path and not imported"
        elif "◌" in word:
            yield f"`{word}` does not stand between its arguments"


def imports(crates, source):
    """The names that a source's `ghost use` lines bring, each with the file of specs/ that defines it, if one does."""
    found = {}
    for use in source.ghost_uses():
        owner, module = specs_module(use.path)
        definitions = crates[owner].definitions(module) if owner in crates else {}
        for name, alias in use.items:
            found[alias] = crates[owner].specs[f"specs/{module}.antt"] if name in definitions else None
    return found


def public_faults(function, imported, types, serving, reads):
    cited = {name for name, source in imported.items() if source}
    names = [parameter.name for parameter in function.parameters]
    readings = [Reading.of(clause, {*imported, *names}) for clause in function.all("ensures") if not clause.starred]
    yield from head_faults(function, serving, reads)
    for reading in readings:
        if not reads and not cited & heads(reading.words):
            yield f"has an `ensures` that names no definition of specs/: `{' '.join(reading.words)}`"
        for word in sorted({*BINDERS} & {*reading.words}):
            yield f"has an `ensures` that binds a name by `{word}`, which may hide the result or a parameter"
    yield from hiding_faults([*names, *function.generics], [name for reading in readings for name in reading.lets], imported)
    yield from unfixed_faults(function, readings, imported, types, reads)
    yield from room_faults(function, readings, imported, types[1])


def head_faults(function, serving, reads):
    """What a public function may have at all."""
    if function.all("requires") and not serving:
        yield "has a `requires`"
    if function.for_c and serving:
        yield "is visible to C, in a crate that serves the others"
    if function.for_c and reads:
        yield "is visible to C, and listed as one that reads"
    if not function.all("ensures"):
        yield "has no `ensures`"
    for clause in function.clauses:
        if clause.kind not in ("requires", "ensures"):
            yield f"has a clause `{clause.kind}`"


def hiding_faults(names, lets, imported):
    """A parameter or a `let` that has the name of something else."""
    for name in sorted({*names, *lets} & {*imported, *LENT} | {*lets} & {*LIBRARY, *names}):
        yield f"hides the name `{name}`"


def unfixed_faults(function, readings, imported, types, reads):
    cited = {name for name, source in imported.items() if source}
    names = {parameter.name for parameter in function.parameters}
    given = [parameter for parameter in function.parameters if not parameter.lent_mutably]
    read_from = [parameter.name for parameter in function.parameters if parameter.type in (f"&mut {kind}" for kind in function.readers)]
    equations = [
        (left, right)
        for reading in readings
        for left, right in reading.equations
        if settles(right, cited) and (not given or names & heads(right))
    ]
    for name in unsettled(function, equations, imported, types):
        what = f"`{name}` afterwards" if name else "its result"
        if not reads:
            yield f"has no equation that fixes {what}"
        elif name not in read_from and not any(bounds(reading, name, cited) or keeps_length(reading, name) for reading in readings):
            yield f"reads, and no equation and no definition of specs/ speaks of {what} under no premise"
    for name in sorted(names):
        if not reads and not any(name in heads(left + right) for left, right in equations):
            yield f"says nothing of its parameter `{name}`"


def bounds(reading, name, cited):
    """A definition of specs/ is applied, under no premise, to what is behind this `&mut` afterwards, or to the result, or to a term that holds it."""
    return any(part[0] in cited and any(speaks_of(each, name) for each in arguments(part)) for part in reading.others)


def keeps_length(reading, name):
    """An equation says that what is behind this `&mut` is as long afterwards as before."""
    lengths = [["length", f"{name}.{when}"] for when in ("new", "old")]
    return any([canonical(left), canonical(right)] == lengths for left, right in reading.equations)


def speaks_of(words, name):
    """What is behind this `&mut` afterwards stands in it, or, where the name is "", the result."""
    return any(re.match(rf"{re.escape(name)}\.(new|exit)\b", word) if name else head(word) == "result" for word in words)


def settles(right, cited):
    """The right side of an equation is a definition's value, on nothing that the function gives back."""
    afterwards = any({"new", "exit"} & {*word.split(".")[1:]} for word in right)
    return bool(cited & heads(right)) and "result" not in heads(right) and not afterwards


def unsettled(function, equations, imported, types):
    """What no equation fixes: the result, which is "" here, or what is behind a `&mut` afterwards, by its name."""
    structs, rooms = types
    observed = [canonical(left) for left, _ in equations]
    if function.result not in ("", "()") and not result_fixed(function.result, observed, structs):
        yield ""
    for parameter in function.parameters:
        if parameter.lent_mutably:
            after = [f"{parameter.name}.new"]
            fields = next((rooms[word] for word in re.findall(r"\w+", parameter.type) if word in rooms), None)
            shows = (lambda left: shows_room(left, *after, fields, imported)) if fields else (lambda left: left == after or holds(left, after, imported))
            if not any(shows(left) for left in observed):
                yield parameter.name


def room_faults(function, readings, imported, rooms):
    """A room that a public function takes by `&` or `&mut` alone; of one taken by `&mut` it says that it has the same slices afterwards."""
    for name in sorted({*rooms} & set(re.findall(r"\w+", function.result))):
        yield f"gives a `{name}`: of what it lends no contract is asked"
    for parameter in function.parameters:
        for name in sorted({*rooms} & set(re.findall(r"\w+", parameter.type))):
            taken = re.fullmatch(rf"&\s*('\w+\s*)?(mut\s+)?(\w+::)*{name}(<[^<>]*>)?", parameter.type)
            if not taken:
                yield f"takes the `{name}` of `{parameter.name}` otherwise than by `&` or `&mut`"
            elif taken.group(2):
                ends = [f"{parameter.name}.old", f"{parameter.name}.new"]
                others = [part for reading in readings for part in reading.others]
                if not any(part[1:] == ends and keeps_room(part[0], rooms[name], imported) for part in others):
                    yield f"says nowhere that `{parameter.name}` has the same slices afterwards"


def shows_room(words, new, fields, imported):
    """A function is applied to the room afterwards that builds a record of what is behind each of its slices and of its other arguments."""
    source, given = imported.get(words[0]), arguments(words)
    definition = plain_definition(source, words[0]) if source and [new] in given else None
    if not definition or len(definition[0]) != len(given):
        return False
    names, body = definition
    room = names[given.index([new])]
    values = [part[2] for part in split_words(body[2:-1], (";",)) if len(part) == 3 and part[1] == "="]
    return body[:2] == ["record", "{"] and sorted(values) == sorted([*(f"{room}.{each}.now" for each in fields), *(each for each in names if each != room)])


def keeps_room(name, fields, imported):
    """Its definition is that each slice of the second room is that of the first."""
    source = imported.get(name)
    definition = plain_definition(source, name) if source else None
    if not definition or len(definition[0]) != 2:
        return False
    (first, second), body = definition
    parts = [[canonical(side) for side in split_words(part, ("≡",))] for part in parts_of(body)]
    return sorted(parts) == sorted([[f"{second}.{each}.ghost_name"], [f"{first}.{each}.ghost_name"]] for each in fields)


def plain_definition(source, name):
    """The arguments and the body of a definition of one clause `f x y .. = ..`."""
    clauses = [each.words for each in source.declarations if each.sort == "clause" and each.name == name]
    sides = split_words(clauses[0], ("=",)) if len(clauses) == 1 else []
    if len(sides) < 2 or not all(re.fullmatch(r"\w+", word) for word in sides[0][1:]):
        return None
    place = clauses[0].index("=")
    return clauses[0][1:place], clauses[0][place + 1 :]


def result_fixed(kind, observed, structs):
    """A reference by what it refers to and where; a struct perhaps by its fields, one by one or listed (`result.a ∷ result.b ∷ [] ≡ ..`)."""
    seen = [part[0] for left in observed for part in listed(left) if len(part) == 1]
    if kind.startswith("&"):
        return "result.now" in seen and "result.ref_ptr" in seen
    fields = structs.get(kind, [])
    return "result" in seen or bool(fields) and all(f"result.{name}" in seen for name in fields)


def listed(words):
    """The things that a list names, or the one thing itself."""
    parts = split_words(words, ("∷",))
    return parts[:-1] if parts[-1] == ["[]"] else [words]


def holds(words, wanted, imported):
    """A function that builds a record of its arguments is applied to what is wanted, as one of them."""
    source = imported.get(words[0])
    return bool(source) and builds_record(source, words[0]) and wanted in arguments(words)


def builds_record(source, name):
    """Its one clause is `f x y .. = record { a = x; b = y; .. }` with each argument the whole of one field: equal values have equal arguments."""
    clauses = [each.words for each in source.declarations if each.sort == "clause" and each.name == name]
    sides = split_words(clauses[0], ("=",)) if len(clauses) == 1 else []
    if len(sides) != 2:
        return False
    left, body = sides
    values = [part[2] for part in split_words(body[2:-1], (";",)) if len(part) == 3 and part[1] == "="]
    return body[:2] == ["record", "{"] and sorted(values) == sorted(left[1:])


# ---- names


def specs_module(path):
    """The crate and the file of specs/ that a path names."""
    found = re.fullmatch(r"Rattle\.(\w+)\.specs\.(\w+)", path)
    return found.groups() if found else ("", "")


def declaring_crate(path):
    """The crate whose type, variants or constants a path names, which Rattle declares from its sources."""
    found = re.fullmatch(r"Rattle\.(\w+)\.specs\.declared\.[\w.]+", path)
    return found.group(1) if found else ""


def name_faults(crates):
    given = {name for crate in crates.values() for source in crate.specs.values() for name, _ in source.named_places}
    given |= {word for crate in crates.values() for source in crate.src.values() for word in re.findall(r"\w+", source.text)}
    for crate in crates.values():
        for path, source in {**crate.src, **crate.specs}.items():
            uses = list(source.ghost_uses() if path.endswith(".rt") else source.uses())
            for use in uses:
                faults = [*use_faults(use, crates, path.endswith(".rt")), *alias_faults(use, given, path.endswith(".rt"))]
                yield from (f"{crate.place(path, use.line)}: {fault}" for fault in faults)
            yield from (f"{crate.place(path, line)}: `{name}` is brought in twice" for name, line in brought_twice(uses))
        for path, source in crate.specs.items():
            for name, line in sorted({*source.named_places, *pattern_variables(source)}):
                if name in LIBRARY or name in LENT or name in SIGNS - CONSTRUCTORS:
                    yield f"{crate.place(path, line)}: `{name}` is given another meaning"
                elif "◌" in name:
                    yield f"{crate.place(path, line)}: `{name}` is an operator of its own"


def brought_twice(uses):
    """The names that more than one item brings: one of them may hold for a part of the file alone."""
    places = [(alias, use.line) for use in uses for _, alias in use.items]
    names = [name for name, _ in places]
    yield from ((name, line) for number, (name, line) in enumerate(places) if name in names[:number])


def pattern_variables(source):
    """The names in patterns that are no constructor's."""
    yield from ((name, line) for name, line in source.pattern_places() if name not in CONSTRUCTORS)


def use_faults(use, crates, for_contracts):
    if not use.path:
        yield f"`use {use.text}` does not list the names that it takes"
        return
    owner, module = specs_module(use.path)
    root = re.split(r"\.", use.path)
    for name, alias in use.items:
        if name == "*" or not re.fullmatch(r"[^\s.]+", name):
            yield f"`{name}` is no single name"
        elif alias in LENT or alias in LIBRARY and (alias != name or LIBRARY[alias] != use.path):
            yield f"`{alias}` is taken from `{use.path}`"
        elif owner in crates:
            if not gives(crates[owner], module, name):
                yield f"`{name}` is not defined in specs/{module}.antt of {owner}"
        elif root[0] == "Rattle" and root[1] in crates:
            if declaring_crate(use.path) != root[1]:
                yield f"`{use.path}` is no file of specs/"
        elif root[0] not in ROOTS or root[0] == "package":
            yield f"`{use.path}` is neither a library's nor a crate's"
        elif name not in LIBRARY and (for_contracts or "◌" in name):
            yield f"`{name}` of `{use.path}` is not in the table LIBRARY"


def alias_faults(use, given, for_contracts):
    for name, alias in use.items:
        if alias != name and for_contracts:
            yield f"`{name} as {alias}`: what contracts name has its own name"
        elif alias != name and alias in given:
            yield f"`{name} as {alias}`: `{alias}` has another meaning elsewhere"


def gives(crate, module, name):
    source = crate.specs.get(f"specs/{module}.antt")
    return source is not None and name in {name for name, _ in source.named_places}


# ---- definitions and proofs


def text_faults(crates):
    for crate in crates.values():
        for path, source in {**crate.specs, **crate.proofs}.items():
            for number, line in enumerate(source.raw.split("\n"), 1):
                if re.search(r"(?<![^\s(){}.;,@])--[^\s-]", line):
                    yield f"{crate.place(path, number)}: hyphens that may begin a comment or a name"
            for number, line in enumerate(source.lines(), 1):
                words = antt_tokens(line)
                if "axiom" in words or {"lem", "ac"} & set(words) or "Prim.Axiom" in line:
                    yield f"{crate.place(path, number)}: an axiom"
                if any(word[0] == "?" for word in words) or "{!" in line:
                    yield f"{crate.place(path, number)}: a hole"


def declared_faults(crates):
    for crate in crates.values():
        functions = [folder_of(path, function) for path, source in crate.src.items() for function in source.functions]
        for path in [*crate.specs, *crate.proofs]:
            part, *folders, file = pathlib.Path(path).with_suffix("").parts
            library = (crate.specs if part == "specs" else crate.proofs).get(f"{part}/Lib.antt")
            if part == "proofs" and folders:
                if file not in PROOF_FILES or [folder.lstrip("+") for folder in folders] not in functions:
                    yield f"{crate.place(path, 1)}: belongs to no function"
                elif file == "Proof" and any(path.replace("/Proof.", f"/{other}.") in crate.proofs for other in PROOF_FILES[1:]):
                    yield f"{crate.place(path, 1)}: stands beside another proof of its function"
            elif folders or file != "Lib" and (not library or file not in library.modules()):
                yield f"{crate.place(path, 1)}: {part}/Lib.antt does not declare it"


def folder_of(path, function):
    """The folder of a function's proof: the modules of its file, its `impl`, and its name, or that of the cycle that it is proved with."""
    modules = [module for module in pathlib.Path(path).with_suffix("").parts[1:] if module not in ("lib", "main", "mod")]
    return [*modules, *([function.owner] if function.owner else []), function.cycle or function.name]


def said_faults(crates):
    for crate in crates.values():
        for path, source in crate.specs.items():
            for each in source.declarations:
                place = f"{crate.place(path, each.line)}: `{each.name}`"
                if each.sort not in SORTS:
                    yield f"{place}: specs/ has no `{each.sort}`"
                if each.sort not in ("use", "mod"):
                    yield from (f"{place}: specs/ has no `{word}`" for word in UNREAD if word in each.words)
                    yield from (f"{place}: {fault}" for fault in path_faults(each.words))
                said = said_by(each, source)
                for words in said:
                    for part in trivial_parts(words):
                        yield f"{place}: `{part}` is trivially true"
                    if leaves_open(words):
                        yield f"{place}: `_`, or a tactic, stands for whatever makes `{' '.join(words)}` true"
                every = any if each.sort == "record" else all
                if said and every(is_unit(part) for words in said for part in parts_of(words)):
                    yield f"{place} says nothing in a part"


def said_by(each, source):
    """What a record says field by field, a predicate that is a data type constructor by constructor, or another clause by clause."""
    if each.sort == "record":
        return each.fields() or [["Unit"]]
    if each.sort == "data" and (each.parameters() or outside(each.type, ("→",))):
        return each.fields()
    if each.sort != "signature" or split_words(each.type, ("→",))[-1][:1] != ["Type"]:
        return []
    clauses = [clause.words for clause in source.declarations if clause.sort == "clause" and clause.name == each.name]
    return [words[(outside(words, ("=",)) or [0])[0] + 1 :] for words in clauses]


def leaves_open(words):
    """A `_` stands in it that is no name of a `λ`, or a tactic: the prover takes for it whatever fits."""
    binds = False
    for word in words:
        binds = word == "λ" or binds and word != "."
        if word == "_" and not binds or word in TACTICS or head(word) == "Prim":
            return True
    return False


def is_closed(each):
    return not each.parameters() and each.type[:1] == ["Type"] and not outside(each.type, ("→",))


# ---- statements


def theorem_faults(crates, lists):
    for listed in {each for each in lists.theorems if lists.theorems.count(each) > 1}:
        yield f"{listed[0]}: `{listed[2]}` is listed twice"
    for crate_name, file, theorem, statement in lists.theorems:
        crate = crates.get(crate_name)
        path = f"proofs/{file}.antt"
        if not crate or path not in crate.proofs:
            yield f"{crate_name}: {path} is missing, which proves `{theorem} : {statement}`"
            continue
        for fault in [*proof_faults(crate, crate.proofs[path], theorem, statement), *statement_faults(crates, crate, statement, lists)]:
            yield f"{crate.place(path, 1)}: `{theorem} : {statement}`: {fault}"


def proof_faults(crate, source, theorem, statement):
    """The signature stands once at the left margin, its proof right behind, perhaps after a line `unfolding ..`."""
    declarations = [each for each in source.declarations if each.sort != "unfolding"]
    places = [place for place, each in enumerate(declarations) if each.name == theorem and each.sort == "signature"]
    if len(places) != 1 or declarations[places[0]].words != ["pub", theorem, ":", statement]:
        yield "is not stated"
    elif places[0] + 1 == len(declarations) or declarations[places[0] + 1].sort != "clause" or declarations[places[0] + 1].name != theorem:
        yield "is not proved right behind its signature"
    modules = [specs_module(use.path) for use in source.uses() if (statement, statement) in use.items]
    if len(modules) != 1 or modules[0][0] != crate.name or statement not in crate.definitions(modules[0][1]):
        yield "its statement is not imported from the file of specs/ that defines it"


def statement_faults(crates, crate, statement, lists):
    """The statement is defined in this crate's specs/, closed, and elsewhere only where another listed theorem states it."""
    stating = {name for name, _, _, stated in lists.theorems if stated == statement}
    for other in crates.values():
        for path, source in {**other.specs, **other.proofs}.items():
            each = source.definitions.get(statement)
            if each and not (other.name in stating and path.startswith("specs/")):
                yield f"another `{statement}` is defined at {other.place(path, each.line)}"
            elif each and other is crate and (each.sort == "data" or not is_closed(each)):
                yield f"the statement at {crate.place(path, each.line)} is not closed, or a data type"


def listed_faults(crates, lists):
    stated = {(crate, statement) for crate, _, _, statement in lists.theorems}
    for crate in crates.values():
        for path, source in crate.specs.items():
            for each in source.definitions.values():
                if each.sort != "data" and is_closed(each) and (crate.name, each.name) not in {*stated, *lists.data}:
                    yield f"{crate.place(path, each.line)}: no listed theorem proves `{each.name}`"
    for crate, name in lists.data:
        if not any(name in source.definitions for source in (crates[crate].specs.values() if crate in crates else ())):
            yield f"{crate}: DATA has `{name}`, which is not there"


def vector_faults(crates, lists):
    proved = {(crate, file, theorem) for crate, file, theorem, _ in lists.theorems}
    for crate in crates.values():
        for file in VECTOR_FILES:
            source = crate.proofs.get(f"proofs/{file}.antt")
            for each in source.definitions.values() if source else ():
                if stands_alone(each, source) and (crate.name, file, each.name) not in proved:
                    yield f"{crate.place(f'proofs/{file}.antt', each.line)}: `{each.name}` is computed and not listed"


def stands_alone(each, source):
    """It is for others, or nothing else in its file cites it."""
    others = [other for other in source.declarations if other.name != each.name and other.sort != "use"]
    return "pub" in each.marks() or not any(each.name in other.words for other in others)


# ---- must-fail edits


def edit_faults(crates):
    for crate in crates.values():
        for edit in sorted((crate.folder / "must-fail").glob("*")):
            for fault in one_edit_faults(crate, edit) if edit.is_file() else ["is no file"]:
                yield f"{edit.relative_to(crate.root)}: {fault}"


def edit_line(line):
    """What a line of an edit gives, as the prover reads it, and its text."""
    found = re.fullmatch(r"(file: |old: |new: ?)(.*)", line)
    return (found.group(1).rstrip(": "), found.group(2)) if found else ("", line)


def one_edit_faults(crate, edit):
    lines = edit.read_text().rstrip("\n").split("\n")
    slips = [line for line in lines if line.startswith("#")]
    rest = [edit_line(line) for line in lines[len(slips) :]]
    keys = " ".join(key for key, _ in rest)
    if not re.fullmatch(r"[\w-][\w.-]*\.edit", edit.name, re.A) or not "".join(slips).strip("# ") or not re.fullmatch(r"(file( old new)+ ?)+", keys):
        yield "is not a line `#`, `file:` and pairs of `old:` and `new:`"
        return
    path, old, texts = "", "", {}
    for key, text in rest:
        if key == "file":
            path = text
            if path.split("/")[0] not in ("src", "specs") or ".." in path or not (crate.folder / path).is_file():
                yield f"`{path}` is no file of src/ or specs/"
                return
            texts.setdefault(path, (crate.folder / path).read_text())
        elif key == "old":
            old = text
            count = texts[path].count(old) if old else 0
            if count != 1:
                yield f"`{old}` occurs {count} times in {path}"
        else:
            if text == old:
                yield f"`{old}` is not changed"
            texts[path] = texts[path].replace(old, text) if old else texts[path]


def all_faults(root, lists):
    crates = crates_of(root)
    yield from contract_faults(crates, lists)
    yield from handed_on_faults(crates)
    yield from name_faults(crates)
    yield from text_faults(crates)
    yield from declared_faults(crates)
    yield from said_faults(crates)
    yield from theorem_faults(crates, lists)
    yield from listed_faults(crates, lists)
    yield from vector_faults(crates, lists)
    yield from edit_faults(crates)


def main():
    root = pathlib.Path(sys.argv[1] if len(sys.argv) > 1 else pathlib.Path(__file__).parent.parent).resolve()
    faults = list(all_faults(root, Lists()))
    for fault in faults:
        print(fault)
    print(f"{len(THEOREMS)} theorems listed, {len(faults)} faults")
    sys.exit(1 if faults else 0)


if __name__ == "__main__":
    main()
