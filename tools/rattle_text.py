"""Reads the text of Rattle sources (.rt) and of antt's definitions and proofs (.antt), as far as tools/promises.py asks.

Comments and the insides of strings become spaces, so that places stay what they were and nothing hides in them.
"""
import re
from dataclasses import dataclass, field
from functools import cached_property

NAME = r"[^\s(){}.;,@\"«»]+"
# A name or a path of names (`Bits.xor`, `x.new`), a field behind a bracket (`(f x).size`), an escaped name, a bracket or another mark.
ANTT_TOKEN = re.compile(rf"\.(?={NAME}){NAME}|(?:«[^»]*»|{NAME})(?:\.{NAME})*|\S")
RATTLE_TOKEN = re.compile(r'"[^"]*"|\w+|->|::|\S')
CLOSING = {"(": ")", "{": "}", "[": "]", "<": ">"}
CLAUSES = ("ghost", "requires", "ensures")
LENT_MUTABLY = r"&\s*('\w+\s*)?mut\b"
MARKS = ("pattern", "unfoldable", "abbrev", "axiom", "pub")
# Words that open something other than a signature.
HEADS = ("use", "mod", "module", "mutual", "open", "infix", "infixl", "infixr", "syntax", "ruleset", "unfolding")


# ---- both languages


def line_of(text, place):
    return text.count("\n", 0, place) + 1


def blanked(text):
    return re.sub(r"[^\n]", " ", text)


def without_comments(text, line_mark, open_mark, close_mark, quoted):
    """The text with comments (block comments nest) and the insides of what `quoted` matches turned into spaces."""
    start = re.compile(f"(?P<quoted>{quoted})|{re.escape(line_mark)}[^\n]*|(?P<block>{re.escape(open_mark)})", re.S)
    kept, at = [], 0
    while found := start.search(text, at):
        kept.append(text[at : found.start()])
        at = block_end(text, found.start(), open_mark, close_mark) if found.group("block") else found.end()
        inside = text[found.start() : at]
        if not found.group("quoted"):
            kept.append(blanked(inside))
        else:
            kept.append(inside if inside == '"C"' else inside[0] + blanked(inside[1:-1]) + inside[-1])
    return "".join(kept) + text[at:]


def block_end(text, at, open_mark, close_mark):
    depth = 0
    marks = re.compile(f"{re.escape(open_mark)}|{re.escape(close_mark)}")
    for mark in marks.finditer(text, at):
        depth += 1 if mark.group() == open_mark else -1
        if depth == 0:
            return mark.end()
    return len(text)


def bracket_end(text, at):
    """The place behind the bracket that closes the one at `at`. What stands in another bracket, as in `[u8; 1 << 2]`, opens and closes no `<`."""
    opening, closing, depth, place = text[at], CLOSING[text[at]], 0, at
    while place < len(text):
        if text[place] == opening:
            depth += 1
        elif text[place] == closing and text[place - 1 : place + 1] != "->":
            depth -= 1
            if depth == 0:
                return place + 1
        elif opening == "<" and text[place] in CLOSING:
            place = bracket_end(text, place) - 1
        place += 1
    return len(text)


def found_outside(text, marks, at=0):
    """What matches from `at` on and begins in no bracket."""
    wanted = re.compile(marks)
    while at < len(text):
        if found := wanted.match(text, at):
            yield found
        at = bracket_end(text, at) if text[at] in CLOSING else at + 1


def split_outside(text, marks):
    """The parts of a text between what matches and stands in no bracket."""
    places = [found.span() for found in found_outside(text, marks)]
    parts = [text[end:start] for (_, end), (start, _) in zip([(0, 0), *places], [*places, (len(text), 0)])]
    return [part.strip() for part in parts if part.strip()]


def head_end(text, at, marks=r"[{;)\]}]"):
    """Where an item's head ends that goes on at `at`: at a brace or a `;` in no bracket, or at what closes a bracket around it."""
    found = next(found_outside(text, marks, at), None)
    return found.start() if found else len(text)


# ---- Rattle


@dataclass
class Clause:
    kind: str  # one of CLAUSES
    label: str
    text: str  # what stands between the braces
    line: int
    commented: bool
    starred: bool  # `ensures*`, `requires*`: what is said of memory and loans
    place: int  # where its word begins


@dataclass
class Parameter:
    name: str
    type: str

    @property
    def lent_mutably(self):
        """It is a `&mut`, or holds one."""
        return re.search(LENT_MUTABLY, self.type) is not None


@dataclass
class Impl:
    """An `impl` or a `trait`, which has functions in its braces."""

    owner: str  # the name of its folder of proofs
    of_trait: bool  # its functions are a trait's, which have no `pub` of their own
    trait: str  # of an `impl` for a type, the trait, as it is written; else ""
    type: str  # the type that an `impl` is of or for, as it is written; of a `trait` ""
    generics: str  # its parameters, as they are written
    start: int  # where its braces begin and end
    end: int


NOWHERE = Impl("", False, "", "", "", 0, 0)


@dataclass
class Function:
    name: str
    line: int
    public: bool  # pub to other crates, of a trait, or visible to C
    for_c: bool  # `extern`: visible to C
    around: Impl  # the `impl` or `trait` that holds it, or NOWHERE
    cycle: str  # the name that `#[cycle(name)]` gives those that call one another, or ""
    generics: list  # the names of its type and const parameters, and of its `impl`'s
    readers: list  # of these the types that can be read from, and what stands for one that has no name
    parameters: list
    result: str  # its type, or ""
    clauses: list
    foreign: bool  # declared without a body

    @property
    def owner(self):
        return self.around.owner

    def all(self, kind):
        return [clause for clause in self.clauses if clause.kind == kind]


@dataclass
class Use:
    """`use PATH.{name, name as alias}`: items are pairs (name, the name it has here). `path` is "" where a line has another shape."""

    path: str
    items: list
    line: int
    text: str


class RattleSource:
    QUOTED = r"\"(?:\\.|[^\"\\])*\"|'(?:\\[^']*|[^'\\])'"

    def __init__(self, text):
        self.raw = text
        self.text = without_comments(text, "//", "/*", "*/", self.QUOTED)

    @cached_property
    def functions(self):
        return list(self.read_functions())

    def read_functions(self):
        tokens = list(RATTLE_TOKEN.finditer(self.text))
        for number, token in enumerate(tokens):
            if token.group() == "fn" and number + 1 < len(tokens) and re.match(r"\w", tokens[number + 1].group()):
                before = self.marks_before(tokens, number)
                around = next((each for each in reversed(self.impls) if each.start < token.start() < each.end), NOWHERE)
                outside_too = "pub" in before and not {"crate", "super", "self"} & {*before}
                public = around.of_trait or outside_too or "extern" in before
                yield self.function(tokens[number + 1], (public, "extern" in before), self.cycle_before(token.start()), around)

    @cached_property
    def impls(self):
        return list(self.read_impls())

    def read_impls(self):
        for found in re.finditer(r"\b(?:impl|trait\s+(\w+))\b", self.text):
            generics, at = self.generics_at(found.end())
            start, name = head_end(self.text, at), found.group(1) or ""
            if self.text[start : start + 1] == "{":
                trait, of_type = ("", "") if name else trait_and_type(self.text[at:start])
                owner = name or "".join(words_of_type(part, names_of_generics(generics)) for part in (of_type, trait))
                yield Impl(owner, bool(name or trait), trait, of_type, generics, start, bracket_end(self.text, start))

    def generics_at(self, at):
        """The parameters between `<` and `>`, if some stand here, and the place behind them."""
        if self.next_mark(at) != "<":
            return "", at
        begin = self.text.index("<", at)
        end = bracket_end(self.text, begin)
        return self.text[begin + 1 : end - 1], end

    def cycle_before(self, place):
        """The name in the `#[cycle(..)]` among the attributes of the item at a place."""
        items = re.split(r"[{};]", self.text[:place])
        found = re.search(r"#\[cycle\((\w+)\)\]", items[-1])
        return found.group(1) if found else ""

    def marks_before(self, tokens, number):
        """The words in front of a `fn`, back to the end of what stands before the item."""
        words = []
        while number > 0 and not re.match(r"[{}\];,]", tokens[number - 1].group()):
            number -= 1
            words.append(tokens[number].group())
        return words

    def function(self, name, seen, cycle, around):
        own, at = self.generics_at(name.end())
        generics = f"{around.generics},{own}"
        start = self.text.index("(", at)
        at = bracket_end(self.text, start)
        parameters = [self.parameter(part, around.type) for part in split_outside(self.text[start + 1 : at - 1], ",")]
        result = ""
        if self.text[at:].lstrip().startswith("->"):
            begin = self.text.index("->", at) + 2
            at = self.result_end(begin)
            result = with_self(self.text[begin:at].strip(), around.type)
        clauses, at = self.clauses(self.behind_bounds(at))
        readers = ["impl Read", *names_of_generics(generics, r":(?!.*\bWrite\b).*\bRead\b")]
        rest = (names_of_generics(generics), readers, parameters, result, clauses, self.next_mark(at) != "{")
        return Function(name.group(), line_of(self.text, name.start()), *seen, around, cycle, *rest)

    def behind_bounds(self, at):
        """Behind a `where` and its bounds, if one stands here."""
        return self.result_end(at + self.text[at:].index("where") + 5) if re.match(r"\s*where\b", self.text[at:]) else at

    def next_mark(self, at):
        return self.text[at:].lstrip()[:1]

    def parameter(self, text, of_type=""):
        """A parameter or a field. `of_type` is the type of the `impl` around it."""
        if re.search(r"\bself$", text):
            return Parameter("self", with_self(text, of_type))
        name, _, kind = text.partition(":")
        return Parameter(name.replace("mut ", "").strip(), with_self(kind.strip(), of_type))

    def result_end(self, at):
        return head_end(self.text, at, rf"[{{;]|\b(?:where|{'|'.join(CLAUSES)})\b")

    def clause_at(self, at):
        """A clause begins here: its word, perhaps a star, a label or a ghost value's name, and a brace."""
        return re.compile(rf"({'|'.join(CLAUSES)})\b(\*)?(?:\s*(\w+)\s*:?)?\s*(?=\{{)").match(self.text, at)

    def clauses(self, at):
        found = []
        while True:
            at += len(self.text[at:]) - len(self.text[at:].lstrip())
            head = self.clause_at(at)
            if not head:
                return found, at
            end = bracket_end(self.text, head.end())
            text = self.text[head.end() + 1 : end - 1]
            commented = self.raw[at:end] != self.text[at:end] or re.search(r"--|\{-|\"", text) is not None
            found.append(Clause(head.group(1), head.group(3) or "", text, line_of(self.text, at), commented, bool(head.group(2)), at))
            at = end

    def ghost_uses(self):
        for found in re.finditer(r"\bghost\s+use\b([^;]*);", self.text):
            yield use_of(found.group(1), line_of(self.text, found.start()))

    def ghost_texts(self):
        """What stands in the braces of clauses, also of closures, and of other ghost items."""
        for found in re.finditer(rf"\b(?:{'|'.join(CLAUSES)}|by)\b(?!\s+use\b)[^;{{}}]*(?=\{{)", self.text):
            yield self.text[found.end() : bracket_end(self.text, found.end())]

    def types(self):
        """Each struct, enum and other name of a type: how it begins, with its `pub`, word and name, where its head ends, and where all of it does."""
        for found in re.finditer(r"(\bpub\s+)?\b(struct|enum|type)\s+(\w+)", self.text):
            at = head_end(self.text, found.end())
            yield found, at, bracket_end(self.text, at) if self.text[at : at + 1] == "{" else at + 1

    def braced_structs(self):
        """The structs with fields in braces: how each begins, and where its braces do and end."""
        yield from ((found, at, end) for found, at, end in self.types() if found.group(2) == "struct" and self.text[at : at + 1] == "{")

    def inner_facts(self):
        """The ghost fields of structs that no other crate can name. What such a field says each function that takes the struct requires."""
        for struct, start, end in self.braced_structs():
            if not struct.group(1):
                yield from self.facts_in(struct.group(3), start, end)

    def facts_in(self, name, start, end):
        for found in re.compile(r"\bghost\s+(\w+)\s*:\s*(?=\{)").finditer(self.text, start, end):
            behind = bracket_end(self.text, found.end())
            text = self.text[found.end() + 1 : behind - 1]
            commented = self.raw[found.start() : behind] != self.text[found.start() : behind] or re.search(r"--|\{-|\"", text) is not None
            yield Clause("requires", f"{name}.{found.group(1)}", text, line_of(self.text, found.start()), commented, False, found.start())

    @cached_property
    def iterators(self):
        """Each `impl Iterator for` a type, its line, and its ghost members as clauses, by what stands in braces. None where the source has another thing of
        that name."""
        found = []
        if re.search(r"(\btrait|\bas|::|[{,])\s*Iterator\b", self.text):
            return found
        for around in self.impls:
            if around.trait == "Iterator":
                members = re.compile(r"\bghost\s+(\w+)\s*=\s*\{([^{}]*)\}\s*;").finditer(self.text, around.start, around.end)
                said = [Clause("ghost", each.group(1), each.group(2), line_of(self.text, each.start()), False, False, each.start()) for each in members]
                found.append((around, line_of(self.text, around.start), said))
        return found

    def ghosts(self):
        """The lines where `ghost` stands and begins neither a `ghost use`, nor a function's clause, nor a field of a struct that no other crate names, nor
        what an iterator says of itself."""
        places = {clause.place for function in self.functions for clause in function.clauses} | {fact.place for fact in self.inner_facts()}
        places |= {clause.place for _, _, said in self.iterators for clause in said}
        for found in re.finditer(r"\bghost\b(?!\s+use\b)", self.text):
            if found.start() not in places:
                yield line_of(self.text, found.start())

    def handed_on(self):
        """What each `pub use` names, one by one, with its line."""
        for found in re.finditer(r"\bpub\s*(?:\([^)]*\)\s*)?use\b([^;]*);", self.text):
            for named in paths_in(found.group(1).strip()):
                yield named, line_of(self.text, found.start())

    def lending_types(self):
        """The structs, enums and other names of types that hold a `&mut`, with their lines, but for the rooms."""
        yield from ((name, line) for name, line, text in self.types_said if re.search(LENT_MUTABLY, text) and name not in self.rooms)

    @cached_property
    def types_said(self):
        """The text of each struct, enum and other name of a type, from its name on."""
        return [(found.group(3), line_of(self.text, found.start(2)), self.text[found.end() : end]) for found, _, end in self.types()]

    @cached_property
    def typed_fields(self):
        """The fields of each struct with their types, by its name."""
        inside = {found.group(3): self.text[at + 1 : end - 1] for found, at, end in self.braced_structs()}
        return {name: [self.parameter(part) for part in split_outside(text, ",")] for name, text in inside.items()}

    @cached_property
    def structs(self):
        """The fields of each struct, by its name."""
        return {name: [field.name.split()[-1] for field in fields] for name, fields in self.typed_fields.items()}

    @cached_property
    def rooms(self):
        """The fields of each struct that lends lists together, by its name: every field is a `&mut` of a slice of numbers."""
        slices = re.compile(r"&\s*'\w+\s*mut\s*\[[ui](8|16|32|64|size)\]")
        lent = {name for name, fields in self.typed_fields.items() if fields and all(slices.fullmatch(field.type) for field in fields)}
        return {name: self.structs[name] for name in lent}


def names_of_generics(text, bound=""):
    """The names of type and const parameters with such a bound; lifetimes are none."""
    parts = [part.removeprefix("const ") for part in split_outside(text, ",") if part[0] != "'"]
    return [re.split(r"[:=]", part)[0].strip() for part in parts if re.search(bound, part, re.S)]


def trait_and_type(text):
    """The trait, or "", and the type of an `impl`, by what stands behind its parameters."""
    front = [*split_outside(text, r"\bwhere\b"), ""][0]
    parts = split_outside(front, r"\bfor\b")
    return (parts[0], parts[1]) if len(parts) > 1 else ("", front)


def with_self(kind, of_type):
    """A type with the one that an `impl` is of in the place of `Self`, and of what a function has as `self`."""
    return re.sub(r"\b(Self|self(?!\s*::))\b", lambda _: of_type, kind) if of_type else kind


def words_of_type(text, own):
    """A type's or a trait's words, as the folder of its proofs joins them: `RefU8` of `&u8`, `RefMutSliceU8` of `&mut [u8]`, `ArrayU84` of `[u8; 4]`;
    without the parameters that are its own."""
    named = re.sub(r"[\[(]", lambda found: f" {word_of_bracket(text, found.start())} ", text)
    words = re.findall(r"&|\w+", re.sub(r"'\w+|\w+::|\bconst\b", "", named))
    return "".join("Ref" if word == "&" else word[0].upper() + word[1:] for word in words if word not in own)


def word_of_bracket(text, at):
    """The word of the array, slice or tuple that begins at `at`; none of a bracket around one type, or around what a function takes."""
    inside = text[at + 1 : bracket_end(text, at) - 1]
    if text[at] == "[":
        return "Array" if any(found_outside(inside, ";")) else "Slice"
    if not inside.strip():
        return "Unit"
    is_tuple = any(found_outside(inside, ",")) and not re.search(r"\w$", text[:at])
    return f"Tuple{len(split_outside(inside, ','))}" if is_tuple else ""


def paths_in(text):
    """The paths that a Rust `use` names: `a::{b, c::d}` names `a::b` and `a::c::d`."""
    front, brace, rest = text.partition("{")
    if not brace:
        return [text]
    return [front + path for part in split_outside(rest.rstrip().removesuffix("}"), ",") for path in paths_in(part)]


def use_of(text, line):
    shape = re.fullmatch(r"([^\s{}]+)\.\{([^{}]*)\}", text.strip())
    if not shape:
        return Use("", [], line, text.strip())
    items = []
    for item in split_items(shape.group(2)):
        words = [unescaped(word) for word in item.split()]
        name = unescaped(item)
        items.append((words[0], words[2]) if len(words) == 3 and words[1] == "as" else (name, name))
    return Use(shape.group(1), items, line, text.strip())


def split_items(text):
    return [item.strip() for item in text.split(",") if item.strip()]


# ---- antt


@dataclass
class Declaration:
    """One thing at the left margin of an antt file: a signature, a record, a clause or a line of another kind, with the lines that belong to it."""

    line: int
    text: str
    words: list = field(default_factory=list)

    def __post_init__(self):
        self.words = antt_tokens(self.text)

    def marks(self):
        return self.words[: self.marked()]

    def marked(self):
        count = 0
        while count < len(self.words) and self.words[count] in MARKS:
            count += 1
        return count

    @cached_property
    def sort(self):
        """`record`, `data`, `signature`, `clause`, or the word that opens it (`use`, `mod`, `module`, ..)."""
        rest = self.words[self.marked() :]
        if not rest:
            return ""
        if rest[0] in ("record", "data", *HEADS):
            return rest[0]
        return "signature" if outside(rest, (":",)) and not self.defines_by_clause(rest) else "clause"

    def defines_by_clause(self, rest):
        equals, colon = outside(rest, ("=",)), outside(rest, (":",))
        return bool(equals) and equals[0] < colon[0]

    @cached_property
    def name(self):
        rest = self.words[self.marked() :]
        return rest[1] if rest and rest[0] in ("record", "data") and len(rest) > 1 else (rest[0] if rest else "")

    @cached_property
    def type(self):
        """The words of a signature's type, or of a record's or data type's kind, without its fields."""
        rest = self.words[self.marked() :]
        colon = outside(rest, (":",))
        if not colon:
            return []
        kind = rest[colon[0] + 1 :]
        return kind[: kind.index("where")] if "where" in kind else kind

    def left_places(self):
        """The words left of a clause's `=`, with their lines, and of each clause in its `where`."""
        equals = outside(self.words, ("=",)) or [0]
        yield from ((name, self.line) for name in self.words[: equals[0]])
        behind_where = False
        for number, line in enumerate(self.text.split("\n"), self.line):
            words = antt_tokens(line)
            equals = outside(words, ("=",))
            if behind_where and equals and "let" not in words[: equals[0]]:
                yield from ((name, number) for name in words[: equals[0]])
            behind_where = behind_where or words[-1:] == ["where"]

    def parameters(self):
        """What stands between a record's name and its colon."""
        rest = self.words[self.marked() :]
        colon = outside(rest, (":",))
        return rest[2 : colon[0]] if rest[0] in ("record", "data") and colon else []

    def fields(self):
        """The types of a record's fields."""
        lines = [line for line in self.text.split("\n")[1:] if line.strip()]
        indents = [len(line) - len(line.lstrip()) for line in lines]
        found = []
        for indent, line in zip(indents, lines):
            if indent == min(indents):
                found.append([])
            found[-1] += antt_tokens(line)
        return [words[outside(words, (":",))[0] + 1 :] for words in found if outside(words, (":",))]


class AnttSource:
    # A text in quotes; antt's names may hold a prime, so there are no quoted letters.
    QUOTED = r'"(?:\\.|[^"\\])*"'

    def __init__(self, text):
        self.raw = text
        # A name may hold two hyphens; a comment's stand at a name's start.
        guarded = re.sub(r"(?<=[^\s(){}.;,@\"«»-])--", "\0\0", text)
        self.text = without_comments(guarded, "--", "{-", "-}", self.QUOTED).replace("\0", "-")

    def lines(self):
        return [line.rstrip() for line in self.text.split("\n")]

    @cached_property
    def declarations(self):
        found = []
        for number, line in enumerate(self.lines(), 1):
            if line and not line[0].isspace():
                found.append([number, line])
            elif line and found:
                found[-1][1] += "\n" * (number - found[-1][0] - found[-1][1].count("\n")) + line
        return [Declaration(number, text) for number, text in found]

    @cached_property
    def definitions(self):
        """What stands at the left margin with a meaning, by name."""
        return {each.name: each for each in self.declarations if each.sort in ("signature", "record", "data")}

    def uses(self):
        for declaration in self.declarations:
            if declaration.sort == "use":
                words = declaration.text.split("use", 1)
                yield use_of(words[1], declaration.line) if not words[0].strip() else Use("", [], declaration.line, declaration.text)

    def modules(self):
        """The files that a Lib.antt declares."""
        return [declaration.words[-1] for declaration in self.declarations if declaration.sort == "mod"]

    @cached_property
    def tokens(self):
        return [(unescaped(word.group()), word.start()) for word in ANTT_TOKEN.finditer(self.text)]

    def pattern_places(self):
        """Every (name, line) in a pattern, constructors among them: on a clause's left side, also of a `where`'s, or in front of a case's `↦`."""
        for each in self.declarations:
            if each.sort == "clause":
                yield from each.left_places()
        for number, (word, place) in enumerate(self.tokens[:-1]):
            if word in ("[", "|") and self.tokens[number + 1][0] not in ("]", "|"):
                yield from self.names_bound(self.tokens, number + 1, "↦")

    @cached_property
    def named_places(self):
        return list(self.read_named_places())

    def read_named_places(self):
        """Every (name, line) that the text gives a meaning: by a signature or a binder (`x y : T`), as a record or data type, by `λ` or `let`."""
        tokens = self.tokens
        for number, (word, place) in enumerate(tokens[:-1]):
            behind = tokens[number + 1][0]
            if word == ":":
                yield from self.names_before(tokens, number)
            elif word == "let" and behind in ("(", "record"):
                yield from self.names_bound(tokens, number + 1, "=")
            elif word in ("record", "data", "let") and behind != "{":
                yield behind, line_of(self.text, tokens[number + 1][1])
            elif word == "λ":
                yield from self.names_bound(tokens, number + 1, ".")

    def names_before(self, tokens, number):
        while number > 0:
            number -= 1
            word, place = tokens[number]
            if re.fullmatch(r"[(){};,=→.]", word) or word in MARKS or word in ("record", "data", "where", "let", "in"):
                return
            yield word, line_of(self.text, place)
            if not self.text[self.text.rfind("\n", 0, place) + 1 : place].strip():
                return

    def names_bound(self, tokens, number, end):
        """The names between a `λ` and its dot, a `let` and its `=`, or in front of a case's `↦`, also in brackets; a type is no name."""
        depth, of_type = 0, 0
        while number < len(tokens) and (depth or tokens[number][0] != end):
            word, place = tokens[number]
            depth += (word in "({") - (word in ")}")
            of_type = depth if word == ":" else of_type if depth >= of_type else 0
            if not of_type and not re.fullmatch(r"[(){};,=|\[\]]|record", word):
                yield word, line_of(self.text, place)
            number += 1


def antt_tokens(text):
    return [unescaped(word) for word in ANTT_TOKEN.findall(text)]


def unescaped(word):
    """An escaped name is the name: `«data».new` is `data.new`."""
    return re.sub("^«([^«»]*)»", r"\1", word)


def outside(words, wanted):
    """The places of the wanted words that stand in no bracket."""
    depth, places = 0, []
    for place, word in enumerate(words):
        depth += (word in "({[") - (word in ")}]") if len(word) == 1 else 0
        if depth == 0 and word in wanted:
            places.append(place)
    return places


def split_words(words, marks):
    """The parts of a list of words between marks that stand in no bracket."""
    places = outside(words, marks)
    return [words[a + 1 : b] for a, b in zip([-1, *places], [*places, len(words)])]


def bare(words):
    """Without brackets that enclose all of it."""
    while len(words) > 1 and words[0] == "(" and group_end(words, 0) == len(words):
        words = words[1:-1]
    return words


def group_end(words, at):
    depth = 0
    for place in range(at, len(words)):
        depth += (words[place] in ("(", "{")) - (words[place] in (")", "}"))
        if depth == 0:
            return place + 1
    return len(words)


def bound_types(words):
    """What the names of `(x y : A) {z : B}` or of `x y : A` range over; of words that name nothing, the words themselves."""
    found, at = [], 0
    while at < len(words) and words[at] in ("(", "{"):
        end = group_end(words, at)
        found.append(words[at + 1 : end - 1])
        at = end
    binders = found if at == len(words) and all(outside(each, (":",)) for each in found) else [words]
    return [each[(outside(each, (":",)) or [-1])[0] + 1 :] for each in binders]


def head(word):
    """The name that a path begins with: of `x.new.size` it is `x`. A field alone, as behind a bracket, has none."""
    return word.split(".")[0]


def heads(words):
    return {head(word) for word in words} - {""}


def canonical(words):
    """Without brackets that change nothing: around one word, around all of it, or around a function at the head of what it is applied to."""
    words = bare(words)
    if words and words[0] == "(":
        end = group_end(words, 0)
        inner = words[1 : end - 1]
        of_field = words[end : end + 1] and words[end].startswith(".")
        if all(re.search(r"\w", word) for word in inner if word not in "()") and not of_field:
            words = inner + words[end:]
    kept, at = [], 0
    while at < len(words):
        if words[at] == "(":
            end = group_end(words, at)
            inner = canonical(words[at + 1 : end - 1])
            kept += inner if len(inner) == 1 else ["(", *inner, ")"]
            at = end
        elif words[at].startswith(".") and kept and kept[-1] != ")":
            kept[-1] += words[at]
            at += 1
        else:
            kept.append(words[at])
            at += 1
    return kept


def arguments(words):
    """What a function is applied to: each a word or what stands in a bracket."""
    found, at = [], 1
    while at < len(words):
        end = group_end(words, at)
        found.append(bare(words[at:end]))
        at = end
    return found


def groups(words):
    """The words themselves and what stands in each of their brackets, however deep."""
    yield words
    for at, word in enumerate(words):
        if word in ("(", "{"):
            yield words[at + 1 : group_end(words, at) - 1]
