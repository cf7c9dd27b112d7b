"""Calls of the layers of roff (`==== roff` in page_roff_cases): forms of lines, arguments, conditions, names, expansions, and lines of a page."""
import itertools

from . import values
from .asking import NONE, Costly, integer, listed, messages_shown, number, one, option, place, record, repeated, runs, some, text_of, values_of, whole
from .values import NO, YES

LINE, NAME, MOST_ARGUMENTS, NEST = 65_536, 64, 64, 16
MANY = 20_000
QUOTES = {"Bare": "", "Closed": " in quotes", "Unclosed": " after a quote"}
BRANCHES = {"If": "if", "IfElse": "ie", "Else": "el"}
FORMS = {"Text": "text", "Blank": "blank", "Raw": "raw"}
SYNTAX, HEADS, BLOCKS, VALUES, NAMES, DEFINITIONS, RUNS = (
    "page_roff_syntax", "page_roff_heads", "page_roff_blocks", "page_roff_values.Values", "page_roff_names.Names",
    "page_roff_definitions.Definitions", "page_roff_source.Runs")


def shown_text(cells):
    return runs(text_of(cells))


def placed(word, found):
    return f" {word} {shown_text(found.of_text)} at {found.of_column}"


def remainder(found):
    return placed("line", found.arguments[0]) if found.arguments else " no line"


class Roff:
    """What the calls work on, up to a line `new`: names, arguments, a line, and a page."""

    def __init__(self, asked):
        self.asked = asked
        self.names = asked.call(f"{NAMES}.definitions", None, None)
        self.arguments, self.output, self.line = NONE, one("Ascii"), asked.call(f"{VALUES}.start", 0)
        self.edge, self.number = asked.call(f"{RUNS}.first_edge", one("Ascii")), 0

    def answer(self, line, wanted):
        call, _, text = line.partition(" ")
        if call == "long":
            call, _, text = repeated(text).partition(" ")
            if len(text.encode()) > MANY and call not in ("set-string", "add-string", "set-macro", "add-macro", "define", "macro"):
                raise Costly
        self.change(call, text)
        own = getattr(self, f"show_{call.replace('-', '_')}", None)
        return own(text) if own else ""

    # ---- names and arguments

    def change(self, call, text):
        name, _, value = text.partition("=")
        if call in ("define", "macro"):
            self.define(call == "macro", name, listed(value))
        elif call == "arguments":
            packed = text.encode()[:MOST_ARGUMENTS].replace(b";", b"\n")
            self.arguments = some(self.asked.call(f"{VALUES}.arguments_in", listed(packed)))
        elif call == "outside":
            self.arguments = NONE
        elif call == "utf8":
            self.output = one("Utf8")
        elif call == "fill":
            self.fill(number(text))
        elif call == "remove":
            self.names = self.asked.call(f"{NAMES}.without_text", listed(text), self.names)
        elif call == "remove-register":
            self.names = self.asked.call(f"{NAMES}.without_register", listed(text), self.names)
        elif call == "begin":
            self.line = self.asked.call(f"{VALUES}.start", 7)

    def fill(self, count):
        """So many registers, as they are after each was set: their names are in order."""
        given = self.asked.call(f"{NAMES}.definition", values.constructed("Register", whole(1)), None)
        names = sorted({chr(65 + at // 32 % 32) + chr(65 + at % 32) for at in range(count)})
        registers = values.onto([(listed(name), given) for name in names], None)
        self.names = self.asked.call(f"{NAMES}.definitions", self.names.of_texts, registers)

    def settle(self, what, *arguments):
        """Does what a definition says, and answers what the message about a limit says, or that it is done."""
        found = self.asked.call(f"{DEFINITIONS}.{what}", *arguments, place(7, 2), self.names)
        self.names = found.of_definitions
        return text_of(found.of_notes.head.of_detail) if found.of_notes else "done"

    def define(self, is_macro, name, value):
        if not is_macro:
            return self.settle("defines_string", listed(name), value)
        wanted = self.asked.call(f"{NAMES}.definition", one("Macro"), value)
        return self.settle("settles", listed(name), value, self.asked.call(f"{NAMES}.with_text", listed(name), wanted, self.names))

    def text_in(self, kind, name):
        return self.asked.call(f"{NAMES}.{kind}_of", listed(name), self.names)

    def defines(self, text, is_macro, adds):
        name, _, value = text.partition("=")
        old = self.text_in("body" if is_macro else "string", name).arguments if adds else ()
        return f" -> {self.define(is_macro, name, values.appended(old[0] if old else None, listed(value)))}"

    def show_set_string(self, text):
        return self.defines(text, False, False)

    def show_add_string(self, text):
        return self.defines(text, False, True)

    def show_set_macro(self, text):
        return self.defines(text, True, False)

    def show_add_macro(self, text):
        return self.defines(text, True, True)

    def show_set_register(self, text):
        name, _, value = text.partition("=")
        digits = value.removeprefix("-")
        given = number(digits) * (-1 if value != digits else 1)
        return f" -> {self.settle('sets_register', listed(name), whole(given))}"

    def show_rename(self, text):
        old, _, new = text.partition("=")
        return f" -> {self.settle('renames', listed(old), listed(new))}"

    def show_is(self, name):
        found = ((word, self.text_in(kind, name)) for word, kind in (("string", "string"), ("macro", "body")))
        return "".join(f" -> {word} {shown_text(it.arguments[0])}" for word, it in found if it.arguments)

    def show_given(self, name):
        found = option(self.asked.call(f"{NAMES}.number_of", listed(name), self.names))
        return f" -> {integer(found) if found else 'none'}"

    def show_string(self, name):
        found = self.text_in("string", name)
        return f" -> {text_of(found.arguments[0]) if found.arguments else 'none'}"

    def around(self, copy=NO):
        units = self.asked.program.function("Rattle.page_roff_values.specs.Values", "units_of")
        return record(copy=copy, definitions=self.names, arguments=self.arguments, units=lambda text: units(self.output, text))

    def show_register(self, name):
        found = option(self.asked.call(f"{VALUES}.register_found", listed(name), self.around()))
        return f" -> {integer(found) if found else 'none'}"

    def show_number(self, name):
        return f" -> {integer(self.asked.call(f'{VALUES}.register_of', listed(name), self.around()))}"

    # ---- texts

    def expanded(self, copy, text):
        found = self.asked.call(f"{VALUES}.expanded", self.around(copy), 7, listed(text))
        self.line = found.of_edge
        return f" -> {self.line.of_count} {shown_text(self.line.of_text)}{messages_shown(self.asked, 'roff', found.of_notes)}"

    def show_text(self, text):
        return self.expanded(NO, text)

    def show_copy(self, text):
        return self.expanded(YES, text)

    def show_more(self, text):
        if self.line.of_ended:
            return ""
        before, _, text = text.partition(" ")
        line = self.asked.call(f"{VALUES}.after_bytes", min(number(before), LINE), self.line)
        found = self.asked.call(f"{VALUES}.value", self.around(), NEST, listed(text), line)
        self.line = found.of_edge
        ends = " ends" if self.line.of_ended else ""
        return f" -> {self.line.of_count} {shown_text(self.line.of_text)}{ends}{messages_shown(self.asked, 'roff', found.of_notes)}"

    def show_if(self, text):
        condition = self.asked.call(f"{HEADS}.Heads.conditional_of", 4, listed(text)).of_condition
        found = self.asked.call("page_roff_values.Answers.condition_answer", self.around(), 7, condition)
        self.line = found.of_edge
        return f" -> {'true' if found.of_holds else 'false'}{messages_shown(self.asked, 'roff', found.of_notes)}"

    def show_request(self, text):
        name, blank, rest = text.partition(" ")
        request = self.request(name)
        if request is None:
            return ""
        found = self.asked.call(f"{DEFINITIONS}.outcome_of", request, place(7, 2), 4, listed(blank + rest), self.names)
        self.names = found.of_definitions
        return messages_shown(self.asked, "roff", found.of_notes)

    def request(self, name):
        """The request for definitions of a name, if it is one."""
        found = option(self.asked.call(f"{SYNTAX}.Requests.request_of", listed(name)))
        return found.arguments[0] if found and found.name == "Definition" else None

    def show_mode(self, name):
        request = self.request(name)
        if request is None:
            return " -> none"
        return " -> copy mode" if self.asked.call(f"{DEFINITIONS}.is_in_copy_mode", request) else " -> no copy mode"

    # ---- forms

    def show_form(self, text):
        found = self.asked.call(f"{SYNTAX}.LineForms.form_of", listed(text))
        if found.name == "Control":
            name, column, rest, rest_column = found.arguments
            return f" -> control [{text_of(name)}] at {column}, rest [{text_of(rest)}] at {rest_column}"
        return f" -> text [{text_of(found.arguments[0])}]" if found.name == "Text" else {"Comment": " -> comment"}.get(found.name, " -> blank line")

    def show_words(self, text):
        found = values_of(self.asked.call(f"{SYNTAX}.Arguments.arguments", 3, listed(text)))
        word = "arguments" if self.asked.call(f"{SYNTAX}.Arguments.has_arguments", listed(text)) else "no argument"
        return f" -> {word}" + "".join(f" [{text_of(it.of_text)}] at {it.of_column}{QUOTES[it.of_quoting.name]}" for it in found)

    def show_kept(self, text):
        is_white = self.asked.program.function("Rattle.page_core_base.specs.Bytes", "is_white")
        return f" -> {self.asked.call(f'{SYNTAX}.Delimiters.kept_len', is_white, listed(text))}"

    def show_others(self, text):
        if not self.asked.call(f"{SYNTAX}.Arguments.has_arguments", listed(text)):
            return " -> no argument"
        after = self.asked.call(f"{SYNTAX}.Arguments.after_blanks", listed(text))
        return f" -> {len(text.encode()) - values.length(after) + self.asked.call(f'{SYNTAX}.Arguments.argument_len', after)}"

    # ---- heads

    def show_head(self, text):
        head = self.asked.call(f"{HEADS}.Heads.conditional_of", 4, listed(text))
        condition = head.of_condition
        return f" ->{' not' if condition.of_is_turned else ''}{self.test(condition.of_test, condition.of_column)}{self.guards(head.of_guarded)}"

    def test(self, test, column):
        own = test.arguments
        if test.name == "Always":
            return " always" if own[0] else " never"
        if test.name in ("Unknown", "IsDefined", "IsRegister"):
            word = {"Unknown": "unknown", "IsDefined": "defined", "IsRegister": "register"}[test.name]
            return placed(word, record(text=own[0], column=column))
        if test.name == "Expression":
            return placed("expression", own[0])
        return " missing" if test.name == "Missing" else placed("text", own[0]) + placed("text", own[1])

    def guards(self, guarded):
        return (" opens a block" if guarded.of_opens_block else "") + remainder(guarded.of_remainder)

    def show_guarded(self, text):
        return f" ->{self.guards(self.asked.call(f'{HEADS}.Heads.guarded_of', 4, listed(text)))}"

    def show_end(self, text):
        found = option(self.asked.call(f"{HEADS}.Heads.block_end_of", listed(text)))
        return f" -> after {text_of(found.of_before)},{remainder(found.of_remainder)}" if found else " -> no end"

    # ---- parts

    def show_parts(self, text):
        return " -> " + "".join(f"{self.part(it)}|" for it in values_of(self.asked.call(f"{BLOCKS}.Parts.line_parts", listed(text))))

    def part(self, part):
        if part.name == "End":
            return "}"
        own = part.arguments[0]
        if part.name == "Block":
            return f"{self.loop(own.arguments[0]) if own.name == 'Loop' else BRANCHES[own.arguments[0].of_branch.name]}{{"
        return {"Leaf": text_of, "Guard": lambda head: BRANCHES[head.of_branch.name], "Loop": self.loop, "Region": self.region}[part.name](own)

    def loop(self, head):
        body = head.of_body.arguments
        return f"while({text_of(head.of_condition)}){text_of(body[0]) if body else 'none'}"

    def region(self, head):
        regions = f"{SYNTAX}.Regions"
        name, ending = (self.asked.call(f"{regions}.{what}", head).arguments for what in ("macro_name", "asked_ending"))
        long = "!" if ending and values.length(ending[0]) > NAME else ""
        kind = text_of(self.asked.call(f"{regions}.region_name", head.of_kind))
        return f"{kind}({text_of(name[0]) if name else 'none'}){long}{text_of(self.asked.call(f'{regions}.end_name', head))}"

    def show_loop_text(self, text):
        blocks, _, text = text.partition(" ")
        found = self.asked.call(f"{BLOCKS}.Parts.loop_text", number(blocks), listed(text)).arguments
        return f" -> {text_of(found[0]) if found else 'none'}"

    # ---- lines of a page

    def run(self, times, text):
        """So many equal lines, one after the other, each from the edge that the one before it left."""
        text, before, found = listed(repeated(text)), self.edge.of_taken, []
        for _ in range(times):
            self.number += 1
            lines = values.onto([record(text=text, number=self.number, notes=None)], None)
            found += map(self.given_line, values_of(self.asked.call(f"{RUNS}.given", self.edge, lines)))
            self.edge = self.asked.call(f"{RUNS}.done", self.edge, lines)
        return f" -> {self.edge.of_taken - before}{self.given(''.join(found))}"

    def given_line(self, given):
        own = given.arguments[0]
        if given.name == "says":
            return messages_shown(self.asked, "roff", values.onto([own], None))[1:] + "\n"
        name = f"control {own.of_name_end}" if own.of_form.name == "Control" else FORMS[own.of_form.name]
        return f"{name} {text_of(own.of_text)}\n"

    def given(self, text):
        found = ((line, len(list(every))) for line, every in itertools.groupby(text.split("\n")[:-1]))
        return "".join(f"\n{line}" if times == 1 else f"\n{times} times {line}" for line, times in found)

    def show_line(self, text):
        return self.run(1, text)

    def show_lines(self, text):
        times, _, text = text.partition(" ")
        return self.run(number(times, 1), text)

    def show_page_end(self, text):
        return messages_shown(self.asked, "roff", self.asked.call(f"{RUNS}.end_notes", self.edge))

    def show_counts(self, text):
        found = self.asked.call(f"{RUNS}.counts_of", self.edge)
        return f" -> {found.of_source} {found.of_taken} {found.of_expansions}"
