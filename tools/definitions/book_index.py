"""The index of the book (tools/book): by macro and request, by escape and by message, the definitions that say what each does."""
import collections
import html
import re

HEAD = re.compile(r"\s*(?:(?:abbrev|unfoldable|pub|ghost)\s+)*(?:record |data )?(\S+?)(?: \{[^}]*\})?(?: \([^)]*\))* : ")
# the tables of names: how a row names what it is about
TABLES = {
    "page_sets/specs/Man.antt": r'row "(\S+)"', "page_sets_mdoc_lines/specs/Rows.antt": r'row "(\S+)"',
    "page_roff_syntax/specs/Requests.antt": r'codes "([^"\s]+)",',
}
# a constructor that more definitions than these have cases for says little of a macro
MOST = 10
COMMON = {"Some", "None", "Option", "List", "Bool", "Type", "Event", "Place", "Argument", "Item", "Word", "Effect", "Last", "Opens", "Closes", "Sets"}


def definitions(text):
    """The definitions of a file, each with its lines; a comment goes with what follows it."""
    own, comments = "", []
    for line in text.split("\n"):
        if line.strip().startswith("-- "):
            comments.append(line)
            continue
        if HEAD.match(line):
            own = HEAD.match(line)[1]
        if line.strip() and not line.startswith("use "):
            yield from ((own, comment) for comment in comments)
            yield own, line
        comments = []


def cases(texts):
    """The definitions that name each constructor, in the order of the book."""
    found = collections.defaultdict(dict)
    for path, text in texts.items():
        for own, line in definitions(text):
            for word in re.findall(r"\b[A-Z][A-Za-z]+\b", re.sub(r'"[^"]*"|--.*', "", line)) if own and not HEAD.match(line) else ():
                found[word].setdefault((path, own))
    return found


def rows(texts):
    """The names in the tables, each with the constructors of its row."""
    for path, row in TABLES.items():
        for line in texts[path].split("\n"):
            for name in re.findall(row, line):
                yield name, [word for word in re.findall(r"\b[A-Z][A-Za-z]{2,}\b", re.sub(r'"[^"]*"', "", line)) if word not in COMMON]


def index(texts, types, link):
    by_case, names, escapes, messages = cases(texts), {}, collections.defaultdict(dict), collections.defaultdict(dict)
    for name, constructors in rows(texts):
        names.setdefault(name, {})
        for word in constructors:
            names[name].update(by_case[word] if len(by_case[word]) <= MOST else {})
    for path, text in texts.items():
        for own, line in definitions(text):
            said = {word for found in re.findall(r'"([^"\s]+)"|`([^`]+)`', line) for word in " ".join(found).split()}
            for word in said & set(names) if own else ():
                names[word].setdefault((path, own))
            for word in re.findall(r"`(\\.)[^`]*`", line) if own else ():
                escapes[word].setdefault((path, own))
    table = texts["page_core_base/specs/Messages.antt"]
    for kind, level, text in re.findall(r'row_of_kind (\w+) = kind_row (\w+) "((?:[^"\\]|\\.)*)"', table):
        messages[f"{level.upper()}: {text}".replace('\\"', '"')] = by_case[kind]
    for title, found in (("Macros and requests", names), ("Escapes", escapes), ("Messages", messages)):
        lines = (f"<dt>{html.escape(word)}</dt><dd>{', '.join(link(it, it[1]) for it in found[word])}</dd>" for word in sorted(found, key=str.lower))
        yield f"<h2>{title}</h2><dl>{''.join(lines)}</dl>"
