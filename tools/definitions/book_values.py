"""Values of definitions as a reader writes them."""
from . import values

SOME, MOST = 8, 400


def is_text(items):
    """Whether a list is shown as a text: numbers that are characters, none of which is a control character but the tab and the line feed."""
    return items and all(type(it) is int and (32 <= it < 127 or it in (9, 10) or it > 160) for it in items)


def text(items):
    return f"“{''.join(map(chr, items))}”".replace("\n", "⏎").replace("\t", "⇥")


def shown(value, depth=3):
    """A value, down to so many records and lists one inside another."""
    if value is None:
        return "[]"
    if value in (values.YES, values.NO):
        return "true" if value else "false"
    if isinstance(value, (int, str)):
        return str(value) if isinstance(value, int) else repr(value)
    if isinstance(value, tuple):
        return f"({', '.join(shown(it, depth - 1) for it in value)})"
    if isinstance(value, values.Cell):
        return shown_list(values.items(value), depth)
    if isinstance(value, values.Constructed):
        own = " ".join(shown(it, depth) for it in value.arguments)
        return f"({value.name} {own})" if own else value.name
    return shown_record(value, depth) if isinstance(value, values.Record) else "λ"


def shown_list(items, depth):
    if is_text(items[:MOST]):
        return text(items[:MOST]) + ("…" if len(items) > MOST else "")
    if all(isinstance(it, values.Record) and set(type(it).labels) == {"of_c", "of_font"} for it in items):
        return f"cells {text([it.of_c for it in items])}"
    if depth <= 0:
        return "[…]"
    more = f", … {len(items) - SOME} more" if len(items) > SOME else ""
    return f"[{', '.join(shown(it, depth - 1) for it in items[:SOME])}{more}]"


def shown_record(value, depth):
    """A record; of a long one the fields that are not nothing."""
    if depth <= 0:
        return "{…}"
    labels = type(value).labels
    own = [it for it in labels if len(labels) < 6 or shown(getattr(value, it), 1) not in ("[]", "0", "false", "None")]
    fields = "; ".join(f"{it[3:]} {shown(getattr(value, it), depth - 1)}" for it in own)
    return f"{{{fields}{'; ..' if len(own) < len(labels) else ''}}}"


def result(arguments, value):
    """A value; where it is an argument with other fields, these alone."""
    if isinstance(value, values.Record):
        for given in arguments:
            if given is value:
                return "the same"
            if type(given) is type(value) and len(type(value).labels) > 4:
                own = [it for it in type(value).labels if getattr(given, it) is not getattr(value, it) and getattr(given, it) != getattr(value, it)]
                return f"the same with {{{'; '.join(f'{it[3:]} {shown(getattr(value, it))}' for it in own)}}}"
    return shown(value)
