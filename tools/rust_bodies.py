"""Guards, bodies and docs of a monitor in Rust, with no code of the product."""

from collections import namedtuple

from trees import If, Return, Set

# so many parts stand in a row: rustc's stack ends at some thousand
PIECE = 64
LINE = "\n            "

COMPARISONS = "==", "!=", "<", "<=", ">", ">="

# where an expression stands: `own` is "held" where inputs are read, "lent" in a body, or "unread"; of a whole block no
# number leaves 64 bits
Scope = namedtuple("Scope", "names method receiver own whole", defaults=[False])

# Text in 64 bits; in 128 bits, by what comes after a number; how tightly both hold together; whether
# some name in it is read, and whether its value may need more than 64 bits.
Written = namedtuple("Written", "level plain wide is_named narrows")

# what may happen on some path of a body: it writes a field, or a value may not fit; both in this order
Trace = namedtuple("Trace", "writes fails copies")
NOTHING = Trace(False, False, False)


# ---- names and kinds
def kind_text(kind):
    return "bool" if kind == "bool" else "i64"


def mark(number):
    return "" if number == 1 else str(number)


def can_name(names, method, number):
    return f"can{mark(number)}_{names.member(method.name)}"


def run_name(names, method, number):
    return f"run{mark(number)}_{names.member(method.name)}"


def way_name(name, way, works):
    """Of the calls of a method that wait or assert, try, or wait until a time or for one, and may be given a function."""
    names = {"waits": name, "asserts": name, "tries": f"try_{name}", "until": f"{name}_until", "for": f"{name}_for"}
    return names[way] + "_with" * works


def argument_texts(names, method, lending):
    return [names.own(method, one.name) for one in method.inputs] + [
        lending + names.own(method, one.name) for one in method.own_locals]


def parameters(names, method, lending):
    taken = [(one, "") for one in method.inputs] + [(one, lending) for one in method.own_locals]
    return "".join(f", {names.own(method, one.name)}: {lent}{kind_text(one.kind)}"
                   for one, lent in taken)


def name_text(scope, name):
    """The text of a name, or None where its value counts 0 times."""
    names, kind = scope.names, scope.names.kind_of(scope.method, name)
    if kind == "const":
        return f"{names.type_name()}::{names.constant(name)}"
    if kind in ("int", "bool"):
        return f"{scope.receiver}.{names.member(name)}"
    if scope.own == "unread":
        return None
    lent = "*" if kind == "local" and scope.own == "lent" else ""
    return lent + names.own(scope.method, name)


# ---- expressions
def within(level, part, text):
    return f"({text})" if part.level < level else text


def written(scope, expression):
    sign, parts = expression
    if sign == "number":
        return Written(7, parts, lambda end: parts + end, False, False)
    if sign == "truth":
        return Written(7, parts, None, False, False)
    if sign == "name":
        text = name_text(scope, parts)
        wide = (lambda end: "0" + end) if text is None else (lambda end: f"i128::from({text})")
        return Written(7, text or "0", wide, text is not None, False)
    if sign == "+":
        return sum_written(scope, parts)
    inner = [written(scope, part) for part in parts]
    is_named = any(part.is_named for part in inner)
    if sign == "minus":
        of, = inner
        return Written(6, "-" + of.plain, lambda end: "-" + within(7, of, of.wide(end)), is_named,
                       parts[0].sign != "number")
    if sign == "not":
        return Written(6, "!" + within(6, inner[0], inner[0].plain), None, is_named, False)
    if sign == "*":
        return Written(5, "", lambda end: wide_product(inner, end), is_named, True)
    if sign in COMPARISONS:
        return Written(3, comparison(sign, *inner), None, is_named, False)
    level = 2 if sign == "&&" else 1
    texts = [within(level + 1, part, part.plain) for part in inner]
    text = in_pieces(sign, [f" {sign} ".join(piece) for piece in pieces(texts)])
    return Written(level, text, None, is_named, False)


def sum_written(scope, parts):
    inner = [(sign, written(scope, part)) for sign, part in parts]

    def wide(end):
        ended = ending_in(inner, end)
        return in_pieces("+", [sum_text(piece, ended) for piece in pieces(inner)])

    return Written(4, "", wide, any(part.is_named for _, part in inner), True)


def pieces(parts):
    return [parts[at:at + PIECE] for at in range(0, len(parts), PIECE)]


def ending_in(parts, end):
    """What comes after each number: of many, rustc would look for all types again at each sign."""
    return "_i128" if len(parts) > PIECE else end


def in_pieces(sign, texts):
    """Each in a line of its own: at each sign rustc counts the letters of its line, for an overflow's message."""
    return f"{LINE}{sign} ".join(f"({text})" for text in texts) if len(texts) > 1 else texts[0]


def sum_text(parts, end):
    """Parts with their signs; one that is subtracted and comes first is the negative of itself."""
    (sign, first), *rest = parts
    before, level = ("-", 7) if sign == "-" else ("", 5)
    begun = before + within(level, first, first.wide(end))
    return begun + "".join(f" {sign} {within(5, part, part.wide(end))}" for sign, part in rest)


def wide_product(parts, end):
    """Each piece of many factors is given the product of those before it, in a line of its own."""
    ended = ending_in(parts, end)
    first, *rest = [" * ".join(piece) for piece in pieces([within(6, part, part.wide(ended)) for part in parts])]
    later = "".join(f"{LINE}.map(|result| result * {piece})" for piece in rest)
    return f"Some({first}){later}{LINE}.unwrap()" if rest else first


def comparison(sign, left, right):
    """In 64 bits where neither is a sum, and some name says that they are no i32."""
    is_named = left.is_named or right.is_named
    if is_named and not left.narrows and not right.narrows:
        return f"{left.plain} {sign} {right.plain}"
    end = "" if is_named else "_i128"
    return f"{left.wide(end)} {sign} {right.wide(end)}"


def is_variable(scope, expression):
    return expression.sign == "name" and scope.names.kind_of(scope.method, expression.parts) != "const"


def is_atom(expression):
    return expression.sign in ("name", "number") or (
        expression.sign == "minus" and expression.parts[0].sign == "number")


def single_text(scope, expression):
    """One operation of atoms, some of them a variable, in 64 bits; else None."""
    sign, parts = expression
    if sign == "minus" and is_variable(scope, parts[0]):
        return "-" + written(scope, parts[0]).plain
    signs, parts = zip(*parts) if sign == "+" else ("*" * len(parts), parts)
    if sign not in ("+", "*") or len(parts) != 2:
        return None
    if not all(map(is_atom, parts)) or not any(is_variable(scope, part) for part in parts):
        return None
    one, other = (written(scope, part).plain for part in parts)
    return f"{one} {signs[1]} {other}"


def is_shortened(scope, expression):
    return scope.whole and written(scope, expression).narrows and single_text(scope, expression) is None


def value_text(scope, expression, end):
    value = written(scope, expression)
    if not value.narrows:
        return value.plain
    if not scope.whole:
        return f"narrow({value.wide('')}){end}"
    return f"whole({value.wide('')})" if is_shortened(scope, expression) else single_text(scope, expression)


def shortens(scope, body):
    """Some value of a whole body is worked out in 128 bits."""
    return any(shortens(scope, one.body) or shortens(scope, one.other) if isinstance(one, If)
               else is_shortened(scope, one.value) for one in body)


# ---- bodies
def trace(scope, body, before=NOTHING):
    for statement in body:
        after = statement_trace(scope, statement)
        before = Trace(before.writes or after.writes, before.fails or after.fails,
                       before.copies or after.copies or before.writes and after.fails)
    return before


def statement_trace(scope, statement):
    if isinstance(statement, If):
        paths = trace(scope, statement.body), trace(scope, statement.other)
        return Trace(*map(any, zip(*paths)))
    is_local = isinstance(statement, Return) or (
        scope.names.kind_of(scope.method, statement.name) == "local")
    return Trace(not is_local, written(scope, statement.value).narrows and not scope.whole, False)


def statement_lines(scope, statement, indent):
    if isinstance(statement, Set):
        value = value_text(scope, statement.value, "?")
        return [f"{indent}{name_text(scope, statement.name)} = {value};"]
    if isinstance(statement, Return):
        return []
    lines = [f"{indent}if {written(scope, statement.when).plain} {{"]
    lines += body_lines(scope, statement.body, indent + "    ")
    if statement.other:
        lines.append(f"{indent}}} else {{")
        lines += body_lines(scope, statement.other, indent + "    ")
    return lines + [f"{indent}}}"]


def body_lines(scope, body, indent):
    return [line for one in body for line in statement_lines(scope, one, indent)]


def answer(scope, body):
    """The type of what the body answers, or None."""
    if not body or not isinstance(body[-1], Return):
        return None
    sign, parts = body[-1].value
    if sign == "name":
        return kind_text(scope.names.type_of(scope.method, parts))
    return "i64" if sign in ("number", "minus", "+", "*") else "bool"


def run_body(scope, body):
    """The lines of a body: on a copy, where a field is written before a value that may not fit."""
    path, result = trace(scope, body), None
    if body and isinstance(body[-1], Return):
        result = body[-1].value
    if not path.copies:
        lines = body_lines(scope, body, "        ")
        if result is None:
            return lines + (["        Ok(())"] if path.fails else [])
        value = written(scope, result)
        text = f"Ok({value.plain})" if path.fails and not value.narrows else value_text(scope, result, "")
        return lines + [f"        {text}"]
    copied = scope._replace(receiver="next")
    lines = ["        let mut next = *self;"] + body_lines(copied, body, "        ")
    if result is None:
        return lines + ["        *self = next;", "        Ok(())"]
    value = written(copied, result)
    if value.narrows:
        return lines + [f"        let answer = {value_text(copied, result, '?')};", "        *self = next;",
                        "        Ok(answer)"]
    return lines + ["        *self = next;", f"        Ok({written(scope, result).plain})"]


def function_texts(names, method, number, block, is_tested, reads, arrow, whole):
    """The functions of a block: that of its guard, where it has one, and that of its body."""
    texts = []
    if is_tested:
        scope = Scope(names, method, "self", "held" if reads else "unread")
        inputs = parameters(names, method, "") if reads else ""
        texts.append(f"    fn {can_name(names, method, number)}(&self{inputs}) -> bool {{\n"
                     f"        {written(scope, block.guard).plain}\n    }}\n")
    lines = run_body(Scope(names, method, "self", "lent", whole), block.body)
    head = f"    fn {run_name(names, method, number)}(&mut self{parameters(names, method, '&mut ')})"
    inside = "".join(["\n"] + [f"{line}\n" for line in lines] + ["    "]) if block.body else ""
    return texts + [f"{head}{arrow} {{{inside}}}\n"]


# ---- docs
def stays_text(method):
    return ("Its block then changes nothing, and no later one runs." if len(method.blocks) > 1
            else "Then nothing changes.")


def waiting_docs(source, method, first):
    """What calls that wait wait for."""
    lines = []
    for place, block in enumerate(method.blocks):
        lines += [""] if place else []
        if source.is_waited_on(source.condition_of(first + place)):
            lines.append(f"{'Then waits' if place else 'Waits'} until `{block.shown}`.")
        else:
            lines.append("Then goes on." if place else "Does not wait.")
    return lines


def trying_docs(source, method, way):
    """What calls don't wait for that try, or not any longer."""
    name, shown = source.names.member(method.name), method.blocks[0].shown
    if way == "tries":
        return [f"As [`{name}`](Self::{name}), but does not wait until `{shown}`."]
    time = "until `end`" if way == "until" else "`time`"
    return [f"As [`{name}`](Self::{name}), but waits for `{shown}` no longer than {time}."]


def working_docs(source, method, way, answer):
    """What calls do that are given a function."""
    name = way_name(source.names.member(method.name), way, False)
    given = "the data and the answer" if answer else "the data"
    several = len(method.blocks) > 1
    return [f"As [`{name}`](Self::{name}), and calls `f` with {given} under the same lock{', in its last block' if several else ''}.", "",
            f"Where `f` panics {'that block changes no field' if several else 'no field changes'}. `f` must not call this monitor."]


def error_docs(method, fails, way):
    """When calls fail."""
    shown, lines = method.blocks[0].shown, []
    if way != "waits":
        when = "its time is over and " if way in ("until", "for") else ""
        lines += ["", f"[`{'Failed::' if fails else ''}Refused`] where {when}`{shown}` is false. Then nothing changes."]
    if fails:
        of = "" if way == "waits" else "Failed::"
        lines += ["", f"[`{of}Overflow`] where a number would leave 64 bits. {stays_text(method)}"]
    return ["", "# Errors"] + lines if lines else []


def doc_text(source, method, first, fails, way, works, answer):
    lines = (working_docs(source, method, way, answer) if works
             else ["Does not wait."] if way == "asserts"
             else waiting_docs(source, method, first) if way == "waits"
             else trying_docs(source, method, way)) + error_docs(method, fails, way)
    is_own = way in ("waits", "asserts") and not works
    comments = source.comments.of_method(method.name) if is_own else ""
    return comments + "".join(f"    /// {line}".rstrip() + "\n" for line in lines)
