"""Names of a monitor as Rust has them, with no code of the product."""

import re

KEYWORDS = set(
    "as break const continue crate else enum extern false fn for if impl in let loop match mod move mut "
    "pub ref return self Self static struct super trait true type unsafe use where while async await dyn "
    "abstract become box do final gen macro override priv try typeof unsized virtual yield".split())
TYPE_WORDS = set("Inner State Overflow Refused Failed Mutex MutexGuard Condvar PoisonError Default From Result "
                 "Drop FnOnce HandOn D R Duration Instant Option".split())
MEMBER_WORDS = set("new with_data get_mut into_inner is_poisoned".split())
CHOICE_WORDS = set("admits data Ok Err Some None Overflow Refused HandOn".split())
OWN_WORDS = set("inner copy next answer f hand result end time left lock wait wait_for time_left narrow whole drop "
                "Ok Err Some None Overflow Refused HandOn".split())


def snake(name):
    """A capital after a small letter begins a word."""
    return re.sub("(?<=[a-z])(?=[A-Z])", "_", name).lower()


def camel(name):
    """A `_` before a letter or another `_` is left out, and the letter after it is raised."""
    raised = re.sub("(_+)([A-Za-z])", lambda found: found[2].upper(), name)
    raised = re.sub("_(?=_)", "", raised)
    return raised[:1].upper() + raised[1:]


def escaped(words, name):
    """Of a word that has a meaning the number of `_` at the end is one more."""
    stem = name.rstrip("_")
    return name + "_" if not stem or stem in KEYWORDS | words else name


def is_alone(scope, name):
    return [snake(one) for one in scope].count(snake(name)) == 1


def named(words, scope, name, cased=str.lower):
    """A name that meets another in its snake form is kept as it stands."""
    return escaped(words, cased(snake(name)) if is_alone(scope, name) else name)


def members_of(tree):
    return [one.name for one in tree.declared + tree.methods]


def own_of(method):
    return [one.name for one in method.inputs + method.own_locals]


def lints(tree):
    """What stands before an item where lints would speak of a name."""
    scopes = [members_of(tree)] + [own_of(method) for method in tree.methods]
    odd = any(not is_alone(scope, name) or name.startswith("_") or "__" in name
              for scope in scopes for name in scope)
    return "#[allow(non_snake_case, non_upper_case_globals)]\n" if odd else ""


class Names:
    """The names of a tree."""

    def __init__(self, tree):
        self.tree, self.members = tree, members_of(tree)
        self.parameters = [one for one in tree.declared if one.limit]
        self.words = MEMBER_WORDS | CHOICE_WORDS if self.parameters else MEMBER_WORDS

    def type_name(self):
        return escaped(TYPE_WORDS, camel(self.tree.name))

    def member(self, name):
        return named(self.words, self.members, name)

    def constant(self, name):
        return named(self.words, self.members, name, str.upper)

    def tried(self, name):
        """Of the calls of a method that try."""
        return "try_" + self.member(name)

    def working(self, name):
        """Of the calls of a method that are given a function."""
        return self.member(name) + "_with"

    def lasting(self, name):
        """Of the calls of a method that wait until a time, and for one."""
        return [self.member(name) + end for end in ("_until", "_for")]

    def is_with_free(self, name):
        """No member is written so, and no method that tries."""
        return self.are_unused([self.working(name)])

    def are_lasting_free(self, name):
        """The same of both."""
        return self.are_unused(self.lasting(name))

    def are_lasting_with_free(self, name):
        """The same of those that are given a function, of which one may call the one without a time."""
        return self.is_with_free(name) and self.are_unused([one + "_with" for one in self.lasting(name)])

    def are_unused(self, names):
        """No member is written so, and no method that tries."""
        tried = [self.tried(one.name) for one in self.tree.methods]
        return all(self.is_free(one) and one not in tried for one in names)

    def is_free(self, name):
        """No constant, field or method is written so."""
        written = [self.constant(one.name) if one.kind == "const" else self.member(one.name)
                   for one in self.tree.declared] + [self.member(one.name) for one in self.tree.methods]
        return name not in written

    def own(self, method, name):
        """Of a parameter or a local."""
        return named(OWN_WORDS, own_of(method), name)

    def kind_of(self, method, name):
        """const, int or bool of what is declared; input of a parameter and local of a local."""
        if name in [one.name for one in method.inputs]:
            return "input"
        if name in [one.name for one in method.own_locals]:
            return "local"
        return {one.name: one.kind for one in self.tree.declared}[name]

    def type_of(self, method, name):
        """Whether it is an int or a bool."""
        declared = self.tree.declared + method.inputs + method.own_locals
        return "bool" if {one.name: one.kind for one in declared}[name] == "bool" else "int"
