"""Colours texts by a TextMate grammar, as far as the grammar of editors/ needs it.

Its patterns are kept to what Python's `re` takes as well, without a look behind, so these few lines do with them what
an editor's engine does: tools/editors.py compares the two ways of searching where Oniguruma is installed. A key of a
rule that they don't know ends the program.
"""

import json
import re
from dataclasses import dataclass, field

KEYS = {"comment", "name", "match", "begin", "end", "beginCaptures", "endCaptures", "patterns", "include"}


@dataclass(eq=False)
class Rule:
    """A pattern, or a pair of patterns with rules for what stands between."""

    begin: re.Pattern = None
    scope: str = ""
    end: re.Pattern = None
    end_scope: str = ""
    inner: list = field(default_factory=list)


class Grammar:
    """The rules of a grammar's file."""

    def __init__(self, path, pattern=re.compile):
        self.source, self.pattern = json.loads(path.read_text()), pattern
        self.made = {}
        self.top = Rule(inner=self.rules(self.source["patterns"]))

    def rules(self, patterns):
        """The rules of a list of patterns, those that it includes in their places."""
        return [rule for pattern in patterns for rule in self.rules_of(pattern)]

    def rules_of(self, pattern):
        unknown = set(pattern) - KEYS
        if unknown:
            raise SystemExit(f"a rule of the grammar has keys that are not known here: {', '.join(sorted(unknown))}")
        if "include" in pattern:
            return self.included(pattern["include"].removeprefix("#"))
        if "match" in pattern:
            return [Rule(self.pattern(pattern["match"]), pattern["name"])]
        if "begin" in pattern:
            return [self.pair(pattern)]
        return self.rules(pattern["patterns"])

    def included(self, name):
        if name not in self.made:
            self.made[name] = self.rules_of(self.source["repository"][name])
        return self.made[name]

    def pair(self, pattern):
        return Rule(
            self.pattern(pattern["begin"]),
            pattern["beginCaptures"]["0"]["name"],
            self.pattern(pattern["end"]),
            pattern.get("endCaptures", {"0": {"name": ""}})["0"]["name"],
            self.rules(pattern["patterns"]),
        )

    def scopes(self, text):
        """The innermost scope of each character, which is empty where no rule matched."""
        found, stack = [], [self.top]
        for line in text.split("\n"):
            found += scopes_of_line(line + "\n", stack)
        return found[: len(text)]

    def words(self):
        """The words of two letters and more that patterns spell out."""
        patterns = re.findall(r'"(?:match|begin|end)": "((?:[^"\\]|\\.)*)"', json.dumps(self.source))
        return {word for one in patterns for word in re.findall(r"[a-z]{2,}", re.sub(r"\[[^\]]*\]|\\+.", " ", one))}


def scopes_of_line(line, stack):
    """The scopes of a line, where these rules are open, the innermost last; those open behind it are left there."""
    scopes, at, ahead = [""] * len(line), 0, {}
    while True:
        rule, match = first_match(stack[-1], line, at, ahead)
        if rule is None:
            return scopes
        is_end = rule is stack[-1]
        scopes[match.start() : match.end()] = [rule.end_scope if is_end else rule.scope] * len(match[0])
        if is_end:
            stack.pop()
        elif rule.end:
            stack.append(rule)
        at = match.end()


def first_match(open_rule, line, at, ahead):
    """The rule that matches first from here on, and its match: the end of the open rule before those inside it.

    `ahead` keeps what was found further ahead in the line.
    """
    best, found = None, None
    for rule in (open_rule, *open_rule.inner):
        pattern = rule.end if rule is open_rule else rule.begin
        if pattern:
            if pattern not in ahead or (ahead[pattern] and ahead[pattern].start() < at):
                ahead[pattern] = pattern.search(line, at)
            match = ahead[pattern]
            if match and (found is None or match.start() < found.start()):
                best, found = rule, match
    return best, found
