"""Reads the `use` lines of .antt and .rt files: nested braces, several lines, `as`, `pub use`, escaped names."""
import re

USE = re.compile(r"(?<![\w.])(?:unfoldable\s+)?(?:pub\s+)?use\s+(?!\{)")
# a word of a `use` line, or one of these marks
WORD = re.compile(r"\s*([{},]|[^\s{},]+)")
# a string, in which nothing begins a comment, or a comment
COMMENT = re.compile(r'("(?:\\.|[^"\\\n])*")|(?:^|(?<=[\s(){}\[\],;]))--.*$', re.M)


def without_comments(text):
    """Returns the text of an .antt file without line comments, and without the marks of escaped names."""
    return COMMENT.sub(lambda found: found[1] or "", text).replace("«", "").replace("»", "")


class Tree:
    """Reads one `use` line. `leaves` has each imported name with its path, and `end` is the end of the line."""

    def __init__(self, text, at):
        self.text, self.end, self.leaves = text, at, []
        self.read("")

    def next(self, wanted=""):
        """Returns the next word, or "" if it is not the wanted one."""
        found = WORD.match(self.text, self.end)
        if found is None or wanted not in ("", found[1]):
            return ""
        self.end = found.end()
        return found[1]

    def read(self, before):
        """Reads a path, and the paths in the braces after it."""
        path = before + self.next()
        if path.endswith(".") and self.next("{"):
            while not self.next("}") and self.text[self.end :].strip():
                if not self.next(","):
                    self.read(path)
        else:
            self.leaves.append((self.next() if self.next("as") else path.rpartition(".")[2], path))


def read(text):
    """Returns each name that an .antt file imports, with its path, and the text without `use` lines and comments."""
    text = without_comments(text)
    leaves, rest, at = [], [], 0
    for found in USE.finditer(text):
        tree = Tree(text, found.end())
        leaves += tree.leaves
        rest.append(text[at : found.start()])
        at = tree.end
    known = dict(leaves)
    return [(name, whole(path, known)) for name, path in leaves], "".join([*rest, text[at:]])


def whole(path, known):
    """Returns a path from its library on. Another `use` line may have imported its first name."""
    seen = set()
    while True:
        path = path.removeprefix("package.")
        head, _, rest = path.partition(".")
        if head not in known or head in seen or known[head] == path:
            return path
        seen.add(head)
        path = f"{known[head]}.{rest}" if rest else known[head]


def read_source(text):
    """Returns each name that a .rt file imports, with its path, written with `.` for `::`."""
    lines = re.findall(r"(?m)^(?:pub(?:\([^)]*\))? )?use ([^;]*);", text)
    return [leaf for line in lines for leaf in Tree(line.replace("::", "."), 0).leaves]
