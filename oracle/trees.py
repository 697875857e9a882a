"""Trees: a word, a text, or a list of trees."""


class Word(str):
    """A word, such as `case`, `-7` or `$1`."""


class Text(str):
    """What stands between quotes."""


BLANKS = " \t\n\r"


def read(source):
    """The trees of a lawful file."""
    top, open_nodes, at = [], [], 0
    node = top
    while at < len(source):
        byte = source[at]
        if byte in BLANKS:
            at += 1
        elif byte == ";":
            while at < len(source) and source[at] != "\n":
                at += 1
        elif byte == "(":
            inner = []
            node.append(inner)
            open_nodes.append(node)
            node = inner
            at += 1
        elif byte == ")":
            node = open_nodes.pop()
            at += 1
        elif byte == '"':
            text, at = read_text(source, at + 1)
            node.append(text)
        else:
            end = at
            while end < len(source) and source[end] not in BLANKS + '();"':
                end += 1
            node.append(Word(source[at:end]))
            at = end
    return top


def read_text(source, at):
    """The text that begins behind its opening quote, and the place behind its closing one."""
    letters = []
    while source[at] != '"':
        at += source[at] == "\\"
        letters.append(source[at])
        at += 1
    return Text("".join(letters)), at + 1


def spelled(tree):
    """A tree as it is written."""
    if isinstance(tree, Word):
        return str(tree)
    if isinstance(tree, Text):
        return '"' + tree.replace("\\", "\\\\").replace('"', '\\"') + '"'
    return "(" + " ".join(map(spelled, tree)) + ")"


def is_integer(word):
    digits = word[1:] if word.startswith("-") else word
    return digits.isascii() and digits.isdigit()


def is_headed(tree, word):
    """Whether the tree is a node whose first tree is this word."""
    return isinstance(tree, list) and tree != [] and isinstance(tree[0], Word) and tree[0] == word
