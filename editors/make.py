#!/usr/bin/env python3
"""usage: make.py. Writes the syntax files beside it, for vim and for editors that read TextMate grammars, from words.txt."""
import json
import os

HERE = os.path.dirname(os.path.abspath(__file__))
# Of each group of words, and of each other token: vim's highlight group, and TextMate's scope.
COLOURS = {
    "part": ("Structure", "storage.type"),
    "act": ("Statement", "keyword.other"),
    "choice": ("Conditional", "keyword.control"),
    "joint": ("Keyword", "keyword.other.joint"),
    "kind": ("Type", "support.type"),
    "value": ("Boolean", "constant.language"),
    "operator": ("Operator", "keyword.operator.word"),
    "comment": ("Comment", "comment.line.double-slash"),
    "text": ("String", "string.quoted.double"),
    "number": ("Number", "constant.numeric"),
    "label": ("Label", "entity.name.label"),
    "word": ("Identifier", "variable.other"),
    "way": ("Special", "keyword.operator.way"),
    "symbol": ("Delimiter", "punctuation"),
    "bad": ("Error", "invalid.illegal"),
}
# What isn't a word of the list; at each place the first that fits is taken, and the words of the list come right before `label`.
# Each is written so that TextMate, Python and, behind `\\v`, vim read it alike, but for what is looked at ahead.
AHEAD = r"(?=[ \t]*:)"
PATTERNS = [
    ("comment", r"//[\t\r -~]*"),
    ("text", r'"[ !#-\x5b\x5d-~]*"'),
    ("bad", r'"[^"\n]*"?'),
    ("bad", r"0[0-9]+"),
    ("number", r"[0-9]+"),
    ("label", r"[A-Za-z_][A-Za-z0-9_]*" + AHEAD),
    ("word", r"[A-Za-z_][A-Za-z0-9_]*"),
    ("way", r"[!?]"),
    ("symbol", r"[<=][=]|[<>(){}\x5b\x5d*.,:;+=-]"),
    ("bad", r"[^ \t\r\n]"),
]


def groups():
    """Each group with its words, in the order of words.txt."""
    with open(HERE + "/words.txt", encoding="ascii") as it:
        lines = [line.split() for line in it if line.strip() and not line.startswith("#")]
    return [(line[0], line[1:]) for line in lines]


def rules():
    """Each token's name and pattern, in the order in which they are tried."""
    words = [(name, r"\b(?:%s)\b" % "|".join(words)) for name, words in groups()]
    at = [name for name, _ in PATTERNS].index("label")
    return PATTERNS[:at] + words + PATTERNS[at:]


def in_vim(name, pattern):
    return "syntax match sj%s '\\v%s'" % (name.capitalize(), pattern.replace(AHEAD, AHEAD.replace("(?=", r"\ze").rstrip(")")))


def vim():
    lines = ['" The colours of sj files. editors/make.py writes this file, from editors/words.txt.', 'if exists("b:current_syntax")', "  finish", "endif", "syntax case match", "syntax iskeyword a-z,A-Z,48-57,_"]
    lines += ["syntax keyword sj%s %s" % (name.capitalize(), " ".join(words)) for name, words in groups()]
    # of two matches at one place vim takes the later one
    lines += [in_vim(name, pattern) for name, pattern in reversed(PATTERNS)]
    lines += ["highlight default link sj%s %s" % (name.capitalize(), colour[0]) for name, colour in COLOURS.items()]
    return "\n".join(lines + ['let b:current_syntax = "sj"', ""])


def written():
    """Each file that is written, and its text."""
    grammar = {
        "comment": "editors/make.py writes this file, from editors/words.txt.",
        "name": "sj",
        "scopeName": "source.sj",
        "fileTypes": ["sj"],
        "patterns": [{"name": COLOURS[name][1] + ".sj", "match": pattern} for name, pattern in rules()],
    }
    package = {
        "name": "sj",
        "displayName": "sj files",
        "description": "Colours for files of sj",
        "publisher": "porcharnica",
        "version": "1.0.0",
        "engines": {"vscode": "^1.60.0"},
        "contributes": {
            "languages": [{"id": "sj", "aliases": ["sj"], "extensions": [".sj"], "configuration": "./language-configuration.json"}],
            "grammars": [{"language": "sj", "scopeName": "source.sj", "path": "./syntaxes/sj.tmLanguage.json"}],
        },
    }
    brackets = [["{", "}"], ["[", "]"], ["(", ")"]]
    language = {"comments": {"lineComment": "//"}, "brackets": brackets, "autoClosingPairs": brackets + [['"', '"']], "wordPattern": "[A-Za-z_][A-Za-z0-9_]*"}
    files = {"vscode/syntaxes/sj.tmLanguage.json": grammar, "vscode/package.json": package, "vscode/language-configuration.json": language}
    texts = {name: json.dumps(value, indent=2) + "\n" for name, value in files.items()}
    texts["vim/syntax/sj.vim"] = vim()
    texts["vim/ftdetect/sj.vim"] = '" editors/make.py writes this file.\nautocmd BufRead,BufNewFile *.sj setfiletype sj\n'
    texts["vim/ftplugin/sj.vim"] = '" editors/make.py writes this file.\nsetlocal commentstring=//\\ %s comments=://\n'
    return texts


if __name__ == "__main__":
    for name, text in written().items():
        os.makedirs(os.path.dirname(HERE + "/" + name), exist_ok=True)
        with open(HERE + "/" + name, "w", encoding="ascii") as it:
            it.write(text)
