#!/usr/bin/env python3
"""usage: check.py. Holds words.txt to the words of the lexer and of docs/LANGUAGE, the syntax files to words.txt, and what they colour to the tokens of the
examples. Where vim is there, it colours them, too."""
import glob
import re
import shutil
import subprocess
import sys
import tempfile
import make

TOP = make.HERE + "/.."
failed = 0


def read(name):
    with open(TOP + "/" + name, encoding="utf-8") as it:
        return it.read()


def same(what, got, wanted):
    global failed
    if got != wanted:
        failed += 1
        if isinstance(got, list):
            got, wanted = sorted(set(got) - set(wanted)), sorted(set(wanted) - set(got))
        print("%s: %s stands where %s is wanted" % (what, got, wanted))


def section(name):
    return re.search(r"^## %s\n(.*?)^## " % name, read("docs/LANGUAGE.md"), re.M | re.S).group(1)


words = {word: name for name, those in make.groups() for word in those}
ours = sorted(words)
same("words that stand twice", sum(len(those) for _, those in make.groups()), len(words))

# The words: in the document, in the reader's list, in the definition, and in all that the readers and printers of files look for.
same("docs/LANGUAGE.md", sorted(re.search(r"Reserved are `([^`]*)`", section("Tokens")).group(1).split()), ours)
same("sj_proto, src/reserved.rs", sorted(re.findall(r'is\(w, b"(\w+)"\)', read("crates/sj_proto/src/reserved.rt"))), ours)
lists = re.findall(r"^\w+_reserved = (.*)$", read("crates/sj_grammar/specs/Names.antt"), re.M)
same("sj_grammar, specs/Names.antt", sorted(re.findall(r'codes "(\w+)"', " ".join(lists))), ours)
sources = [f for crate in ("sj_proto", "sj_expr", "sj_party") for f in glob.glob(TOP + "/crates/%s/src/*.rt" % crate) if not f.endswith("tests.rt")]
literals = " ".join(text for f in sources for text in re.findall(r'\bb"((?:[^"\\]|\\.)*)"', open(f, encoding="utf-8").read()))
same("sources of sj_proto, sj_expr and sj_party", sorted(set(re.findall(r"[A-Za-z_]\w*", re.sub(r"\\.", " ", literals)))), ours)

# The symbols.
symbols = re.search(r'is_symbol b = .*codes "([^"]*)"', read("crates/sj_grammar/specs/Bytes.antt")).group(1)
documented = re.search(r"A symbol is one of `([^`]*)`", section("Tokens")).group(1).split()
same("docs/LANGUAGE.md, symbols", sorted(documented), sorted([*symbols, "<=", "=="]))
kinds = {name: pattern for name, pattern in make.PATTERNS}
coloured = [c for c in map(chr, range(33, 127)) if re.fullmatch(kinds["way"] + "|" + kinds["symbol"], c)]
same("symbols that are coloured", coloured, sorted(symbols))

# The files that are written.
for name, text in make.written().items():
    same("editors/" + name, read("editors/" + name) == text, True)

# What the lexer makes of a text, byte by byte; a label isn't told from another name there.
LEXER = re.compile(r'(?P<comment>//[^\n]*)|(?P<text>"[^"\n]*")|(?P<number>[0-9]+)|(?P<word>[A-Za-z_][A-Za-z0-9_]*)|(?P<symbol><=|==|[^\s])')


def lexed(text):
    kinds = [" "] * len(text)
    for it in LEXER.finditer(text):
        kind = words.get(it.group(), it.lastgroup)
        kinds[it.start():it.end()] = [kind] * len(it.group())
    return kinds


def by_grammar(text):
    """The same, by the grammar for TextMate: at each place the first pattern that fits."""
    kinds, at, rules = [" "] * len(text), 0, [(name, re.compile(pattern)) for name, pattern in make.rules()]
    while at < len(text):
        found = next(((name, it) for name, it in ((name, rule.match(text, at)) for name, rule in rules) if it), None)
        end = found[1].end() if found else at + 1
        if found:
            kinds[at:end] = [found[0]] * (end - at)
        at = end
    return kinds


def by_vim(name):
    """The same, by vim."""
    with tempfile.NamedTemporaryFile("w+") as out, tempfile.NamedTemporaryFile("w", suffix=".vim") as script:
        script.write("""set runtimepath+=%s/vim
filetype on
syntax on
edit %s
let rows = []
for row in range(1, line("$"))
  call add(rows, join(map(range(1, len(getline(row))), 'synIDattr(synID(row, v:val, 0), "name")'), ","))
endfor
call writefile(rows, "%s")
qall!
""" % (make.HERE, name, out.name))
        script.flush()
        subprocess.run(["vim", "-u", "NONE", "-N", "-i", "NONE", "-n", "-es", "-S", script.name], stdin=subprocess.DEVNULL, timeout=60, check=False)
        rows = out.read().split("\n")[:-1]
    kinds = []
    for row in rows:
        kinds += [cell[2:].lower() or " " for cell in row.split(",")] if row else []
        kinds.append(" ")
    return kinds


def coloured_as(kinds, text):
    """Blanks have no colour, and a label and a way count as what the lexer has."""
    return [" " if c in " \t\n" and k != "text" and k != "comment" else {"label": "word", "way": "symbol"}.get(k, k) for c, k in zip(text, kinds)]


has_vim = shutil.which("vim") is not None
files = sorted(glob.glob(TOP + "/examples/*.sj"))
for name in files:
    with open(name, encoding="ascii") as it:
        text = it.read()
    wanted = coloured_as(lexed(text), text)
    same(name + " by the grammar", coloured_as(by_grammar(text), text) == wanted, True)
    if has_vim:
        same(name + " by vim", coloured_as(by_vim(name), text) == wanted, True)

# Where a token can't be read, it is coloured as bad.
faults = re.findall(r"^\| P[235] \|[^|]*\| `([^`]*)` \| `syntax P[235] at 1:(\d+)`", section("Syntax faults"), re.M)
same("examples of tokens that can't be read", len(faults), 3)
for text, column in faults:
    same(text + " at its fault", by_grammar(text)[int(column) - 1], "bad")
    if has_vim:
        with tempfile.NamedTemporaryFile("w", suffix=".sj") as it:
            it.write(text + "\n")
            it.flush()
            same(text + " at its fault, by vim", by_vim(it.name)[int(column) - 1], "bad")

print("%d words, %d files%s: %d failed" % (len(words), len(files), "" if has_vim else ", without vim, which isn't here", failed))
sys.exit(failed > 0)
