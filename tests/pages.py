#!/usr/bin/env python3
"""Checks how the documents are written: their length, their links, the crates, files and names that they cite, and their language; and the
language of the sources, in their comments and messages.

Each check reads one document and answers its faults. Mistakes are planted in each run: a check that passes one of them fails.
`run` calls this; by itself: tests/pages.py
"""

import ast
import functools
import importlib.machinery
import importlib.util
import io
import os
import pathlib
import re
import sys
import tokenize

from common import ROOT, counted, room

DOCUMENTS = ("README.md", "docs/*.md", "crates/*/README.md")
# Where PHRASES must not occur: anywhere in a document, in the comments of a source, and in the texts of .rt files and of scripts, except in the
# tables of phrases themselves.
SPOKEN = (*DOCUMENTS, "docs/dme.1", "crates/*/src/**/*.rt", "crates/*/specs/**/*.antt", "crates/*/proofs/**/*.antt", "tests/*.py", "tests/run", "tools/*")
TABLES = {"PHRASES", "ONCE", "FIXED", "PLANTED"}
MOST_WORDS = {"README.md": 1500, "docs/PROOFS.md": 3000, "docs/DECISIONS.md": 4000, "crates/*/README.md": 450}
TOGETHER = ("README.md", "docs/*.md")
MOST_WORDS_TOGETHER = 24_000

# Phrases that must not occur, and what to write instead.
PHRASES = {
    r"behind": "after, following",
    r"wants? of memory": "out of memory",
    r"takes? no memory": "does not allocate",
    r"(?<!in )(?<!the )fronts? of": "a prefix of",
    r"st(?:ands?|ood|anding) (?:in|at)": "is in, is defined in",
    r"so many(?! are left)": "that many, n",
    r"the same of": "likewise for",
    r"(?:is|are|was|were|be|been|being) told|tells": "is reported, reports",
    r"owes?|owed": "must ensure, requires",
    r"(?<!there )(?:is|are|was|were) none": "is not a .., does not exist",
    r"go(?:es)? on": "continues",
    r"ha(?:s|ve) (?:its|their) turn": "is processed",
    r"where (?:one|it) is(?! ?[.,;:)/])": "if",
    r"ha(?:s|ve|d) no place": "is unexpected",
    r"given up": "discarded, closed",
    r"worked rows?": "examples",
    r"sa(?:ys|id) of": "specifies",
    r"beside": "next to, alongside",
    r"co(?:mes?|me|ming) about": "fails (for: does not come about)",
    r"by hand": "manually",
}
ONCE = {r"this profile": "say it once a document"}  # only in documents: a comment names its source
FIXED = ()  # printed lines, whose bytes do not change

DEFINING = ("crates/*/src/**/*.rt", "crates/*/specs/**/*.antt", "crates/*/proofs/**/*.antt")
OTHER_SOURCES = ("crates/*/must-fail*/*.edit", "crates/*/include/*", "crates/*/std*", "crates.txt", "tests/**/*.py", "tests/run", "tests/*.c", "tests/program/*.rows", "tools/*", "bench/**/*.py", "bench/**/*.rs", "examples/**/*")
OUTSIDE = {"std", "core", "io", "libc", "alloc"}  # next to the kit's crates that crates.txt names
FOREIGN = {"serde_json"}  # names of other projects
RT_DEFINES = re.compile(r"\b(?:fn|struct|enum|trait|const|static|type|mod|union)\s+(\w+)|^    (?:pub(?:\(\w+\))? )?(\w+)(?:: .*,|,|\(.*\),| \{)$", re.MULTILINE)
ANTT_DEFINES = re.compile(r"^\s*(?:abbrev |unfoldable |pub |record |data |mod )*([^\s:()]+)", re.MULTILINE)
PATH = re.compile(r"(?<![\w./-])((?:docs|crates|tests|tools|bench|examples|specs|src|proofs|include|must-fail[a-z-]*|\.ci)/[\w.*/-]*)")
FILE = re.compile(r"^[\w*-]+\.(?:md|py|rt|antt|edit|dmis|schedule|bash)$")
NAME = re.compile(r"^(?:[A-Za-z]\w*_\w+|[A-Z][a-z]+\w*)$")
# A comment of a source, consecutive lines as one, or a text. Characters are matched too, since a quote in one does not begin a text.
RT_SAYS = re.compile(r"""(?P<comment>//.*(?:\n[ \t]*//.*)*)|(?<!\w)b?'(?:[^'\\\n]|\\[^'\n]+|\\')'|\br(#*)"[\s\S]*?"\2|"(?P<text>(?:[^"\\]|\\[\s\S])*)\"""")
ANTT_SAYS = re.compile(r"""(?P<comment>(?<!\S)--(?!\S).*(?:\n[ \t]*--(?!\S).*)*)|"(?:[^"\\]|\\.)*\"""")
QUALIFIED = re.compile(r"^([A-Za-z]\w*)((?:::\w+)+)$")


def without_code(text):
    """A document without its blocks and spans of code."""
    text = re.sub(r"^```.*?^```", "", text, flags=re.MULTILINE | re.DOTALL)
    text = "\n".join("" if it.startswith("    ") else it for it in text.splitlines())
    return re.sub(r"``.*?``|`[^`]*`", "``", text)


def without_marks(comment):
    return re.sub(r"^[ \t]*(?://[/!]?|--)", "", comment, flags=re.MULTILINE)


def shown(text):
    """A text of an .rt file as it is shown, without the names of what is inserted, and with a space for each escape."""
    text = re.sub(r"\\\n\s*", "", text)
    return re.sub(r"\{\w*(?::[^{}]*)?\}", "{}", re.sub(r"\\.", " ", text))


def said_by(source, says):
    """The comments of a source, and its texts if `says` has a group for them."""
    for it in says.finditer(source):
        parts = it.groupdict()
        if parts["comment"]:
            yield without_marks(parts["comment"])
        elif parts.get("text"):
            yield shown(parts["text"])


def said_by_script(source):
    """The comments and the texts of a script in Python, without its tables of phrases."""
    tree = ast.parse(source)
    tables = [it for it in tree.body if isinstance(it, ast.Assign) and ast.unparse(it.targets[0]) in TABLES]
    hidden = {id(it) for table in tables for it in ast.walk(table)}
    yield from (it.value for it in ast.walk(tree) if isinstance(it, ast.Constant) and isinstance(it.value, str) and id(it) not in hidden)
    said, last = [], None
    for it in tokenize.generate_tokens(io.StringIO(source).readline):
        if it.type == tokenize.COMMENT:
            if it.start[0] - 1 != last:
                said.append("")
            said[-1] += it.string.lstrip("#") + "\n"
            last = it.start[0] if it.line.strip().startswith("#") else None
    yield from said


def spoken(name, text):
    """The words of a file, its line breaks as spaces. Each comment and each text of a source is separate."""
    if name.endswith(".rt"):
        said = said_by(text, RT_SAYS)
    elif name.endswith(".antt"):
        said = said_by(text, ANTT_SAYS)
    elif name.endswith(".py") or text.startswith("#!/usr/bin/env python3"):
        said = said_by_script(text)
    else:
        return re.sub(r"\s+", " ", without_code(text) if name.endswith(".md") else text)
    said = (without_code("\n".join(line.strip() for line in it.splitlines())) for it in said)
    return " / ".join(re.sub(r"\s+", " ", it).strip() for it in said)


def words_in(text):
    """How many words there are: neither the bar of a table nor a dash counts."""
    return sum(any(it.isalnum() for it in word) for word in text.split())


def faults_of_length(name, text):
    """A document has at most as many words as one of its kind may have."""
    most = next((it for glob, it in MOST_WORDS.items() if pattern_of(glob).fullmatch(name)), None)
    count = words_in(text)
    return [f"{count} words, where there may be {most}"] if most is not None and count > most else []


def faults_of_language(name, text):
    """No phrase of PHRASES occurs, and in a document each of ONCE at most once."""
    words, faults = spoken(name, text), []
    for fixed in FIXED:
        words = words.replace(fixed, "")
    for phrases, most in ((PHRASES, 0), (ONCE if name.endswith((".md", ".1")) else {}, 1)):
        for phrase, instead in phrases.items():
            found = list(re.finditer(rf"\b(?:{phrase})\b", words, re.IGNORECASE))
            faults += [f"'..{words[max(it.start() - 30, 0) : it.end() + 15]}..': {instead}" for it in found[most:]]
    return faults


def slug(heading):
    """The anchor of a heading."""
    return re.sub(r"[^\w\- ]", "", heading.lower().replace("`", "")).strip().replace(" ", "-")


@functools.cache
def headings(path):
    return {slug(it) for it in re.findall(r"^#+ (.*)$", path.read_text(), re.MULTILINE)}


def faults_of_links(name, text):
    """Each link leads to a file or a folder, and to a heading in it if it names one."""
    faults = []
    for target in re.findall(r"\]\(([^)\s]+)\)", re.sub(r"`[^`]*`", "", text)):
        if re.match(r"\w+://", target):
            continue
        to, _, anchor = target.partition("#")
        path = (ROOT / name).parent / to if to else ROOT / name
        if not path.exists():
            faults.append(f"link to {target}: there is no such file")
        elif anchor and anchor not in (headings(path) if to else {slug(it) for it in re.findall(r"^#+ (.*)$", text, re.MULTILINE)}):
            faults.append(f"link to {target}: there is no such heading")
    return faults


@functools.cache
def tree():
    """The paths of the repository's files and folders, from its top, without build products."""
    paths = set()
    for folder, names, files in os.walk(ROOT):
        names[:] = [it for it in names if it not in (".git", "out", "__pycache__")]
        paths |= {os.path.relpath(os.path.join(folder, it), ROOT) for it in names + files}
    return sorted(paths)


@functools.cache
def pattern_of(glob):
    """A glob as a pattern: `*` is any part of a name, and `**` any number of folders."""
    parts = {"**/": "(?:.*/)?", "*": "[^/]*"}
    return re.compile("".join(parts.get(it, re.escape(it)) for it in re.split(r"(\*\*/|\*)", glob)))


@functools.cache
def matching(glob):
    if "*" not in glob:
        return [glob] if (ROOT / glob).exists() else []
    return [it for it in tree() if pattern_of(glob).fullmatch(it)]


def files_of(globs):
    return [ROOT / it for glob in globs for it in matching(glob) if (ROOT / it).is_file()]


@functools.cache
def crates():
    """The crates of the repository, and the libraries of the kit that they use."""
    lines = [it.partition(":")[::2] for it in (ROOT / "crates.txt").read_text().splitlines() if ":" in it]
    own = {it.split()[0] for it, _ in lines}
    return own, {it for _, names in lines for it in names.split()} - own


@functools.cache
def defined(crate):
    """The names that the sources and the definitions of a crate define."""
    names = set()
    for path in files_of(it.replace("*", crate, 1) for it in DEFINING):
        defines = RT_DEFINES if path.suffix == ".rt" else ANTT_DEFINES
        names |= {it for found in defines.finditer(path.read_text()) for it in found.groups() if it}
    return names


@functools.cache
def known_words():
    """The words of all sources, and the names of their files and folders."""
    words = {pathlib.PurePath(it).stem for it in tree()} | {pathlib.PurePath(it).name for it in tree()}
    for path in files_of(DEFINING + OTHER_SOURCES):
        if path != pathlib.Path(__file__).resolve():
            words |= set(re.findall(r"\w+", path.read_text(errors="replace")))
    return words


@functools.cache
def path_exists(cited, name):
    """Whether a path exists: from the top, from the document's folder, or in a crate. `*` and a folder in capitals match any name."""
    cited = re.sub(r"(?<![^/])[A-Z]+(?![^/])|NAME", "*", cited.rstrip("./"))
    if "out" in cited.split("/"):
        return True
    tops = ["", f"{pathlib.PurePath(name).parent}/"] + ([] if name.startswith("crates/") else ["crates/*/"])
    return any(matching(f"{top}{cited}{suffix}") for top in tops for suffix in ("", ".antt"))


def is_named(path):
    """Whether the crate, or else some crate, defines all parts of a qualified name."""
    first, *others = path.split("::")
    own, kit = crates()
    if first in kit | OUTSIDE:
        return True
    if first in own:
        return all(it in defined(first) for it in others)
    return any({first, *others} <= defined(it) for it in own)


def faults_of_citing(name, text):
    """Each path, file, crate, function and definition that is cited exists."""
    faults = [f"{it}: there is no such path" for it in PATH.findall(text) if not path_exists(it, name)]
    for span in re.findall(r"`([^`\n]+)`", text):
        span = re.sub(r"\(\)$", "", span)
        if FILE.match(span) and "*" not in span and "NAME" not in span and span not in known_words():
            faults.append(f"{span}: there is no such file")
        elif QUALIFIED.match(span) and not is_named(span):
            faults.append(f"{span}: nothing has this name")
        elif NAME.match(span) and span not in known_words() | FOREIGN:
            faults.append(f"{span}: no source has this word")
    return faults


def faults_of_order(name, text):
    """The words of the glossary are in alphabetical order."""
    words = [it.replace("`", "").lower() for it in re.findall(r"^\| (?!Word )([^|-][^|]*?) \|", text, re.MULTILINE)]
    return [f"{later} after {word}" for word, later in zip(words, words[1:]) if later < word] if name == "docs/GLOSSARY.md" else []


def is_refused(check, name, text):
    """Whether a planted mistake is found, and the corrected text passes."""
    wrong, right = text
    return bool(check(name, wrong)) and not check(name, right)


PLANTED = [
    (faults_of_length, "README.md", ("word " * 1501, "word " * 1500)),
    (faults_of_length, "crates/fixed_um/README.md", ("word " * 451, "word " * 450)),
    (faults_of_language, "README.md", ("it runs\nbehind that", "it runs after `behind`")),
    (faults_of_language, "docs/FILES.md", ("He is told this.", "He is shown this.")),
    (faults_of_language, "docs/FILES.md", ("this profile, this profile", "this profile, once")),
    (faults_of_language, "crates/fixed_um/src/lib.rt", ("/// for want of memory\nfn behind()", "/// out of memory\nfn behind()")),
    (faults_of_language, "crates/fixed_um/src/lib.rt", ('"it goes on"', '"it continues"')),
    (faults_of_language, "crates/fixed_um/src/lib.rt", ('"it goes \\\n    on"', '"{behind}\\nit goes"; f("on")')),
    (faults_of_language, "crates/fixed_um/src/lib.rt", ("b'\"'; // it goes\n    // on", "b'\"'; behind() // \"it goes")),
    (faults_of_language, "crates/fixed_um/src/lib.rt", ("/// where it goes\n/// on (this profile)", "/// it goes (this profile)\nfn f() {} // on (this profile)")),
    (faults_of_language, "crates/fixed_um/specs/Lib.antt", ("-- it is\n-- told", '-- it is reported\nbehind : "it goes on --"\n')),
    (faults_of_language, "tests/pages.py", ('"""It goes\n    on."""', '"""It goes."""\nbehind = "`on`"')),
    (faults_of_language, "tests/pages.py", ("go = 1  # behind it", "behind = 1  # after it goes\nbehind = 2  # on it")),
    (faults_of_language, "tests/run", ("#!/usr/bin/env python3\nPHRASE = 'behind'", "#!/usr/bin/env python3\nPHRASES = {'behind': 'after'}")),
    (faults_of_links, "docs/FILES.md", ("[a](../README.markdown)", "[a](../README.md)")),
    (faults_of_links, "docs/FILES.md", ("# One\n[a](#two)", "# Two\n[a](#two)")),
    (faults_of_language, "docs/FILES.md", ("A CR, where it is written, ends it.", "A CR is shown where it is.")),
    (faults_of_citing, "README.md", ("see examples/circle.dmiss", "see examples/circle.dmis.")),
    (faults_of_citing, "README.md", ("see crates/NAME/spec/Lib.antt", "see crates/NAME/specs/Lib.antt")),
    (faults_of_citing, "docs/FILES.md", ("see `specs/Claim.antt`", "see `specs/Claims.antt`")),
    (faults_of_citing, "README.md", ("`Claim.antt`", "`Claims.antt`")),
    (faults_of_citing, "README.md", ("`link_world::step_once`", "`link_world::World::step`")),
    (faults_of_citing, "README.md", ("`linkworld::World`", "`link_world::World`")),
    (faults_of_citing, "README.md", ("`World::step_again`", "`World::step`")),
    (faults_of_citing, "README.md", ("`read_umm`", "`read_um`")),
    (faults_of_citing, "README.md", ("`Headlines`", "`Headline`")),
    (faults_of_order, "docs/GLOSSARY.md", ("| tag | |\n| `act` | |", "| `act` | |\n| tag | |")),
]


def faults_of_releasing():
    """What is wrong with how `tools/release` writes a commit and a toolchain into sources, tried on copies of them: what each says then, and a
    second time."""
    loader = importlib.machinery.SourceFileLoader("release", str(ROOT / "tools" / "release"))
    release = importlib.util.module_from_spec(importlib.util.spec_from_loader("release", loader))
    loader.exec_module(release)
    commit, kit, faults = "0123456789abcdef0123456789abcdef01234567", "kit 1", []
    with room() as folder:
        for name in release.WHERE:
            copy = folder / name
            copy.parent.mkdir(parents=True)
            copy.write_text((ROOT / name).read_text())
        release.write_commit(folder, commit, kit)
        for name in release.WHERE:
            expected = (ROOT / name).read_text().replace("not a release", commit, 1).replace("not a release", kit, 1)
            if (folder / name).read_text() != expected:
                faults.append(f"{name} is not as a release has it")
        try:
            release.write_commit(folder, commit, kit)
            faults.append("a commit is written over another")
        except SystemExit:
            pass
    return faults


def texts_of(globs):
    return [(it.relative_to(ROOT).as_posix(), it.read_text()) for it in files_of(globs)]


def check_pages():
    tried = [(f"planted in {name}: {wrong[:40]!r}", [] if is_refused(check, name, (wrong, right)) else ["it is not refused"]) for check, name, (wrong, right) in PLANTED]
    for globs, checks in ((DOCUMENTS, (faults_of_length, faults_of_links, faults_of_citing, faults_of_order)), (SPOKEN, (faults_of_language,))):
        tried += [(name, check(name, text)) for name, text in texts_of(globs) for check in checks]
    count = sum(words_in(text) for _, text in texts_of(TOGETHER))
    tried.append(("README.md and docs/", [] if count <= MOST_WORDS_TOGETHER else [f"{count} words, where there may be {MOST_WORDS_TOGETHER}"]))
    tried.append(("tools/release", faults_of_releasing()))
    for name, faults in tried:
        for fault in faults:
            print(f"{name}: {fault}")
    return counted("checks of documents", sum(1 for _, faults in tried if faults), len(tried), f"; {count} words together")


if __name__ == "__main__":
    sys.exit(1 if check_pages()[1] else 0)
