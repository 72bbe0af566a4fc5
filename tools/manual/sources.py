"""Holds what the program told of its command line against the sources that say it, crates/as2_commands/src."""
import pathlib
import re

from reading import Fault

PLACE = pathlib.Path("crates/as2_commands/src")
STRING = r'"(?:[^"\\]|\\.)*"'
CONSTANT = re.compile(rf"const (\w+): &str =\s*({STRING});", re.S)
LOCAL = re.compile(rf"let (\w+) =\s*({STRING});", re.S)
HEAD = r"^(?:pub\(crate\) )?fn (\w+)(?:<[^>]*>)?\((.*?)\)"
FUNCTION = re.compile(HEAD + r".*?^\{\n(.*?)^\}", re.M | re.S)
PARAMETER = re.compile(r"(\w+): [^,]+")
TOKEN = re.compile(rf"{STRING}|\w+|\S", re.S)
ESCAPE = re.compile(r"\\(\n\s*|.)", re.S)

# The arguments of the functions that make an option or a value.
MAKERS = {
    "flag": ("name", "text"), "option": ("name", "value", "text"), "required_option": ("name", "value", "text"),
    "default_option": ("name", "value", "text", "default"), "value": ("name", "value", "text"),
}
ABOUT = re.compile(rf'Command::new\(alloc, "\w+"\)\s*\.version\({STRING}\)\s*\.about\(({STRING})\)')


def unquoted(literal):
    """The text of a literal."""
    def one(found):
        if found[1].startswith("\n"):
            return ""
        if found[1] not in '"\\':
            raise Fault(f"{PLACE}: not understood: {literal}")
        return found[1]
    return ESCAPE.sub(one, literal[1:-1])


def paired(where, names, given):
    """The arguments of a call under the names of its parameters."""
    if len(names) != len(given):
        raise Fault(f"{PLACE}: not understood: {where}(alloc, {', '.join(given)})")
    return dict(zip(names, given))


class Source:
    """A file: its texts, and its functions, each with its parameters and its body."""

    def __init__(self, top, name):
        text = (top / PLACE / name).read_text(encoding="utf-8")
        self.text = re.sub(r"^\s*//.*\n", "", text, flags=re.M)
        self.texts = {word: unquoted(literal) for word, literal in CONSTANT.findall(self.text)}
        found = FUNCTION.findall(self.text)
        self.functions = {word: (PARAMETER.findall(given), body) for word, given, body in found}


def calls(body):
    """The calls with `alloc` of a body: the name of each, and the words of its other arguments."""
    words = TOKEN.findall(body)
    for at, word in enumerate(words[:-2]):
        if words[at + 1:at + 3] != ["(", "alloc"]:
            continue
        depth, arguments = 1, [[]]
        for it in words[at + 2:]:
            depth += (it == "(") - (it == ")")
            if depth == 0:
                break
            if it == "," and depth == 1:
                arguments.append([])
            else:
                arguments[-1].append(it)
        yield word, [it[-1] for it in arguments[1:] if it]


class Sources:
    """The files together."""

    def __init__(self, top):
        files = [Source(top, f"{it}.rt") for it in ("args", "own", "help", "command")]
        self.args, self.own, self.help, self.line = files
        self.texts = {**self.args.texts, **self.own.texts}

    def value(self, word, known):
        """The text that a word of an argument stands for."""
        if word.startswith('"'):
            return unquoted(word)
        if word not in known and word not in self.texts:
            raise Fault(f"{PLACE}: not understood: {word}")
        return known.get(word, self.texts.get(word))

    def made(self, body, known, passed=()):
        """The options and values that a body makes. `known` are its parameters, `passed` calls that make none."""
        known = {**known, **{word: unquoted(literal) for word, literal in LOCAL.findall(body)}}
        for name, words in calls(body):
            given = [self.value(word, known) for word in words] if name not in passed else []
            if name in MAKERS:
                yield name, paired(name, MAKERS[name], given)
            elif name in self.args.functions:
                parameters, inner = self.args.functions[name]
                yield from self.made(inner, paired(name, parameters[1:], given))
            elif name not in passed:
                raise Fault(f"{PLACE}: not understood: {name}(alloc, ..)")

    def command(self, function):
        """A command: its name, what it does, what is told of it, and its options."""
        if function not in self.own.functions:
            raise Fault(f"{PLACE}/own.rt: no function {function}")
        body = self.own.functions[function][1]
        named = [words for name, words in calls(body) if name == "named"]
        if len(named) != 1 or named[0][2] not in self.help.texts:
            raise Fault(f"{PLACE}/own.rt: {function} isn't understood")
        known = {word: unquoted(literal) for word, literal in LOCAL.findall(body)}
        name, about = (self.value(word, known) for word in named[0][:2])
        return name, about, self.help.texts[named[0][2]], list(self.made(body, {}, ["named"]))


def differ(where, sources, told):
    """Refuses lists that aren't the same, and says what only one of them has."""
    if sources != told:
        here, there = [it for it in told if it not in sources], [it for it in sources if it not in told]
        raise Fault(f"{where}: the program says otherwise than {PLACE}: {here or told}, there {there or sources}")


def compare_options(where, made, options, required, arguments):
    """Compares options and values with those that are made."""
    rows = []
    for kind, it in made:
        default = f" [default: {it['default']}]" if "default" in it else ""
        rows.append(("" if kind == "value" else f"--{it['name']}", it.get("value"), it["text"] + default))
    told = [("", it.value, it.text) for it in arguments]
    told += [(it.long, it.value, it.text) for it in options if it.long not in ("--help", "--version")]
    differ(where, sorted(rows, key=str), sorted(told, key=str))
    differ(where, [f"--{it['name']}" for kind, it in made if kind == "required_option"], required)


def compare(top, program):
    """Compares the whole command line."""
    sources = Sources(top)
    made = list(sources.made(sources.line.functions["with_options"][1], {}, ["program"]))
    compare_options("--help", made, program.options, program.required, [])
    differ("--help", [unquoted(it) for it in ABOUT.findall(sources.line.text)], [program.about])
    differ("--help", sources.help.texts["PROGRAM"].split("\n"), program.whole.split("\n"))
    found = [sources.command(it) for it in re.findall(r"own::(\w+)\(alloc\)", sources.line.text)]
    differ("--help", [it[:2] for it in found], [(it.name, it.about) for it in program.commands])
    for (name, _, whole, made), told in zip(found, program.commands):
        differ(f"{name} --help", whole.split("\n"), told.whole.split("\n"))
        compare_options(f"{name} --help", made, told.options, told.required, told.arguments)
    unused = set(sources.own.functions) - {"named"} - set(re.findall(r"own::(\w+)\(alloc\)", sources.line.text))
    differ("--help", sorted(unused), [])
