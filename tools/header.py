#!/usr/bin/env python3
"""Holds include/badgerdross.h to the Rattle sources: nothing else checks a C declaration against the function that it names.

- every exported function of crates/badgerdross_c, and recalling_c's, has a prototype with the same arguments and result, and there is no other prototype;
- a struct behind a pointer is the array of numbers that the function is lent, the state's BADGERDROSS_WORDS words among them;
- the answers have the names and numbers of crates/rows, a taken call that of crates/answers, the calls those of crates/wording, the version is the
  one that is returned;
- the answers listed at a call are the numbers that crates/wording says it can return.

    tools/header.py           says what is held and fails on a difference
    tools/header.py --names   prints the names that libbadgerdross.a has to have
"""
import glob
import re
import sys

HEADER = open("include/badgerdross.h", encoding="utf-8").read()
CODE = re.sub(r"/\*.*?\*/", "", HEADER, flags=re.S)
CODE = re.sub(r"static inline .*?\n}\n", "", CODE, flags=re.S)
SCALARS = {"usize": "size_t", "u64": "uint64_t", "u8": "uint8_t"}
problems = []


def constants(tag):
    """The names and numbers of an enum."""
    body = re.search(r"enum " + tag + r" \{(.*?)\}", CODE, re.S).group(1)
    return {name: int(number) for name, number in re.findall(r"BADGERDROSS_(\w+) = (\d+)", body)}


def members(tag):
    """The type of each member of a struct, an array's as often as it is long."""
    types = []
    for kind, names in re.findall(r"(\w+) ([^;{}]+);", re.search(r"struct " + tag + r" \{(.*?)\}", CODE, re.S).group(1)):
        for name in names.split(","):
            count = re.search(r"\[(\w+)\]", name)
            types += [kind] * (int(DEFINED.get(count.group(1), count.group(1))) if count else 1)
    return types


DEFINED = dict(re.findall(r"#define (BADGERDROSS_\w+) (\d+)", CODE))


def c_argument(text):
    """A C parameter as (const or not, the type pointed to, how many of it or none); a number as its type."""
    text = " ".join(text.split())
    if text == "void":
        return None
    const = text.startswith("const ")
    text = text.removeprefix("const ")
    struct = re.fullmatch(r"struct (\w+) \*\w+", text)
    if struct:
        types = members(struct.group(1))
        if len(set(types)) != 1:
            problems.append(f"struct {struct.group(1)} mixes types")
        return const, types[0], len(types)
    array = re.fullmatch(r"(\w+) \w+\[(\d+)\]", text)
    if array:
        return const, array.group(1), int(array.group(2))
    pointer = re.fullmatch(r"(\w+) \*\w+", text)
    return (const, pointer.group(1), None) if pointer else text.split()[0]


def state_words():
    """The type of the state, which crates/state_words names, as an array of so many words."""
    source = open("crates/state_words/src/lib.rt", encoding="utf-8").read()
    word, count = re.search(r"^pub type Words = \[(\w+); (\w+)\];$", source, re.M).groups()
    number = re.search(rf"^pub const {count}: usize = (\d+);$", source, re.M).group(1)
    return f"[{word}; {number}]"


WORDS = state_words()


def rattle_arguments(text):
    """The C parameters that a Rattle parameter passes as."""
    kind = re.sub(r"\bWords$", WORDS, text.split(":", 1)[1].strip())
    array = re.fullmatch(r"&(mut )?\[(\w+); (\d+)\]", kind)
    if array:
        return [(not array.group(1), SCALARS[array.group(2)], int(array.group(3)))]
    part = re.fullmatch(r"&(mut )?\[(\w+)\]", kind)
    if part:
        return [(not part.group(1), SCALARS[part.group(2)], None), "size_t"]
    number = re.fullmatch(r"&mut (\w+)", kind)
    return [(False, SCALARS[number.group(1)], None)] if number else [SCALARS[kind]]


def prototypes():
    """Name, result and parameters of each function that the header declares."""
    for result, name, parameters in re.findall(r"^(\w+) (\w+)\(([^;]*?)\);", CODE, re.M):
        arguments = [c_argument(p) for p in parameters.split(",")]
        yield name, (result, [a for a in arguments if a is not None])


def exports(folder):
    """The same of each function that a crate exports."""
    for path in glob.glob(f"crates/{folder}/src/**/*.rt", recursive=True):
        text = re.sub(r"//.*", "", open(path, encoding="utf-8").read())
        for name, parameters, result in re.findall(r'#\[unsafe\(no_mangle\)\]\s*pub extern "C" fn (\w+)\(([^)]*)\) -> (\w+)', text):
            arguments = [a for p in parameters.split(",") if p.strip() for a in rattle_arguments(p)]
            yield name, (SCALARS[result], arguments)


def compare(what, here, there):
    """Names what stands in one and not, or otherwise, in the other."""
    for key in sorted(set(here) | set(there), key=str):
        if here.get(key) != there.get(key):
            problems.append(f"{what} {key}: the header has {here.get(key)}, the sources {there.get(key)}")


def snake(name):
    return re.sub(r"(?<!^)([A-Z])", r"_\1", name).upper()


library = dict(exports("badgerdross_c"))
if "--names" in sys.argv:
    print(*sorted(library), sep="\n")
    sys.exit(0)
declared = dict(prototypes())
compare("function", declared, library | dict(exports("recalling_c")))

rows = open("crates/rows/src/lib.rt", encoding="utf-8").read()
taken = open("crates/answers/src/lib.rt", encoding="utf-8").read()
answers = {snake(name): int(n) for name, n in re.findall(r"Refusal::(\w+) => (\d+),", rows)}
answers |= {"TAKEN": int(n) for n in re.findall(r"Ok\(_\) => (\d+),", taken)}
compare("answer", constants("badgerdross_answer"), answers)

wording = open("crates/wording/specs/Calls.antt", encoding="utf-8").read()
numbers = {name: int(n) for name, n in re.findall(r"^(\w+) = (\d+)$", wording, re.M) if not name.endswith("_count")}
compare("call", constants("badgerdross_call"), {"CALL_" + snake(name): n for name, n in numbers.items()})

version = re.search(r"^version = (\d+)$", open("crates/badgerdross/specs/Left.antt", encoding="utf-8").read(), re.M).group(1)
compare("define", {"VERSION": DEFINED["BADGERDROSS_VERSION"]}, {"VERSION": version})

# what a call can return: the lists of crates/wording, spelt out
lists = {name: re.findall(r"\w+", body) for name, body in re.findall(r"^(\w+) = ((?:\w+ ∷ )+)\[\]$", wording, re.M)}
returned = {}
for n, calls in re.findall(r"\((\d+), ([^()]*)\)$", wording, re.M):
    for call in re.findall(r"\w+", calls):
        for one in lists.get(call, [call]):
            returned.setdefault(snake(one).lower(), set()).add(int(n))
told = {}
lines = re.sub(r"\s*\n \* ", " ", HEADER)
for comment, code in re.findall(r"/\*((?:(?!\*/).)*?)\*/\s*((?:size_t badgerdross_\w+\([^;]*\);\s*)+)", lines, re.S):
    names = [n for n in re.findall(r"badgerdross_(\w+)\(", code) if n in returned]
    for of, row in re.findall(r"Answers(?: of ([\w ]+))?: ([\d ]+)\.", comment):
        for name in re.findall(r"\w+", of.replace(" and ", " ")) if of else names[:1]:
            told[name] = {int(n) for n in row.split()}
compare("answers of", told, returned)

print(*problems, sep="\n", end="\n" if problems else "")
print(f"header: {len(declared)} functions, {len(answers)} answers, {len(told)} calls with theirs, {len(problems)} differ")
sys.exit(len(problems) > 0 or len(library) < 20)
