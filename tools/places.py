#!/usr/bin/env python3
"""Lists the places in src/ that a plainer form may suit, by kind; a summary with no argument, each place with -v.

    tools/places.py [-v] [COMMIT]

With a commit it reads the files as they stood there. A place that it lists may be right as it is: it finds candidates.
"""
import collections
import re
import subprocess
import sys


def files(commit):
    if commit is None:
        names = subprocess.run(["git", "ls-files"], capture_output=True, text=True, check=True).stdout.split("\n")
    else:
        names = subprocess.run(["git", "ls-tree", "-r", "--name-only", commit], capture_output=True, text=True, check=True).stdout.split("\n")
    for name in names:
        if re.fullmatch(r"crates/\w+/src/\w+\.rt", name) and not name.endswith("walk_cases/src/cases.rt"):
            if commit is None:
                yield name, open(name).read()
            else:
                yield name, subprocess.run(["git", "show", f"{commit}:{name}"], capture_output=True, text=True, check=True).stdout


# Patterns over the text of a file, by point and kind.
PATTERNS = [
    ("1", "an enum of two variants, one of which holds a value", r"enum \w+(?:<[^>\n]*>)? \{\n(?:\s*///[^\n]*\n)*\s*\w+(?:\([^\n]*\)| \{[^\n]*\})?,\n(?:\s*///[^\n]*\n)*\s*\w+(?:\([^\n]*\)| \{[^\n]*\})?,\n\}"),
    ("1", "a function that returns a number which means nothing", r"fn \w+(?:<[^>\n]*>)?\(\) -> u8"),
    ("1", "a number that stands for none", r"//[^\n]*\b(?:or 0|0 for|0 where)\b[^\n]*|const NO\w*: \w+ = [^\n]*|\w+ == 0 \{\n\s*return (?:None|0)?;|frame != 0"),
    ("1", "numbers for the variants of an enum, in a match", r"match \(?self[^\n]*\{\n(?:\s*[^\n]* => \d+,\n){2,}"),
    ("1", "a match or a test that wraps a value anew", r"Err\((\w+)\) => Err\(\1\)|(?:Err\(_\)|None) => None,|Err\(_\) => Err\(|Err\(_\) => 0,|Err\((\w+)\) => Err\(\w+ \{|Err\(\w+\) => return Err\(\w+|\bSome\([^\n]*\)\n\s*\} else \{\n\s*None\n|(?:Some|Ok)\(\w+\) = [^\n]* else \{\n\s*return None;|None => true,|\bNone => false,"),
    ("3", "a loop that is no for", r"\bwhile [^\n]*\{|\bloop \{"),
    ("3", "a for over numbers", r"for \w+ in [^\n]*\.\.[^\n]*\{"),
    ("3", "a for over numbered items", r"\.enumerate\(\)"),
    ("3", "a number that is counted by hand", r"\w+ [+-]= 1;"),
    ("4", "an impl that a derive gives", r"impl(?:<[^>\n]*>)? (?:PartialEq|Eq|PartialOrd|Ord|Clone|Copy|Hash|Debug|Default)\b[^\n]*"),
    ("4", "a conversion by a function of its own", r"fn (?:decode|seen|level)\([^\n]*|fn new\(\w+: u\d+\) -> Option<[^\n]*|if \w+(?: == 0)? \{ 1 \} else \{ 0 \}"),
    ("4", "a text that is made by hand", r"fn \w+_text\([^\n]*"),
    ("6", "a buffer with a place or a count beside it", r"\(out: &mut \[u8\], at: usize[^\n]*|chars: \[u8; \d+\],\n\s*first: usize|spots: &mut \[Spot\]\)[^\n]*|words: &mut Vec<u64>, start: usize[^\n]*"),
    ("6", "arrays side by side", r"calls: &\[Call\],\n\s*expected: &\[\w+\]"),
    ("7", "a type or a trait in place of a closure", r"impl Matches<[^\n]*|trait Matches[^\n]*"),
    ("7", "a match on which step to take", r"match (?:step|query)\b[^\n]*"),
    ("7", "a pointer to a function, or a dyn", r"\bdyn \w+|: fn\("),
]


def functions(text):
    for found in re.finditer(r"^( *)(?:pub(?:\(crate\))? )?(?:extern \"C\" )?fn (\w+)(.*?)^\1\}$", text, re.M | re.S):
        yield found.group(2), found.group(3), text.count("\n", 0, found.start()) + 1


def blanked(body):
    body = re.sub(r"//[^\n]*|\n *(?:ensures|requires)[^\n]*", "", body)
    body = re.sub(r'b?"[^"]*"|b?\'[^\']*\'|\b\d[\w]*\b', "_", body)
    body = re.sub(r"\b[A-Z]\w*\b", "_", body)
    body = re.sub(r"\b(?:bool|u8|u16|u32|u64|usize)\b", "_", body)
    return re.sub(r"\s+", " ", body)


def main():
    arguments = [a for a in sys.argv[1:] if a != "-v"]
    verbose = "-v" in sys.argv[1:]
    sources = list(files(arguments[0] if arguments else None))
    places = collections.OrderedDict()
    for point, kind, _ in PATTERNS:
        places[(point, kind)] = []
    for name, text in sources:
        for point, kind, pattern in PATTERNS:
            for found in re.finditer(pattern, text):
                line = text.count("\n", 0, found.start()) + 1
                places[(point, kind)].append(f"{name}:{line}: {' '.join(found.group(0).split())[:110]}")
    # functions that are the same but for types, variants, numbers and texts
    same = collections.defaultdict(list)
    clauses = collections.defaultdict(list)
    parameters = collections.defaultdict(list)
    for name, text in sources:
        for function, rest, line in functions(text):
            body = blanked(rest)
            if len(body) > 40:
                same[body].append(f"{name}:{line}: {function}")
            for clause in re.findall(r"(?:ensures|requires)\*? (?:\w+ )?\{ (.*) \}$", rest, re.M):
                clauses[clause].append(f"{name}:{line}: {function}")
            listed = re.split(r"\b(?:ensures|requires)\b", rest.split("{")[0])[0]
            listed = re.sub(r"^<.*?>(?=\()", "", listed, flags=re.S)
            named = sorted(set(re.findall(r"\b((?!rt|heap)\w+: &?(?:mut )?[\w\[\]&']+)", listed)))
            for i, one in enumerate(named):
                for two in named[i + 1:]:
                    parameters[(one, two)].append(f"{name}:{line}: {function}")
    places[("2", "functions that differ in a type, a variant, a number or a text alone")] = [
        " = ".join(group) for group in same.values() if len(group) > 1]
    places[("5", "a clause that stands in three contracts or more")] = [
        f"{clause[:120]}: {len(group)} times, first {group[0]}" for clause, group in clauses.items() if len(group) > 2]
    places[("5", "two parameters that stand side by side in four functions or more")] = [
        f"{one}, {two}: {len(group)} times, first {group[0]}" for (one, two), group in parameters.items() if len(group) > 3]
    total = collections.Counter()
    for (point, kind), found in sorted(places.items(), key=lambda item: item[0][0]):
        total[point] += len(found)
        print(f"{point}  {len(found):4}  {kind}")
        if verbose:
            for place in found:
                print(f"         {place}")
    print("in all: " + ", ".join(f"point {point} {count}" for point, count in sorted(total.items())))


main()
