#!/usr/bin/env python3
"""twins.py [LINES]: functions in crates/*/src whose signatures and bodies differ only in names, types and numbers, as groups; those of fewer
than LINES lines (4) are left out. The last line counts groups and functions."""
import glob, re, sys
from collections import defaultdict

KEYWORDS = set("fn let mut if else while for in match return break continue as pub impl struct enum true false self Self Ok Err Some None "
               "usize u8 u16 u32 u64 bool".split())
least = int(sys.argv[1]) if len(sys.argv) > 1 else 4


def functions(text):
    for m in re.finditer(r"^( *)(?:#\[[^\n]*\]\n *)*(?:pub )?(?:extern \"C\" )?fn (\w+)", text, re.M):
        end = text.find("\n" + m.group(1) + "}", m.start())
        yield m.group(2), text[m.start():end]


def shape(source):
    source = re.sub(r"//[^\n]*", "", source)
    source = re.sub(r"^ *(requires|ensures)\b.*?(?=^ *(requires|ensures|\{))", "", source, flags=re.M | re.S)
    names = {}
    def word(m):
        w = m.group(0)
        if w in KEYWORDS and w not in ("u8", "u16", "u32", "u64", "usize"):
            return w
        return names.setdefault(w, f"n{len(names)}")
    source = re.sub(r'b?"[^"]*"', '"', source)
    source = re.sub(r"\b\d[\w]*\b", "0", source)
    return re.sub(r"\s+", " ", re.sub(r"[A-Za-z_]\w*", word, source))


groups = defaultdict(list)
for path in sorted(glob.glob("crates/*/src/**/*.rt", recursive=True)):
    for name, source in functions(open(path).read()):
        body = source[source.find("\n{") + 1:] if "\n{" in source else source
        if body.count("\n") >= least - 1:
            groups[shape(source)].append(f"{path.replace('/src', '')}:{name}")
groups = [g for g in groups.values() if len(g) > 1]
for g in sorted(groups):
    print("  ".join(g))
print(len(groups), "groups,", sum(map(len, groups)), "functions")
