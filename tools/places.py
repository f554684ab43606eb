#!/usr/bin/env python3
"""Lists the lines of crates/*/src/*.rt, tests left out, that may be places of an older form, point by point.

    python3 tools/places.py [COMMIT]      of a commit, or of the files as they lie here

Each point has one pattern; what it finds is a line to look at, not yet a place.
"""

import re
import subprocess
import sys
from pathlib import Path

CLAUSE = r"^\s*(requires|ensures)\b.*"
POINTS = [
    ("1", "flags, numbers and empty values for 'none'",
     r"\bsome: bool|serialize_block\(.*-> bool|Result<bool|ordinal == 0|unwrap_or\(|_ => (0|b'.')|Result<Result|let _ =|// .*, or 0$"),
    ("2", "functions, types and constants of like names",
     r"fn (number|place|nibble|hex_digit|key_of|area_of|hex_line|open_len|rest_len|push_key|push_entry|push_end|push_fault"
     r"|flush_block|flush_rest|is_below|common_prefix_len|main)\b|const (OUTPUT_LEN|KEY_MAX_LEN|MOST_\w+)|rises_len: usize"),
    ("3", "loops", r"^\s*(while|loop|for)\b.*\{"),
    ("4", "conversion, order and printing by hand",
     r"impl .*(From|Display).* for|fn (is_below|hex_\w+|nibble|push_number|push_key|push_digits|with_digit|parse_\w+)\b|\bas (u8|u32|u64|usize)\b"),
    ("5a", "clauses with a codec's parts", CLAUSE + r"C\.Codec\.(rule|bytes|opens|steps)"),
    ("5b", "clauses with a state made from fields", CLAUSE + r"(state C\.Codec\.list|last_of |position_of|standing (self|result))"),
    ("5c", "clauses with the length of a key or of a delta part", CLAUSE + r"(≤ 512|≤ 4533|\+ 533)"),
    ("5d", "parameters that travel together", r"fn .*(\bpart: &\[u8\], place|\bbuf: &\[u8\], place|codec: &C, delta|output: &mut \[u8\], at|start: usize, end"
     r"|heap: Global, text: &mut)|^\s+(part: &\[u8\]|heap: Global|text: &mut Vec<u8>|place: usize|start: usize|end: usize),$"),
    ("6", "buffers with a length beside", r"\[u8; \w+\],$|^\s+(pub\(crate\) )?len: usize|output: &\[u8\], len|hex: &\[u8\], len|\bn\]\)\?|with_capacity"),
    ("7", "switches", r"\bfirst: bool|: Kind\b|\bdyn\b|\bfn\("),
]


def sources(commit):
    if commit is None:
        for path in sorted(Path("crates").glob("*/src/**/*.rt")):
            yield str(path), path.read_text()
        return
    names = subprocess.run(["git", "ls-tree", "-r", "--name-only", commit, "crates"], check=True, capture_output=True, text=True).stdout
    for name in names.splitlines():
        if re.fullmatch(r"crates/\w+/src/.*\.rt", name):
            yield name, subprocess.run(["git", "show", f"{commit}:{name}"], check=True, capture_output=True, text=True).stdout


def main():
    files = [(name, text) for name, text in sources(sys.argv[1] if len(sys.argv) > 1 else None) if not name.endswith("tests.rt")]
    for point, title, pattern in POINTS:
        found = [f"  {name}:{number}: {line.strip()[:110]}" for name, text in files
                 for number, line in enumerate(text.splitlines(), 1) if re.search(pattern, line)]
        print(f"{point} {title}: {len(found)}")
        print("\n".join(found))


main()
