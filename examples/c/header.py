"""Compares the header with the exports that it names, field by field and parameter by parameter.

usage: header.py HEADER CRATE, where CRATE is the folder of crates/lethwyrn_c.

A C compiler believes the header, and no proof reads it. So each record of the header has to have the
fields of the one in the crate, by name, type and order. Each function has to take the same values and
answer the same one. Each number has to be that of the constant with its name.
"""
import pathlib
import re
import sys

# the names of the header's records in the crate
RECORDS = {
    "lethwyrn": "Handle",
    "lethwyrn_seals": "SealsHandle",
    "lethwyrn_refusal": "Refusal",
    "lethwyrn_track": "TrackView",
    "lethwyrn_wait": "NeedView",
    "lethwyrn_found": "FindingView",
    "lethwyrn_move": "MoveView",
    "lethwyrn_hits": "ScoreView",
    "lethwyrn_greeting": "GreetView",
}
NUMBERS = {
    "u8": "uint8_t", "u16": "uint16_t", "u32": "uint32_t", "u64": "uint64_t", "i32": "int32_t",
    "usize": "size_t", "bool": "bool",
}
OF_C = {name: c for c, name in RECORDS.items()}


def value(name):
    """The C type of a value of this type of the crate."""
    if name in NUMBERS:
        return NUMBERS[name]
    return OF_C[name]


def field_of_crate(name, kind):
    if kind == "*mut u8":
        return f"void *{name}"
    array = re.fullmatch(r"\[(\w+); (\d+)\]", kind)
    if array:
        return f"{value(array[1])} {name}[{array[2]}]"
    return f"{value(kind)} {name}"


def records_of_crate(text):
    found = {}
    for name, body in re.findall(r"#\[repr\(C\)\].*?pub struct (\w+) \{(.*?)\n\}", text, re.S):
        lines = [line.strip().removeprefix("pub ") for line in body.splitlines()]
        fields = [re.fullmatch(r"(\w+): (.+),", line) for line in lines]
        found[name] = [field_of_crate(f[1], f[2]) for f in fields if f]
    return found


def records_of_header(text):
    found = {}
    for body, name in re.findall(r"typedef struct(?: \w+)? \{([^}]*)\} (\w+);", text):
        fields = []
        for line in filter(None, (line.strip() for line in body.split(";"))):
            kind, names = re.fullmatch(r"(void(?= \*)|\w+) (.+)", line).groups()
            fields += [f"{kind} {name.strip()}" for name in names.split(",")]
        found[name] = fields
    return found


def taken(kind):
    """What C passes for a parameter of this type of the crate: nothing for the allocator."""
    if kind == "Global":
        return []
    if kind in NUMBERS:
        return [NUMBERS[kind]]
    place = re.fullmatch(r"&(mut )?(.+)", kind)
    const = "" if place[1] else "const "
    array = re.fullmatch(r"\[u8; (\d+)\]", place[2])
    if array:
        return [f"{const}uint8_t[{array[1]}]"]
    if place[2] == "[u8]":
        return [f"{const}uint8_t*", "size_t"]
    return [f"{const}{value(place[2])}*"]


def functions_of_crate(text):
    found = {}
    head = r'pub extern "C" fn (\w+)\(([^)]*)\)(?: -> (\w+))?'
    for name, parameters, answer in re.findall(head, text):
        kinds = re.findall(r"\w+: ([^,\[]*(?:\[[^\]]*\])?)", parameters)
        passed = [one for kind in kinds for one in taken(kind.strip())]
        found[name] = (NUMBERS[answer] if answer else "void", passed)
    return found


def functions_of_header(text):
    found = {}
    for answer, name, parameters in re.findall(r"^(int32_t|void) (\w+)\(([^)]*)\);", text, re.M):
        passed = []
        for one in parameters.split(","):
            form = r"\s*((?:const )?\w+) (\*?)\w+(\[\d+\])?"
            kind, star, array = re.fullmatch(form, one).groups()
            passed.append(kind + star + (array or ""))
        found[name] = (answer, passed)
    return found


def main():
    header_path, crate = sys.argv[1], pathlib.Path(sys.argv[2])
    header = re.sub(r"/\*.*?\*/", "", pathlib.Path(header_path).read_text(), flags=re.S)
    source = "\n".join(path.read_text() for path in sorted((crate / "src").glob("*.rt")))
    faults = []

    def same(what, of_header, of_crate):
        if of_header != of_crate:
            faults.append(f"{what}: the header has {of_header}, the crate has {of_crate}")

    ours, theirs = records_of_header(header), records_of_crate(source)
    same("the records", sorted(ours), sorted(RECORDS))
    same("the crate's records", sorted(RECORDS.values()), sorted(theirs))
    for c, name in RECORDS.items():
        same(c, ours.get(c), theirs.get(name))
    ours, theirs = functions_of_header(header), functions_of_crate(source)
    same("the functions", sorted(ours), sorted(theirs))
    for name in ours:
        same(name, ours[name], theirs.get(name))
    numbers = dict(re.findall(r"LETHWYRN_(\w+) = (\d+)", header))
    codes = re.findall(r"const (\w+): i32 = (\d+);", (crate / "src/codes.rt").read_text())
    for name, number in codes:
        same(name, numbers.get(name), number)
    for fault in faults:
        print(fault)
    compared = f"{len(RECORDS)} records, {len(ours)} functions and {len(codes)} codes compared"
    print(f"{compared}, {len(faults)} differ")
    sys.exit(1 if faults or not codes else 0)


main()
