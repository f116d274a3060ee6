"""Holds include/tsaghnobir.h against the library: every export of crates/tsaghnobir_c with its parameters in order, name and type; every refusal number and every limit by its name."""
import pathlib
import re
import sys

root = pathlib.Path(__file__).resolve().parents[2]
NUMBERS = {"u8": "uint8_t", "u16": "uint16_t", "u32": "uint32_t", "i32": "int32_t", "usize": "size_t", "f64": "double"}


def parameter_of_export(text):
    """A Rattle parameter as C sees it: one or two parameters."""
    name, kind = re.fullmatch(r"(\w+): (.+)", text).groups()
    lent = re.fullmatch(r"&(mut )?(\[?)(\w+)\]?", kind)
    if not lent:
        return [f"{NUMBERS[kind]} {name}"]
    written, several, number = lent.groups()
    pointer = f"{NUMBERS[number]} *restrict {name}" if written else f"const {NUMBERS[number]} *{name}"
    return [pointer, f"size_t {name}_len"] if several else [pointer]


def exports():
    found = {}
    for source in sorted((root / "crates/tsaghnobir_c/src").glob("*.rt")):
        for name, inside in re.findall(r'#\[unsafe\(no_mangle\)\]\npub extern "C" fn (\w+)\((.*?)\) -> u32', source.read_text(), re.S):
            parts = [part.strip() for part in inside.split(",") if part.strip()]
            found[name] = [one for part in parts for one in parameter_of_export(part)]
    return found


def declarations(header):
    found = {}
    for name, inside in re.findall(r"^uint32_t (\w+)\((.*?)\);", header, re.S | re.M):
        found[name] = [" ".join(part.split()).replace("TSB_RESTRICT", "restrict") for part in inside.split(",")]
    return found


def limits():
    """The limits of the library, each worked out from the ones before it."""
    values = {}
    for name, value in re.findall(r"^pub const (\w+): \w+ = ([\w\s+*()-]+);", (root / "crates/grid/src/lib.rt").read_text(), re.M):
        values[name] = eval(" ".join(value.split()), {}, values)
    return values


header = (root / "include/tsaghnobir.h").read_text()
bare = re.sub(r"/\*.*?\*/", "", header, flags=re.S)
faults = []
exported, declared = exports(), declarations(bare)
for name in sorted(exported.keys() | declared.keys()):
    if exported.get(name) != declared.get(name):
        faults.append(f"{name}: exported with {exported.get(name)}, declared with {declared.get(name)}")
refusals = (root / "crates/refusal/src/lib.rt").read_text()
numbers = {re.sub(r"(?<=[a-z])(?=[A-Z])", "_", name).upper(): number for name, number in re.findall(r"^    (\w+) = (\d+),$", refusals, re.M)}
named = {name: value for name, value in re.findall(r"TSB_(\w+) = (\d+)", bare)}
accepted = (root / "crates/refusal/specs/Numbers.antt").read_text()
numbers["OK"] = re.search(r"^accepted = (\d+)$", accepted, re.M)[1]
if numbers != named:
    faults.append(f"refusal numbers: {sorted(numbers.items() ^ named.items())}")
library = limits()
defined = {name: int(value) for name, value in re.findall(r"^#define TSB_(\w+_MOST) +(\d+) *$", bare, re.M)}
renamed = {name: other for name, other in re.findall(r"^#define TSB_(\w+_MOST) +TSB_(\w+_MOST) *$", bare, re.M)}
for name, value in sorted(defined.items()):
    if library.get(name) != value:
        faults.append(f"TSB_{name}: {value} in the header, {library.get(name)} in the library")
faults += [f"TSB_{name} is TSB_{other}, which is no limit of the header" for name, other in renamed.items() if other not in defined]
if len(defined) + len(renamed) != len(re.findall(r"^#define TSB_\w+_MOST ", bare, re.M)):
    faults.append("a limit of the header is no plain number and no other limit")
if not exported or faults:
    sys.exit("the header and the exports differ:\n" + "\n".join(faults))
print(f"the header has the {len(exported)} exports, the {len(named)} refusal numbers and {len(defined) + len(renamed)} limits as they are")
