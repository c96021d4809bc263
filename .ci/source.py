"""Reads the source for the gate's scripts: the libraries, their public functions, and what the must-fail edits claim."""
import pathlib, re

ROOT = pathlib.Path(__file__).resolve().parent.parent
TRAIT_IMPL = re.compile(r"impl(?:<(.*)>)? (\w+)(?:<(.*)>)? for (.+) {$")
CLAIM = re.compile(r"# ([A-Za-z_][\w-]*(?:::\w+)*)(?: ([a-z][\w-]*))?: (.+)")


def listed():
    """The crates of crates.txt, each with the crates of the repository below it."""
    lines = [l.partition("#")[0].split(":") for l in (ROOT / "crates.txt").read_text().splitlines()]
    found = {head.split()[0]: deps[0].split() for head, *deps in lines if deps}
    below = lambda name: {it for dep in found[name] if dep in found for it in [dep, *below(dep)]}
    return {name: below(name) for name in found}


def libraries():
    return sorted(p.parents[1] for p in (ROOT / "crates").glob("*/src/lib.rt"))


def impl_name(impl):
    """An impl of a trait as the logs name it: the words of the type, without the impl's own parameters, then the trait and the words
    of its arguments, as `IdsNumbersFromEffectIdAllocator`."""
    own = {parameter.partition(":")[0].strip() for parameter in (impl[1] or "").split(",")}
    words = lambda text: "".join(word for word in re.findall(r"\w+", text or "") if word not in own)
    return (words(impl[4]) or "Unit") + impl[2] + words(impl[3])


def functions(crate):
    """Each public function of a library, named as its logs name it, with its `ensures` and its file's text. The functions of a
    trait's impl are public too, where the trait is; their `ensures` is the trait's, said of the impl's ghost items, and these stand in its place.
    The clauses of a type's own functions speak of its view, where it has a `Model`: its ghost items stand with them."""
    found = {}
    inner = {name for file in (crate / "src").glob("*.rt") for name in re.findall(r"^(?:pub\(crate\) )?trait (\w+)", file.read_text(), flags=re.M)}
    for file in sorted((crate / "src").glob("*.rt")):
        text = file.read_text()
        module = "" if file.stem == "lib" else file.stem + "::"
        owner, ghosts, lines, models, seen = "", None, text.splitlines(), {}, ""
        for i, line in enumerate(lines):
            impl, fn = re.match(r"impl(?:<.*>)? (\w+)(?:<.*>)? {", line), re.match(r'\s*pub (?:extern "C" )?fn (\w+)', line)
            trait, method = TRAIT_IMPL.match(line), re.match(r"    fn (\w+)", line)
            if impl:
                owner = (module if re.search(rf"(?:struct|enum) {impl[1]}\b", text) else "") + impl[1] + "::"
                seen = models.get(impl[1], "")
            elif trait and trait[2] not in inner:
                body = lines[i:lines.index("}", i)]
                owner, ghosts = module + impl_name(trait) + "::", "\n".join(l for l in body if l.startswith("    ghost "))
                if trait[2] == "Model":
                    models[re.match(r"\w+", trait[4])[0]] = ghosts
            elif line == "}":
                owner, ghosts, seen = "", None, ""
            elif method and ghosts is not None:
                found[owner + method[1]] = (ghosts, text)
            elif fn:
                end = next(j for j in range(i, len(lines)) if lines[j].strip() == "{" or re.search(r"\)(?: -> .*)? \{$", lines[j]))
                ensures = "\n".join(lines[i:end]).partition("ensures")[2] + seen
                found[(owner if line.startswith(" ") else module) + fn[1]] = (ensures, text)
    return found


def edits(crate):
    return sorted((crate / "must-fail").glob("*.edit"))


def claims(edit):
    """Each comment of an edit but the first, as (function or theorem, need, what is wrong), or None where it is no claim.
    The first comment, `## ..`, says how the edit is made."""
    first, *lines = edit.read_text().splitlines()
    found = [CLAIM.match(line) for line in lines if line.startswith("#")] + [None] * (not first.startswith("## "))
    return [m and m.groups() for m in found]
