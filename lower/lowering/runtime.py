"""The runtime: texts of the language itself in the folder runtime/. Only the needed ones are read.

A function whose last parameter is `%cells` takes variadic arguments: the address of their cells, of 8 bytes each.

The texts of its folders are for programs that open files, or that set what a signal calls. They stand over the others:
a name that both have is theirs, and `$plain.NAME` is that of the others.
"""
import pathlib
import re

from terminal.reading.accepted import NAME
from terminal.reading.tree import Function

from .reader import TextReader
from .symbols import Signature, Symbol, Unit, signature_of

FOLDER = pathlib.Path(__file__).resolve().parent.parent / "runtime"
PLAIN = "$plain."
EXPORTED = re.compile(rf"^export (?:function (?:[a-z]+ )?|data )(\${NAME})", re.MULTILINE)
ENCODING = "latin-1"
# What functions take and give that are about floats: in the runtime these are their bits. Each name has a sister for
# singles, which ends in `f`.
FLOATING = {
    "d(d)": "fabs floor ceil trunc round rint nearbyint sqrt cbrt exp exp2 expm1 log log2 log10 log1p sin cos tan asin "
            "acos atan sinh cosh tanh asinh acosh atanh logb tgamma lgamma erf erfc exp10",
    "d(dd)": "fmod copysign fmin fmax pow atan2 hypot nextafter fdim remainder", "d(ddd)": "fma",
    "d(dw)": "ldexp scalbn", "d(dl)": "frexp modf scalbln", "d(ddl)": "remquo", "d(l)": "nan",
    "l(d)": "lround lrint llround llrint", "w(d)": "ilogb __fpclassify __signbit isnan isinf finite",
}


def floating_signatures() -> dict[str, Signature]:
    found = {"$atof": Signature("d", ("l",)), "$strtod": Signature("d", ("l", "l")),
             "$strtof": Signature("s", ("l", "l")), "$wcstod": Signature("d", ("l", "l")),
             "$wcstof": Signature("s", ("l", "l")), "$difftime": Signature("d", ("l", "l")),
             "$drand48": Signature("d", ()), "$erand48": Signature("d", ("l",)),
             "$lgamma_r": Signature("d", ("d", "l")), "$lgammaf_r": Signature("s", ("s", "l")),
             "$sincos": Signature(None, ("d", "l", "l")), "$sincosf": Signature(None, ("s", "l", "l"))}
    for shape, names in FLOATING.items():
        for name in names.split():
            found["$" + name] = Signature(shape[0], tuple(shape[2:-1]))
            found[f"${name}f"] = Signature(shape[0].replace("d", "s"), tuple(shape[2:-1].replace("d", "s")))
    return found


# A quotient and a rest of each class are given as an aggregate, by its address as a first parameter.
SIGNATURES = floating_signatures() | {"$" + name: Signature(":quotient", (cls, cls))
                                      for name, cls in (("div", "w"), ("ldiv", "l"), ("lldiv", "l"))}


def is_offered(name: str) -> bool:
    return "." not in name or name.startswith("$rt.")


class Runtime:
    """Which text has which function, and the texts that were read."""

    def __init__(self, folders: list[str]) -> None:
        self.texts: dict[pathlib.Path, str] = {}
        self.places: dict[str, pathlib.Path] = {}
        self.plain: dict[str, pathlib.Path] = {}
        self.units: dict[pathlib.Path, Unit] = {}
        self.read(FOLDER)
        self.plain = dict(self.places)
        for folder in folders:
            self.read(FOLDER / folder)

    def read(self, folder: pathlib.Path) -> None:
        for path in sorted(folder.glob("*.ssa")):
            self.texts[path] = path.read_bytes().decode(ENCODING)
            for name in EXPORTED.findall(self.texts[path]):
                self.places[name] = path

    def symbol(self, name: str) -> Symbol:
        if name.startswith(PLAIN):
            name = "$" + name.removeprefix(PLAIN)
            return self.unit(self.plain[name]).own[name]
        return self.unit(self.places[name]).own[name]

    def is_covered(self, name: str) -> bool:
        """Whether a text of a folder has a name that another has, too."""
        return name in self.plain and self.plain[name] != self.places[name]

    def offered(self, name: str) -> Symbol | None:
        """What texts are offered by a name: functions and data of C and of Hare's runtime. Other names with a dot are
        the runtime's own."""
        return self.symbol(name) if is_offered(name) and name in self.places else None

    def unit(self, path: pathlib.Path) -> Unit:
        if path not in self.units:
            text = TextReader(self.texts[path], f"lower/runtime/{path.relative_to(FOLDER)}").read()
            unit = Unit(text, True)
            for definition in text.definitions:
                signature = None
                if isinstance(definition, Function):
                    signature = SIGNATURES.get(definition.name) or signature_of(definition, True)
                unit.own[definition.name] = Symbol(definition.name, unit, definition, signature)
            self.units[path] = unit
        return self.units[path]
