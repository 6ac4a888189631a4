"""The module `interface` of the program: every exported function of crates/export and crates/export_shelf, under its
own name and with its own types, whichever way it is linked; and the places of a state.

As a port, the two are crates of Rust's and their functions are passed on. In the archive a slice is a pointer and a
count, and an array or a number that is lent is a pointer (include/elchepur.h): there each function is declared so, and
a function with the types of the sources calls it."""

from exported import exported, parameter_of, places


def places_text():
    """The places of a state, by their names."""
    constants = "".join(f"    pub const {name}: usize = {place};\n" for name, place in places().items())
    return f"pub mod places {{\n{constants}}}\n"


CRATES = ("export", "export_shelf")


def port_text():
    passed_on = (f"pub use {crate}::{file}::{name};\n" for crate in CRATES
                 for name, (file, _, _) in exported(crate).items())
    return places_text() + "".join(passed_on)


def crossing(name, kind):
    """How a parameter crosses the border: the parameters of the declaration, and what is handed over for them."""
    lent, is_slice, item, count = parameter_of(kind)
    if not lent:
        return [f"{name}: {kind}"], [name]
    mutable = lent == "&mut "
    declared = f"{name}: *{'mut' if mutable else 'const'} {item}"
    pointer = f"{name}.as_{'mut_' if mutable else ''}ptr()"
    if is_slice:
        return [declared, f"{name}_count: usize"], [pointer, f"{name}.len()"]
    return [declared], [pointer if count else name]


def of_archive(name, pairs, result):
    """A function's declaration, and the function that calls it."""
    crossed = [crossing(*pair) for pair in pairs]
    declared = ", ".join(word for words, _ in crossed for word in words)
    handed = ", ".join(word for _, words in crossed for word in words)
    given = ", ".join(f"{parameter}: {kind}" for parameter, kind in pairs)
    returned = f" -> {result}" if result else ""
    return (
        f"    pub fn {name}({declared}){returned};\n",
        f"\npub fn {name}({given}){returned} {{\n    unsafe {{ archive::{name}({handed}) }}\n}}\n",
    )


def archive_text():
    """What Rust lends doesn't overlap, which is all that the archive's functions ask."""
    made = [of_archive(name, pairs, result) for crate in CRATES
            for name, (_, pairs, result) in exported(crate).items()]
    declarations = "".join(declaration for declaration, _ in made)
    foreign = f'mod archive {{\n    extern "C" {{\n{declarations}    }}\n}}\n'
    return places_text() + foreign + "".join(function for _, function in made)
