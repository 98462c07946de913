"""A technology file for magic, which has the metals of a LEF technology and the cuts between them and nothing else."""


def section(name, lines):
    """A section of a technology file."""
    return "\n".join([name, *(f"    {line}" for line in lines), "end", ""])


def technology_text(metals, cuts, angstroms):
    """The text for layers with these names, of the metals and of the cuts between them. One of magic's own units is so many angstroms."""
    return "\n".join([
        section("tech", ["format 28", "metals"]),
        section("version", ["version 1.0", 'description "The metals of a technology and the cuts between them"']),
        section("planes", metals),
        section("types", [f"{name} {name}" for name in metals] + [f"{metal} {cut}" for metal, cut in zip(metals, cuts)]),
        section("contact", [f"{cut} {lower} {upper}" for cut, lower, upper in zip(cuts, metals, metals[1:])] + ["stackable"]),
        section("styles", ["styletype mos"] + [f"{name} {place % 7 + 21}" for place, name in enumerate(metals)]
                + [f"{name} {place % 7 + 21}" for place, name in enumerate(cuts)]),
        section("compose", []),
        section("connect", [f"{metal},{cut} {metal},{cut}" for metal, cut in zip(metals, cuts)] + [f"{metals[-1]} {metals[-1]}"]),
        section("cifoutput", ["style metals", f"scalefactor {angstroms} angstroms"]
                + [line for place, name in enumerate(metals, 1) for line in (f"layer M{place} {name}", f"    calma {place} 0")]),
        section("cifinput", []),
        section("lef", [f"routing {name}" for name in metals] + [f"cut {name}" for name in cuts]),
        section("drc", []),
        section("extract", ["style metals", f"lambda {angstroms}"]),
    ])
