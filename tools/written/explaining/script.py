"""What a script of PDN commands says, as far as explanations need it. The text is one that pdn accepts."""
from ..refusal import read_text
from .lengths import picometres
from .lexing import commands_in

FLAGS = {"-followpins", "-extend_to_core_ring", "-extend_to_boundary", "-add_connect", "-macro", "-default", "-grid_over_boundary", "-grid_over_pg_pins"}
OPTIONS = {
    "set_voltage_domain": ("-name", "-power", "-ground", "-region"),
    "define_pdn_grid": ("-name", "-voltage_domains", "-starts_with", "-pins", "-macro", "-orient", "-halo", "-cells", "-instances", "-default",
                        "-grid_over_boundary", "-grid_over_pg_pins"),
    "add_pdn_stripe": ("-layer", "-width", "-pitch", "-grid", "-spacing", "-offset", "-followpins", "-extend_to_core_ring", "-extend_to_boundary",
                       "-number_of_straps", "-starts_with", "-nets"),
    "add_pdn_ring": ("-layers", "-widths", "-spacings", "-core_offsets", "-grid", "-starts_with", "-nets", "-add_connect"),
    "add_pdn_connect": ("-layers", "-grid", "-max_rows", "-max_columns"),
    "pdngen": (),
}
REQUIRED = {
    "set_voltage_domain": ("-power", "-ground"),
    "define_pdn_grid": ("-name",),
    "add_pdn_stripe": ("-layer", "-width", "-pitch"),
    "add_pdn_ring": ("-layers", "-widths", "-spacings", "-core_offsets"),
    "add_pdn_connect": ("-layers",),
    "pdngen": (),
}


class ScriptCommand:
    """A command with the words of its options and their values."""

    def __init__(self, words):
        self.name, self.word = words[0].text, words[0]
        self.options, at = {}, 1
        while at < len(words):
            option = words[at]
            has_value = option.text not in FLAGS and at + 1 < len(words)
            self.options[option.text] = (option, words[at + 1] if has_value else None)
            at += 2 if has_value else 1

    def has(self, option):
        return option in self.options

    def value_word(self, option):
        """The word of an option's value, or None."""
        return self.options.get(option, (None, None))[1]

    def value(self, option):
        word = self.value_word(option)
        return None if word is None else word.text.strip() if word.form != "bare" else word.text

    def values(self, option):
        """The words of a list."""
        word = self.value_word(option)
        return [] if word is None else word.text.replace("\\\n", " ").split()

    def length(self, option, absent=None):
        """A length in picometres."""
        word = self.value(option)
        return absent if word is None else picometres(word)

    def lengths(self, option):
        return [picometres(word) for word in self.values(option)]


class Script:
    """The domains, grids, stripes, rings and connects of a script, each in its order; `grid_of` and `domain_of` tell what they belong to."""

    def __init__(self, path):
        self.path = path
        self.domains, self.grids, self.stripes, self.rings, self.connects = [], [], [], [], []
        self._grid_of, self._domain_of = {}, {}
        lists = {"set_voltage_domain": self.domains, "define_pdn_grid": self.grids, "add_pdn_stripe": self.stripes, "add_pdn_ring": self.rings,
                 "add_pdn_connect": self.connects}
        self.commands = [ScriptCommand(words) for words in commands_in(read_text(path))]
        for command in self.commands:
            if command.name not in lists:
                continue
            if command.name == "define_pdn_grid":
                name = command.value("-voltage_domains")
                self._domain_of[id(command)] = self.domain(name) if name else self.domains[-1]
            elif command.name != "set_voltage_domain":
                name = command.value("-grid")
                self._grid_of[id(command)] = self.grid(name) if name else self.grids[-1]
            lists[command.name].append(command)

    def name_of_domain(self, domain):
        return domain.value("-name") or domain.value("-region") or "Core"

    def domain(self, name):
        return next(domain for domain in self.domains if self.name_of_domain(domain) == name)

    def grid(self, name):
        return next(grid for grid in self.grids if grid.value("-name") == name)

    def grid_of(self, command):
        return self._grid_of[id(command)]

    def domain_of(self, grid):
        return self._domain_of[id(grid)]

    def nets_of(self, command):
        """The nets of a stripe or a ring, in the order in which they are drawn."""
        grid = self.grid_of(command)
        domain = self.domain_of(grid)
        if command.has("-nets") and not command.has("-followpins"):
            return command.values("-nets")
        start = command.value("-starts_with") or grid.value("-starts_with") or "GROUND"
        nets = [domain.value("-ground"), domain.value("-power")]
        return nets[::-1] if start == "POWER" else nets

    def all_connects(self):
        """Each two layers that a connect, or a ring with `-add_connect`, joins, with the command, in the order of the script."""
        joined = self.connects + [ring for ring in self.rings if ring.has("-add_connect")]
        return [(command.values("-layers"), command) for command in sorted(joined, key=lambda command: command.word.start)]
