"""The numbers of faults and the words that are printed beside them."""

WORDS = {
    "E101": "Short", "E102": "BadLength", "E103": "BadSum", "E104": "BadSignature", "E105": "BadEntry",
    "E201": "Truncated", "E202": "BadPkgLength", "E203": "BadName", "E204": "UnknownOpcode", "E205": "TooDeep",
    "E206": "BadString", "E207": "Overrun", "E208": "TooLarge", "E209": "ModuleCode",
    "E301": "Duplicate", "E302": "ScopeMissing", "E303": "TooMany", "E304": "AliasMissing",
    "E501": "BadKinds", "E511": "BadRegs",
    "E520": "CommandLine", "E521": "BadArgs", "E522": "ArgsDontFit", "E523": "File", "E524": "NoMemory",
    "E525": "NoSuchObject",
}


class Fault(Exception):
    """A fault: its number, the numbers that are printed behind its word (table, place, line), and what people are told."""

    def __init__(self, number, *places, note=""):
        super().__init__(number, *places)
        self.number = number
        self.places = places
        self.note = note

    def line(self):
        """The line that the program ends with."""
        return " ".join(["fault", self.number, WORDS[self.number], *map(str, self.places)])
