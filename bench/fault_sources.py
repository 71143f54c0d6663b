"""Random sources, most of which have some faults."""

from fault_rules import OPERATIONS


def card(form_type, *values):
    columns = [" "] * 80
    columns[5] = form_type
    for column, text in values:
        columns[column - 1 : column - 1 + len(text)] = text
    return "".join(columns)[:80].rstrip()


FIELDS = ["QTY", "PRICE", "ITEM", "REGION", "AMOUNT"]
RESULTS = ["SUM", "VALUE", "TOTAL", "COUNT", "X"]
NAMES = FIELDS + RESULTS + ["AR", "TABA", "TABB", "LIST", "UDATE", "PAGE", "NONE"]
ENTRIES = NAMES + [
    "AR,1", "AR,X", "AR,9", "LIST,2", "LIST,X", "AR,0", "SUM,1", "TABA,1", "AR,ITEM", "AR,UDATE", "AR,PAGE",
]
SHORT_ENTRIES = [it for it in ENTRIES if len(it) <= 6]
MARKS = ["01", "21", "99", "L1", "L0", "LR", "1P", "MR", "OF", "H1", ""]
CONDITIONS = ["", "", " 01", "N21", " L1", " LR", " 1P", " MR", " H1", " OF"]
LITERALS = ["1", "05", "-1.50", "'A'", "'IT''S'", "+5", ".5"]
LABEL_NAMES = ["NEXT", "AGAIN", "SUB", "SUB2", "AWAY", "SUM"]
TEXTS = ["", "", "'*'", "'$'", "'TOTAL'", "'  0.  '", "'   '", "'     '", "' $0  '", "'**'"]


def right(text, width):
    return str(text).rjust(width)


class Source:
    """A random source, good or nearly so, and changes of it that leave each card readable."""

    def __init__(self, by):
        self.by = by
        self.cards = []
        self.data = []
        # a secondary file, match levels, or both
        self.has_secondary = by.random() < 0.3
        self.has_matches = by.random() < 0.3

    def any(self, *values):
        return self.by.choice(values)

    def mostly(self, good, others):
        return self.by.choice(good if self.by.random() < 0.85 else others)

    def made(self):
        self.files()
        self.tables()
        if self.form:
            self.put("L", self.form)
        self.types()
        self.calculations()
        self.lines()
        for _ in range(self.by.randrange(0, 4)):
            self.change()
        return [it for _, it in self.cards] + self.data

    def put(self, kind, text):
        self.cards.append((kind, text))

    def files(self):
        if self.by.random() < 0.3:
            self.put("H", card("H", (7, "SALES")))
        end = self.any("E", " ")
        self.put("F", self.file("INPUT", "P", end))
        if self.has_secondary:
            self.put("F", self.file("SECOND", "S", self.mostly([end], ["E", " "])))
        has_form = self.by.random() < 0.3
        self.put("F", card("F", (7, "PRINT"), (15, "O"), (19, "F"), (24, " 120"), (39, self.mostly("L" if has_form else " ", "L ")), (40, "PRINTER")))
        if self.by.random() < 0.4:
            self.put("F", card("F", (7, "MASTER"), (15, "O"), (19, "F"), (24, "  32"), (40, "DISK45")))
        self.form = card("L", (7, "PRINT"), (15, self.any("066FL060OL", "033FL030OL", "112FL105OL"))) if has_form else ""

    def file(self, name, use, end):
        length = right(self.any(30, 80, 300 if self.has_matches else 80), 4)
        return card("F", (7, name), (15, "I" + use), (17, end), (19, "F"), (24, length), (40, "DISK"))

    def tables(self):
        if self.by.random() < 0.9:
            self.put("E", card("E", (27, "AR"), (36, right(self.any(3, 5, 12), 4)), (40, "  3"), (44, "0")))
        if self.by.random() < 0.9:
            per_card, entries = self.any(2, 3, 5), self.any(3, 5)
            ascending = self.any("A", " ")
            self.put(
                "E",
                card(
                    "E", (27, "TABA"), (33, right(per_card, 3)), (36, right(entries, 4)), (40, "  2"), (44, "0"),
                    (45, ascending), (46, "TABB"), (52, "  1"),
                ),
            )
            self.data.append("**")
            values = [f"{10 * i + self.by.randrange(9):02}{self.any('A', 'B', ' ')}" for i in range(entries)]
            for at in range(0, entries, per_card):
                self.data.append("".join(values[at : at + per_card]).ljust(1))
        if self.by.random() < 0.9:
            self.put("E", card("E", (27, "LIST"), (33, "  4"), (36, "   4"), (40, "  5"), (45, self.any("A", " "))))
            self.data += ["**", "ALPHABETA GAMMAOMEGA"]
        if self.by.random() < 0.1:
            self.data += ["**", "1"]

    def types(self):
        for kind in range(self.any(1, 1, 2) + self.has_secondary):
            codes = [(21, self.any("   1 CA", "   1NCB", "  40 C "))] if kind else []
            self.put(
                "I",
                card(
                    "I", (7, "INPUT" if kind == 0 else self.any("INPUT", "", *["SECOND"] * (3 * self.has_secondary))), (15, "AA"),
                    (19, self.any("01", "02", "")), *codes,
                ),
            )
            if self.by.random() < 0.2:
                self.put("AND", card("I", (14, "AND"), (21, "   2 CX")))
            column = 1
            for at, name in enumerate(FIELDS[: self.by.randrange(1, 6)]):
                length = self.any(1, 3, 5)
                self.put("field", self.field(name, column, column + length - 1, self.match(at)))
                column += length
            if self.has_matches and self.by.random() < 0.2:
                self.put("field", self.field("LONG", column, column + self.any(150, 252) - 1, "M3"))

    def match(self, at):
        """The match level of a type's field, mostly M2 and M1 of the first two."""
        usual = ("M2", "M1", "", "", "")[at]
        return self.mostly([usual], ["", "M1", "M2"]) if self.has_matches else ""

    def field(self, name, first, last, match=""):
        decimals = "" if name in ("ITEM", "REGION", "LONG") else self.any("0", "0", "2" if last > first else "0")
        level = self.any("", "", "", "L1", "L2")
        mark = self.any("", "", "21")
        return card(
            "I", (44, right(first, 4)), (48, right(last, 4)), (52, decimals), (53, name), (59, level), (61, match), (69, mark),
        )

    def calculations(self):
        for name, length, decimals in (("SUM", 9, 2), ("VALUE", 7, 0), ("TOTAL", 9, 2), ("COUNT", 5, 0), ("X", 2, 0)):
            if self.by.random() < 0.95:
                self.put(
                    "C",
                    card("C", (28, "Z-ADD"), (33, "0"), (43, name), (49, right(length, 3)), (52, str(decimals))),
                )
        for _ in range(self.by.randrange(0, 7)):
            self.group(self.any("", "", "", "L0", "LR"))
        for name in self.by.sample(["SUB", "SUB2"], self.by.randrange(0, 3)):
            self.put("C", card("C", (7, "SR"), (18, name), (28, "BEGSR")))
            for _ in range(self.by.randrange(0, 3)):
                self.group("SR")
            self.put("C", card("C", (7, "SR"), (18, self.any("", "", "OUT")), (28, "ENDSR")))

    def group(self, control):
        further = self.any(0, 0, 0, 0, 1, 2)
        for at in range(further + 1):
            own = control if at == 0 else self.any("AN", "OR")
            conditions = (9, self.any(" 01", "N21", " LR") if further else self.any("", "", " 01"))
            values = self.operation() if at == further else ()
            self.put("C", card("C", (7, own), conditions, *values))

    def operation(self):
        result = (43, self.mostly(RESULTS, NAMES))
        sized = [(49, "  7"), (52, "0")] if self.by.random() < 0.1 else []
        value = (33, self.mostly(RESULTS + ["QTY", "PRICE", "1", "05"], ENTRIES + LITERALS))
        compared = self.mostly(["QTY", "SUM"], FIELDS)
        kinds = [
            [
                (28, self.any("ADD", "SUB", "MULT", "DIV")), (18, self.mostly(["", "SUM", "QTY"], ENTRIES)), value,
                result, *sized, (53, self.any("", "", "H")),
            ],
            [(28, self.any("ADD", "DIV")), (18, self.any("", "TOTAL")), value, result],
            [(28, self.any("Z-ADD", "Z-SUB")), value, result, *sized],
            [(28, "MVR"), result],
            [(28, "XFOOT"), (33, self.mostly(["AR"], ["LIST", "SUM", "AR,1", "TABA", "1"])), result],
            [(28, self.any("MOVE", "MOVEL")), (33, self.mostly(RESULTS, ENTRIES + LITERALS)), result, *sized],
            [
                (28, "COMP"), (18, compared), (33, self.mostly(["VALUE", "1"], ENTRIES + LITERALS)),
                (54, self.mostly(["21", "H1"], MARKS)), (58, self.any("22", "")),
            ],
            [
                (28, "LOKUP"), (18, compared),
                (33, self.mostly(["TABA", "AR"], ["AR,X", "AR,QTY", "LIST,1", "SUM", "TABB"])),
                (43, self.any("", "", "TABB", "AR")), (54, self.any("", "", "23")), (58, "24"),
            ],
            [(28, self.any("SETON", "SETOF")), (54, self.mostly(["21"], MARKS)), (56, self.any("25", ""))],
            [(28, "GOTO"), (33, self.any(*LABEL_NAMES))],
            [(28, "EXSR"), (33, self.mostly(["SUB", "SUB2"], LABEL_NAMES))],
            [(28, "TAG"), (18, self.any(*LABEL_NAMES))],
            [(28, "EXCPT")],
        ]
        return self.by.choice(kinds)

    def lines(self):
        for at in range(self.by.randrange(1, 4)):
            file = "PRINT" if at == 0 else self.any("PRINT", "", "MASTER")
            self.put(
                "line",
                card(
                    "O", (7, file), (15, self.any(*"HDTE")), (17, self.any("", "1", "")),
                    (19, self.mostly([""], ["", "30", "66", "A5"]) if file != "MASTER" else ""), (23, self.mostly(["", " 01", " LR"], CONDITIONS)),
                ),
            )
            if self.by.random() < 0.2:
                self.put("or", card("O", (14, self.any("OR", "AND")), (23, self.any(" 01", " OF"))))
            for _ in range(self.by.randrange(0, 4)):
                self.put("out", self.out())

    def out(self):
        name = self.mostly(["SUM", "VALUE", "TOTAL", "QTY", "AR,1", "PAGE", "UDATE"], SHORT_ENTRIES + ["", "ITEM"])
        code, text = self.mostly(
            [("", ""), ("1", ""), ("J", "'*'"), ("A", "'$'"), ("Z", "")],
            [("", it) for it in TEXTS] + [(it, "'*'") for it in "XYZ1"],
        )
        if not name:
            code, text = "", self.any("'TOTAL'", "'IT''S'", "")
        blank_after = self.mostly([""], ["B"])
        return card(
            "O", (23, self.mostly(["", " 01"], CONDITIONS)), (32, name), (38, code), (39, blank_after),
            (40, right(self.mostly([20, 40], [4, 10, 120]), 4)), (45, text),
        )

    # ---- changes: values of other kinds in the columns of a card, and cards that are left out or doubled

    CHANGES = {
        "F": [
            (24, 27, ["   0", "9999", " 133", "  29"]), (7, 14, ["INPUT", "PRINT", "OTHER", "SECOND"]), (17, 17, ["E", " "]),
            (40, 46, ["PRINTER", "DISK"]),
        ],
        "E": [
            (27, 32, ["AR", "TABA", "QTY", "X", "UDATE"]), (33, 35, ["   ", "  0", "  1", " 50", "  3"]),
            (36, 39, ["   0", "   4", "  12"]), (40, 42, [" 16", "  3", "  9"]), (44, 44, [" ", "0", "9"]),
        ],
        "L": [(7, 14, ["INPUT", "MASTER", "OTHER"]), (15, 17, ["003", " 12", "112"]), (20, 22, ["001", " 34", "112"])],
        "I": [
            (7, 14, ["INPUT", "PRINT", "OTHER", "SECOND", "        "]), (19, 20, ["L0", "1P", "LR", "H3", "OA"]),
            (21, 27, ["   0 CA", "  81 CA", "   5NC1"]),
        ],
        "AND": [(21, 27, ["   0 CA", "  81 CA"])],
        "field": [
            (44, 47, ["   0", "   9", "  70"]), (48, 51, ["   0", "   2", "  81", "  30", " 300"]),
            (52, 52, [" ", "0", "9"]), (53, 58, ["QTY", "ITEM", "SUM", "NEXT", "UDATE", "PAGE"]),
            (59, 60, ["  ", "L1", "L2"]), (61, 62, ["  ", "M1", "M2", "M9"]), (65, 66, ["  ", "21", "L0"]), (67, 68, ["  ", "22"]),
            (69, 70, ["MR", "01"]),
        ],
        "C": [
            (7, 8, ["  ", "L0", "L1", "LR", "SR", "AN", "OR"]),
            (9, 11, CONDITIONS[1:]),
            (18, 27, ENTRIES + LITERALS + LABEL_NAMES + [""]),
            (28, 32, list(OPERATIONS) + [""]),
            (33, 42, ENTRIES + LITERALS + LABEL_NAMES + [""]),
            (43, 48, ENTRIES + [""]),
            (49, 51, ["   ", "  0", " 16", "  5", "300"]),
            (52, 52, [" ", "0", "9"]),
            (53, 53, [" ", "H"]),
            (54, 55, MARKS[:-1] + ["  "]),
            (58, 59, MARKS[:-1] + ["  "]),
        ],
        "line": [
            (7, 14, ["INPUT", "MASTER", "OTHER", "        "]), (17, 22, ["      ", "1     ", "  06  ", "  34  ", "    67", "  A0  "]),
            (23, 25, CONDITIONS),
        ],
        "or": [(23, 25, CONDITIONS[2:])],
        "out": [
            (32, 37, ENTRIES + [""]), (38, 38, [" "] + list("1ABJXYZ")), (39, 39, [" ", "B"]),
            (40, 43, ["   0", "   1", " 133", "  33"]), (45, 70, TEXTS), (23, 25, CONDITIONS),
        ],
    }

    def change(self):
        at = self.by.randrange(len(self.cards))
        kind, text = self.cards[at]
        how = self.by.random()
        if how < 0.12:
            del self.cards[at]
        elif how < 0.2:
            self.cards.insert(at, (kind, text))
        elif how < 0.3 and at > 0 and self.cards[at - 1][1][5] == text[5]:
            self.cards[at - 1], self.cards[at] = self.cards[at], self.cards[at - 1]
        elif kind in self.CHANGES:
            first, last, values = self.by.choice(self.CHANGES[kind])
            width = last - first + 1
            value = self.by.choice([it for it in values if len(it) <= width]).ljust(width)
            self.cards[at] = (kind, (text.ljust(80)[: first - 1] + value + text.ljust(80)[last:]).rstrip())
        if not self.cards:
            self.put("H", card("H"))


def spoiled(by, source):
    """Cards that can't be read, among the others."""
    source = list(source)
    for _ in range(by.randrange(1, 5)):
        at = by.randrange(len(source))
        text = source[at].ljust(80)
        where = {"H": 30, "F": 15, "E": 38, "I": 30, "C": 30, "O": 42}.get(text[5], 30)
        source[at] = by.choice(
            [
                text + "A",
                text[:9] + "\t" + text[10:],
                text[:5] + by.choice("Xx ") + text[6:],
                text[:5] + by.choice("FLIO") + text[6:29] + "?" + text[30:],
                text[: where - 1] + "?" + text[where:],
            ]
        )
    return source


def made(by):
    source = Source(by).made()
    if by.random() < 0.125:
        source = spoiled(by, source)
    return source
