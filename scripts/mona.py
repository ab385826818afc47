"""LTLf formulas as programs for MONA, and the number of locations that MONA's automaton comes to."""
import re

TOKEN = re.compile(r"<->|->|[()!&|]|\w+")
BINARY = [("<->",), ("->",), ("|",), ("&",), ("U", "R")]  # from the loosest to the tightest, each grouped to the right

# What a formula says at the place x of a string, y and z being further places, and the place of each operand.
AT_A_PLACE = {
    "true": ("true", ""),
    "false": ("false", ""),
    "last": ("{x} = max($)", ""),
    "!": ("~({0})", "x"),
    "&": ("({0} & {1})", "xx"),
    "|": ("({0} | {1})", "xx"),
    "->": ("({0} => {1})", "xx"),
    "<->": ("({0} <=> {1})", "xx"),
    "X": ("(ex1 {y}: ({x} < max($) & {y} = {x} + 1 & {0}))", "y"),
    "N": ("(all1 {y}: (({x} < max($) & {y} = {x} + 1) => {0}))", "y"),
    "F": ("(ex1 {y}: ({x} <= {y} & {0}))", "y"),
    "G": ("(all1 {y}: ({x} <= {y} => {0}))", "y"),
    "U": ("(ex1 {y}: ({x} <= {y} & {1} & (all1 {z}: (({x} <= {z} & {z} < {y}) => {0}))))", "zy"),
    "R": ("(all1 {y}: ({x} <= {y} => ({1} | (ex1 {z}: ({x} <= {z} & {z} < {y} & {0})))))", "zy"),
}


class Reader:
    """Reads a formula, by the grammar of docs/FORMATS.md, into tuples of an operator and its operands."""

    def __init__(self, text):
        self.tokens = TOKEN.findall(text)

    def binary(self, level=0):
        if level == len(BINARY):
            return self.unary()
        left = self.binary(level + 1)
        if not self.tokens or self.tokens[0] not in BINARY[level]:
            return left
        operator = self.tokens.pop(0)
        return operator, left, self.binary(level)

    def unary(self):
        token = self.tokens.pop(0)
        if token in ("!", "X", "N", "F", "G"):
            return token, self.unary()
        if token != "(":
            return (token,)
        formula = self.binary()
        self.tokens.pop(0)
        return formula


def holds(formula, number):
    """What the formula says at the place of this number. Operands use higher numbers, and no other place of the formula."""
    operator, *operands = formula
    if operator not in AT_A_PLACE:
        return f"x{number} in V{operator}"
    text, places = AT_A_PLACE[operator]
    inner = [holds(operand, number + "xyz".index(place)) for operand, place in zip(operands, places)]
    return text.format(*inner, x=f"x{number}", y=f"x{number + 1}", z=f"x{number + 2}")


def program(text):
    names = dict.fromkeys(token for token in TOKEN.findall(text) if token.isidentifier() and token not in AT_A_PLACE)
    declared = f"var2 {', '.join('V' + name for name in names)};\n" if names else ""
    return f"m2l-str;\n{declared}ex1 x0: (x0 = 0 & {holds(Reader(text).binary(), 0)});\n"


# MONA's state 0 reads one letter of the Boolean variables. There are none, so it leads to one state, that of the empty
# string, and is no location. No place is in the empty string, so MONA gives its state a third mark, don't-care, and makes
# its automaton least for three marks, where the empty trace is rejected here and two marks are left. So where a rejecting
# state has the same row as that of the empty string, the two are one location. No other state leads to that of the empty
# string, so no further states become equal. Where no string is accepted MONA has that state rejecting, and it stays.
def locations(output):
    """The number of locations that MONA's printed automaton comes to."""
    states = int(re.search(r"Automaton has (\d+) state", output)[1])
    rejecting = re.search(r"Rejecting states:(.*)", output)[1].split()
    rows = {}
    for state, cube, target in re.findall(r"^State (\d+): ?([01X]*) -> state (\d+)$", output, re.M):
        rows.setdefault(state, []).append((cube, target))
    [(_, empty)] = rows["0"]
    merged = any(rows[state] == rows[empty] for state in rejecting if state != empty)
    return states - 1 - merged
