"""An answer's picture, drawn a second time for tests/screen: block by block with format strings, from the words of README ("The screen") alone."""

RULE = "+" + "-" * 42 + "+\n"

WORDS = {
    1: "the block's form is wrong",
    2: "unknown kind or number out of range",
    3: "n is not the next",
    4: "wrong moment",
    5: "the seat isn't as asked",
    6: "not that seat's turn",
    7: "amount or act not allowed by Betting",
    8: "a card already in this hand",
    9: "sit: more than 100,000,000 chips",
    10: "a live seat has no cards entered",
    11: "the sheet is bad",
    12: "the answer sheet is too short",
    13: "put right, an entry would be refused",
    14: "a shared pool: nothing is put right",
    15: "the stored log is full",
    16: "the proposal does not pay exactly",
    17: "the proposer leaves something unpaid",
}

DIGITS = [
    [" ### ", "#   #", "#   #", "#   #", " ### "],
    ["  #  ", " ##  ", "  #  ", "  #  ", " ### "],
    ["#### ", "    #", " ### ", "#    ", "#####"],
    ["#### ", "    #", " ### ", "    #", "#### "],
    ["#  # ", "#  # ", "#####", "   # ", "   # "],
    ["#####", "#    ", "#### ", "    #", "#### "],
    [" ### ", "#    ", "#### ", "#   #", " ### "],
    ["#####", "    #", "   # ", "  #  ", "  #  "],
    [" ### ", "#   #", " ### ", "#   #", " ### "],
    [" ### ", "#   #", " ####", "    #", " ### "],
]


def blocks_in(answers):
    """The blocks of a run's answers, each a list of (key, number)."""
    blocks = []
    for line in answers.decode().splitlines():
        key, number = line.split("=")
        if key == "n" or not blocks:
            blocks.append([])
        blocks[-1].append((key, int(number)))
    return blocks


def row(label, number="", amount=""):
    number = f"{number:,}" if number != "" else ""
    amount = f"{amount:,}" if isinstance(amount, int) else amount
    return f"| {label:<10}{number:>11}{amount:>19} |\n"


def lamp(seat):
    if seat == 0:
        return row("turn", amount="nobody")
    figures = [DIGITS[int(figure)] for figure in str(seat)]
    rows = [" ".join(figure[line] for figure in figures) for line in range(5)]
    return row("turn", amount=rows[0]) + "".join(row("", amount=cells) for cells in rows[1:])


def verdict(code):
    return f"| {f'{code}: {WORDS[code]}':<40} |\n" if code else ""


def drawn(block):
    """The picture of one block."""
    numbers = dict(block)
    code = numbers["code"]
    if "n" not in numbers:
        return RULE + row("code", amount="REFUSED") + verdict(code) + RULE
    picture = RULE + row("entry", numbers["n"], "REFUSED" if code else "taken") + verdict(code)
    picture += lamp(numbers["turn"]) + row("mark", amount=numbers["mark"])
    pots = [amount for key, amount in block if key == "pot"]
    picture += "".join(row("pot", place, amount) for place, amount in enumerate(pots, 1))
    picture += row("back", amount=numbers["back"]) + RULE
    if "fee" in numbers:
        picture += row("fee", amount=numbers["fee"])
        picture += row("jackpot", amount=numbers["jackpot"]) if "jackpot" in numbers else ""
        sittings = [number for key, number in block if key == "sitting"]
        paid = [number for key, number in block if key == "paid"]
        picture += "".join(row("sitting", *pair) for pair in zip(sittings, paid, strict=True))
        picture += row("unclaimed", amount=numbers["unclaimed"]) + RULE
    return picture


def picture_of(answers):
    return "".join(map(drawn, blocks_in(answers))).encode()
