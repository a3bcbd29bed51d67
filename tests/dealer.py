"""The dealer's table drawn a second time for tests/view, from the log and the second program's answers: a notebook of who sits where and what each put in,
kept by the rules of README alone, and each picture laid out with format strings."""

from drawer import DIGITS, WORDS
from witness import SECOND, SHEET_LINES, run

ROWS, COLUMNS = 23, 79
KINDS = "sit leave hand hole fold check call wager board dead settle void".split()


class Sitter:
    """Somebody at a seat, or nobody (number 0)."""

    def __init__(self, number=0, stack=0):
        self.number, self.stack = number, stack


class Hand:
    """What a sitting has in the open hand."""

    def __init__(self, sitter):
        self.sitter, self.total, self.round = sitter, 0, 0
        self.live, self.killed, self.spent, self.cards = True, False, False, 0

    def pay(self, chips):
        chips = min(chips, self.sitter.stack)
        self.sitter.stack -= chips
        self.total += chips
        self.round += chips


class Notebook:
    """Who sits where with what, and the open hand, folded from the entries that were taken."""

    def __init__(self, sheet):
        self.sheet = sheet
        self.sitters = {seat: Sitter() for seat in range(1, sheet["seats"] + 1)}
        self.hands, self.board, self.open = {}, [], False
        self.sittings = self.puck = self.mark = self.lift = self.turn = self.back = 0
        self.pots, self.paid = [], None

    def take(self, kind, seat, a):
        getattr(self, kind, lambda seat, a: None)(seat, a)

    def sit(self, seat, a):
        self.sittings += 1
        self.sitters[seat] = Sitter(self.sittings, a)

    def leave(self, seat, a):
        self.sitters[seat] = Sitter()

    def hand(self, seat, a):
        self.hands = {s: Hand(sitter) for s, sitter in self.sitters.items() if sitter.stack > 0}
        self.board, self.open, self.puck, self.paid = [], True, seat, None
        dealt = sorted(self.hands)
        behind = dealt[(dealt.index(seat) + 1) % len(dealt)]
        self.hands[seat].pay(self.sheet["small"])
        self.hands[behind].pay(self.sheet["big"])
        self.lift = self.sheet["big"]

    def hole(self, seat, a):
        self.hands[seat].cards += 2

    def fold(self, seat, a):
        self.hands[seat].live = False

    def dead(self, seat, a):
        self.hands[seat].live, self.hands[seat].killed = False, True

    def check(self, seat, a):
        self.hands[seat].spent = True

    def call(self, seat, a):
        self.hands[seat].pay(self.mark_before - self.hands[seat].round)
        self.hands[seat].spent = True

    def wager(self, seat, a):
        rise = a - self.mark_before
        if rise >= self.lift:
            self.lift = rise
            for hand in self.hands.values():
                hand.spent = False
        self.hands[seat].pay(a - self.hands[seat].round)
        self.hands[seat].spent = True

    def board_card(self, a):
        self.board.append(a)
        if len(self.board) >= 3:
            self.lift = self.sheet["big"]
            for hand in self.hands.values():
                hand.round, hand.spent = 0, False

    def settle(self, answer):
        paid = dict(zip((n for k, n in answer if k == "sitting"), (n for k, n in answer if k == "paid"), strict=True))
        numbers = dict(answer)
        rows = {}
        for seat, hand in self.hands.items():
            chips = paid.pop(hand.sitter.number)
            rows[seat] = (hand.sitter.number, chips)
            hand.sitter.stack += chips
        assert not paid
        self.paid = {"fee": numbers["fee"], "drop": numbers.get("drop", 0), "unclaimed": numbers["unclaimed"], "rows": rows}
        self.hands, self.open = {}, False

    def hear(self, block, answer):
        """An entry that was taken, with its answer."""
        numbers = dict(answer)
        if numbers["code"] == 0:
            _, kind, seat, a, _ = (line.split("=")[1] for line in block.decode().splitlines())
            self.mark_before = self.mark
            if kind == "board":
                self.board_card(int(a))
            elif kind == "settle":
                self.settle(answer)
            else:
                self.take(kind, int(seat), int(a))
        self.turn, self.mark, self.back = numbers["turn"], numbers["mark"], numbers["back"]
        self.pots = list(zip((n for k, n in answer if k == "pot"), self.contenders(), strict=True))

    def contenders(self):
        """The seats that contest each pot, height by height: of heights between two totals the uppermost stands for all."""
        runs = []
        for height in sorted({hand.total for hand in self.hands.values()} - {0}):
            reach = [seat for seat, hand in self.hands.items() if hand.total >= height]
            seats = [seat for seat in sorted(reach) if self.hands[seat].live]
            if len(reach) >= 2 and seats and (not runs or runs[-1] != seats):
                runs.append(seats)
        return runs

    def least(self):
        """The least wager of the seat in turn, by trying: the first amount that Betting allows."""
        if not self.turn:
            return None
        hand = self.hands[self.turn]
        whole = hand.round + hand.sitter.stack
        allowed = [a for a in (self.mark + self.lift, whole) if self.mark < a <= whole and (a == whole or a >= self.mark + self.lift)]
        return min(allowed) if allowed and not hand.spent else None

    def word(self, seat):
        sitter, hand = self.sitters[seat], self.hands.get(seat)
        if hand and hand.sitter is sitter:
            if hand.live:
                return "live" if sitter.stack else "all-in"
            return "dead" if hand.killed else "folded"
        if sitter.number:
            return "waits" if sitter.stack else "no chips"
        return "left" if hand else "empty"


# ---- the picture


class Grid:
    def __init__(self):
        self.rows = [[" "] * COLUMNS for _ in range(ROWS)]

    def put(self, row, column, text):
        text = str(text)
        assert 0 <= row < ROWS and column + len(text) <= COLUMNS, (row, column, text)
        self.rows[row][column : column + len(text)] = text

    def text(self):
        return "".join("".join(row) + "\n" for row in self.rows)


def number(n):
    return f"{n:>11,}"


def card(k):
    return "23456789TJQKA"[k // 4] + "cdhs"[k % 4]


def verdict(grid, label, n, code):
    grid.put(0, 0, label + ("" if n is None else number(n)))
    grid.put(0, 18, f"REFUSED  {code}: {WORDS[code]}" if code else "taken")


def lamp_rows(seat):
    figures = [DIGITS[int(figure)] for figure in str(seat)]
    return [f"{' '.join(figure[line] for figure in figures):>11}" for line in range(5)]


def table(grid, book):
    grid.put(1, 0, "turn")
    if book.turn:
        for line, cells in enumerate(lamp_rows(book.turn), 1):
            grid.put(line, 6, cells)
    else:
        grid.put(1, 6, "nobody")
    grid.put(1, 20, "board")
    grid.put(1, 34, " ".join(map(card, book.board)))
    least = book.least()
    for line, (label, text) in enumerate([("mark", number(book.mark)), ("least wager", f"{'none':>11}" if least is None else number(least)), ("goes back", number(book.back))], 2):
        grid.put(line, 20, f"{label:<11}{text}")
    seats(grid, book)
    if book.pots:
        grid.put(17, 0, "pots, each with the seats that contest it")
    for place, (chips, who) in enumerate(book.pots):
        text = f"{place + 1:>2}{number(chips)}  " + "".join(f"{seat if seat in who else '':>2}" for seat in range(1, 11))
        grid.put(18 + place % 5, 40 * (place // 5), text)
    if book.paid:
        grid.put(1, 50, "settled")
        lines = [("fee", book.paid["fee"]), ("unclaimed", book.paid["unclaimed"])] + [("drop", book.paid["drop"])] * bool(book.paid["drop"])
        for line, (label, chips) in enumerate(lines, 2):
            grid.put(line, 50, f"{label:<11}{number(chips)}")


def seats(grid, book):
    grid.put(6, 0, "seat     sitting      stack state  cards")
    if book.open:
        grid.put(6, 40, " this round  this hand by sitting")
    if book.paid:
        grid.put(6, 40, "                  paid to sitting")
    for seat, sitter in book.sitters.items():
        hand, paid = book.hands.get(seat), book.paid and book.paid["rows"].get(seat)
        who = number(sitter.number) + number(sitter.stack) if sitter.number else " " * 22
        mark = "P" if seat == book.puck else ""
        row = f"{'>' if seat == book.turn else '':1}{seat:>2} {mark:1}{who} {book.word(seat):<8}{'*' * hand.cards if hand else '':<4}"
        if hand:
            row += number(hand.round) + number(hand.total) + number(hand.sitter.number) + (" left" if hand.sitter is not sitter else "")
        if paid:
            row += " " * 11 + number(paid[1]) + number(paid[0]) + (" left" if paid[0] != sitter.number else "")
        grid.put(6 + seat, 0, row)


def answers_of(log):
    """The second program's answers, each a list of (key, number)."""
    found = []
    for line in run(SECOND, log)[1].decode().splitlines():
        key, value = line.split("=")
        if key == "n" or not found:
            found.append([])
        found[-1].append((key, int(value)))
    return found


def pictures_of(log):
    """The pictures of a log, each with its lamp's seat and its code: of the sheet, of each block, and of an end inside a hand, a block or the sheet."""
    answers = answers_of(log)
    lines = log.split(b"\n")
    ended = lines[-1:] == [b""]
    lines = [line + b"\n" for line in lines[:-1]] + ([] if ended else [lines[-1]])
    pictures = []

    def add(book, label, n, code, end=None):
        grid = Grid()
        verdict(grid, label, n, code)
        if book:
            table(grid, book)
        if end is not None:
            grid.put(5, 20, "the log ends" + (" inside a hand" if end else ""))
        pictures.append((grid.text(), book.turn if book else 0, code))

    if answers and answers[0] == [("code", 11)]:
        whole = len(lines) > SHEET_LINES or len(lines) == SHEET_LINES and ended
        add(None, "sheet", None, 11, None if whole else False)
        return pictures
    sheet = {key.decode(): int(value) for key, value in (line.split(b"=") for line in lines[:SHEET_LINES])}
    book = Notebook(sheet)
    add(book, "sheet", None, 0)
    blocks = [b"".join(lines[at : at + 5]) for at in range(SHEET_LINES, len(lines), 5)]
    assert len(blocks) == len(answers)
    for place, (block, answer) in enumerate(zip(blocks, answers)):
        book.hear(block, answer)
        numbers = dict(answer)
        cut = place == len(blocks) - 1 and block.count(b"\n") < 5
        add(book, "entry", numbers["n"], numbers["code"], book.open if cut else None)
    if book.open and not (blocks and blocks[-1].count(b"\n") < 5):
        numbers = dict(answers[-1])
        add(book, "entry", numbers["n"], numbers["code"], True)
    return pictures


def plain(log):
    """What bin/view writes where the output is no terminal."""
    return "".join(text + "\n" for text, _, _ in pictures_of(log)).encode()


def standing(log, colour=True):
    """What it writes on a terminal."""
    out = ""
    for text, turn, code in pictures_of(log):
        out += "\x1b[H\x1b[J" + text
        if colour and turn:
            for line, cells in enumerate(lamp_rows(turn), 2):
                out += f"\x1b[{line};7H\x1b[1;33m{cells}\x1b[0m"
        if colour and code:
            words = f"{code}: {WORDS[code]}"
            out += f"\x1b[1;19H\x1b[1;31mREFUSED  {words:<40}\x1b[0m"
        if colour:
            out += "\x1b[24;1H"
    return out.encode()
