"""The players and the tables of the tournament of broadcast_trial.py, as pairing programs write them."""

from __future__ import annotations

from typing import List, Tuple

BOARDS = 8
PLAYERS = (
    ("Ünal, Ben", "2512", "GM"), ("Иванов, Пётр", "2431", "IM"), ("Γεωργίου, Νίκος", "1987", ""),
    ("王浩", "2102", "CM"), ("Ott, Dora", "2210", "WFM"), ("Kern, Anna", "2250", "WIM"), ("Sand, Finn", "2000", ""),
    ("Tau, Gerd", "1900", ""),
    ("Uhl, Hans", "1800", ""), ("Voss, Ida", "1750", ""), ("Wolf, Jan", "2301", "FM"), ("Zorn, Kai", "", ""),
    ("Abel, Lea", "1999", ""), ("O'Neill, Sean", "2333", "FM"), ("Ødegård, Åse", "2050", ""), ("Pérez Núñez, José", "2404", "IM"),
)  # fmt: skip
Player = Tuple[str, str, str]
# What stands in front of each table, its headings, and what divides its columns; of a line: board, White, Black.
TABLES = {
    1: ("Round 1 on 2026/11/24\n", ("Bo.", "", "White", "Rtg", "Result", "", "Black", "Rtg"), ";", "utf-8-sig"),
    2: ("", ("Br.", "Titel", "Weiß", "Elo", "Ergebnis", "Titel", "Schwarz", "Elo"), "\t", "utf-16"),
    3: ("Ronde 3\n\n", ("Éch.", "Titre", "Blancs", "Elo", "Rés.", "Titre", "Noirs", "Elo"), ",", "utf-8"),
}


def pairs(number: int) -> List[Tuple[Player, Player]]:
    """Those of a round: each other player is moved on, and colours change."""
    turned = PLAYERS[:1] + PLAYERS[1 + 3 * number :] + PLAYERS[1 : 1 + 3 * number]
    both = [(turned[board], turned[-1 - board]) for board in range(BOARDS)]
    return [(white, black) if (board + number) % 2 else (black, white) for board, (white, black) in enumerate(both)]


def table(number: int) -> bytes:
    """As a pairing program writes it."""
    front, headings, between, encoding = TABLES[number]
    lines = [between.join(headings)]
    for board, (white, black) in enumerate(pairs(number), 1):
        fields = (str(board), white[2], white[0], white[1], "", black[2], black[0], black[1])
        lines.append(between.join(f'"{field}"' if between in field else field for field in fields))
    return (front + "\n".join(lines) + "\n").encode(encoding)
