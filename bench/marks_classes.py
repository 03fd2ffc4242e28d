"""The classes of games that bench/marks.py plays: each is a description of what hands do when. None comes of a class if its moves
can't be found in this game."""

from __future__ import annotations

from dataclasses import dataclass
from typing import Callable, Dict, Optional, Sequence, Tuple

from marks_scenes import Deed, Manner, Plan, Scene, Setting, What, begun, replaced, there_and_back

HELD = (4.0, 7.0)  # seconds of what a board sends come at once
AGREE = (2.0, 6.0)  # seconds until players have agreed that plies are taken back
SHUFFLES = 6  # times that both sides move a piece and put it back
LATER = (5, 10)  # plies that are played behind it
FORGOTTEN = 3.0  # of 100 presses
EARLY = 10.0  # of 100 moves
HURRIED = 20  # plies of a game in which some are begun early
STOPPED = (1.0, 6.0)  # seconds after the last move, when the clock is stopped
SHAKEN = (1.0, 4.0)  # seconds in which hands are shaken
TYPED = (5.0, 20.0)  # seconds until the result is typed
PUSHED = (1.5, 0.5)  # seconds until a piece is pushed
SEEN = (2.0, 9.0)  # seconds for which the board is heard behind a result
UNHEARD = (What.PULL, What.OFF)
E4, D5, D4, E5 = 36, 27, 35, 28
SIGNS: Sequence[Tuple[str, Tuple[int, int]]] = (("1-0", (E4, D5)), ("0-1", (E5, D4)), ("1/2-1/2", (E4, D4)))


def whole(setting: Setting, manner: Manner, plies: int = 1000) -> Scene:
    """A game to its end, or so many plies of it."""
    scene = Scene(setting, manner)
    for after in setting.game.pictures[1 : plies + 1]:
        scene.play(after)
    return scene


def honest(setting: Setting) -> Plan:
    return whole(setting, Manner()).plan()


def careless(setting: Setting) -> Plan:
    return whole(setting, Manner(is_careless=True, forgotten=FORGOTTEN)).plan()


def hurried(setting: Setting) -> Plan:
    return whole(setting, Manner(early=EARLY), HURRIED).plan()


def bursts(setting: Setting) -> Plan:
    scene = whole(setting, Manner())
    at = 1.0
    while at < scene.now:
        until = at + scene.chance.uniform(*HELD)
        scene.deeds.append(Deed(at, What.HOLD, until=until))
        at = until + 0.2
    return scene.plan()


def shuffles(setting: Setting, manner: Manner) -> Plan:
    """Both sides move a piece and put it back, again and again."""
    scene = begun(setting, manner)
    for _ in range(SHUFFLES):
        found = there_and_back(scene, 2)
        for after in [*found.out, *found.back] if found else ():
            scene.play(after)
    return scene.plan()


def shuffled(setting: Setting) -> Plan:
    return shuffles(setting, Manner())


def forgetful(setting: Setting) -> Plan:
    return shuffles(setting, Manner(forgotten=FORGOTTEN))


def at_once(setting: Setting) -> Plan:
    return shuffles(setting, Manner(presses=(0.0, 0.3)))


def silent(shortest: float, longest: float, plies: int) -> Callable[[Setting], Optional[Plan]]:
    """The board falls silent, while so many plies lead back: four to the position that it showed, two to one that it had shown two plies
    ago."""

    def plan(setting: Setting) -> Optional[Plan]:
        scene = begun(setting)
        found = there_and_back(scene, 2)
        if found is None:
            return None
        if plies == 2:
            for after in found.out:
                scene.play(after)
        scene.rest(scene.chance.uniform(1.0, 1.5))
        scene.deed(What.OFF)
        since, length = scene.now, scene.chance.uniform(shortest, longest)
        for after in [*(found.out if plies == 4 else ()), *found.back]:
            scene.hurry(after, (length - 0.4) / plies)
        scene.rest(max(0.1, since + length - scene.now))
        scene.deed(What.ON)
        scene.goes_on(scene.chance.randint(*LATER))
        return scene.plan()

    return plan


def agreed(setting: Setting) -> Optional[Plan]:
    """Two plies are taken back, the reply first, and another one is played."""
    scene = begun(setting)
    found = there_and_back(scene, 2)
    if found is None:
        return None
    stood = scene.board
    scene.play(found.out[0])
    scene.play(found.out[1])
    scene.rest(scene.chance.uniform(*AGREE))
    scene.show(found.out[0])
    scene.show(stood)
    scene.take_off(2)
    scene.goes_on(scene.chance.randint(*LATER), found.out[0])
    return scene.plan()


def undone(plies: int) -> Callable[[Setting], Optional[Plan]]:
    """So many plies are undone in the order in which they were played, and another one is played."""

    def plan(setting: Setting) -> Optional[Plan]:
        scene = begun(setting)
        found = there_and_back(scene, plies)
        if found is None:
            return None
        for after in found.out:
            scene.play(after)
        scene.rest(scene.chance.uniform(*AGREE))
        for after in found.back:
            scene.show(after)
        scene.take_off(plies)
        scene.goes_on(scene.chance.randint(*LATER), found.out[0])
        return scene.plan()

    return plan


def exchanged(setting: Setting) -> Optional[Plan]:
    """Both players put the piece that they moved last on another square, first the one who moved first."""
    scene = begun(setting)
    found = replaced(scene)
    if found is None:
        return None
    for after in found.first:
        scene.play(after)
    scene.rest(scene.chance.uniform(*AGREE))
    for after in found.between:
        scene.show(after)
    scene.pictures[-2:] = found.then
    scene.goes_on(scene.chance.randint(*LATER))
    return scene.plan()


def resigns(setting: Setting, pushes: Sequence[int]) -> Scene:
    """The side to move resigns, in half of the games before the other one has pressed; the clock is stopped, hands are shaken, pieces
    pushed, and the result is typed."""
    scene = begun(setting)
    last = setting.game.pictures[len(scene.pictures)]
    scene.play(last, presses=scene.chance.random() < 0.5)
    scene.rest(scene.chance.uniform(*STOPPED))
    scene.deed(What.STOP)
    scene.rest(scene.chance.uniform(*SHAKEN))
    played = list(scene.pictures)
    scene.result = "0-1" if scene.side == 0 else "1-0"
    for _ in range(scene.chance.choice(pushes)):
        scene.push(PUSHED)
    scene.pictures = played
    scene.rest(scene.chance.uniform(*TYPED))
    scene.deed(What.TYPE, line=scene.result)
    return scene


def pushed(setting: Setting) -> Plan:
    return resigns(setting, (0, 1, 2, 3)).plan()


def ended(setting: Setting) -> Plan:
    return resigns(setting, (0,)).plan()


def typed(setting: Setting) -> Plan:
    """The board isn't needed once the result is typed."""
    scene = resigns(setting, (0,))
    scene.rest(scene.chance.uniform(*SEEN))
    scene.deed(scene.chance.choice(UNHEARD))
    return scene.plan()


def signs(is_taken_back: bool) -> Callable[[Setting], Plan]:
    """The kings are set in the centre, and within ten seconds the cable is pulled, or the board falls silent."""

    def plan(setting: Setting) -> Plan:
        scene = begun(setting)
        stood = scene.board
        result, squares = scene.chance.choice(SIGNS)
        scene.rest(scene.chance.uniform(*STOPPED))
        scene.deed(What.STOP)
        scene.kings(squares)
        scene.rest(scene.chance.uniform(*SEEN))
        scene.deed(scene.chance.choice(UNHEARD))
        if is_taken_back:
            scene.puts(stood)
        else:
            scene.result = result
        return scene.plan()

    return plan


@dataclass(frozen=True)
class Class:
    """Games that are played alike."""

    about: str
    plan: Callable[[Setting], Optional[Plan]]
    clocks: Tuple[bool, ...] = (True, False)


CLOCK = (True,)
CLASSES: Dict[str, Class] = {
    "honest": Class("honest hands", honest),
    "careless": Class("careless hands, 3 of 100 presses forgotten", careless),
    "shuffled": Class("pieces are shuffled, all presses made", shuffled),
    "forgetful": Class("pieces are shuffled, 3 of 100 presses forgotten", forgetful, CLOCK),
    "at-once": Class("pieces are shuffled, pressed within 0.3 s", at_once, CLOCK),
    "bursts": Class("honest hands, bytes come in bursts of 4 to 7 s", bursts),
    "silent-4": Class("silent for 2.6 to 4 s, four plies lead back", silent(2.6, 4, 4)),
    "silent-8": Class("silent for 5 to 8 s, four plies lead back", silent(5, 8, 4)),
    "silent-16": Class("silent for 9 to 16 s, four plies lead back", silent(9, 16, 4)),
    "silent-two": Class("silent for 2 to 16 s, two plies go back", silent(2, 16, 2)),
    "agreed": Class("two plies taken back, the reply first", agreed),
    "hurried": Class("10 of 100 moves begun early", hurried),
    "replaced": Class("two plies replaced, nobody presses", exchanged, CLOCK),
    "undone-4": Class("four plies undone in order, nobody presses", undone(4), CLOCK),
    "undone-2": Class("two plies undone in order, nobody presses", undone(2), CLOCK),
    "pushed": Class("resigned, 0 to 3 plies pushed, result typed", pushed),
    "ended": Class("resigned, result typed", ended),
    "ended-pulled": Class("resigned, result typed, not heard any more", typed),
    "kings-back": Class("kings in the centre, taken back unseen", signs(True)),
    "kings-stay": Class("kings in the centre, not heard any more", signs(False)),
}
