"""Schedules of a script, made by playing it: only turns that move are taken down."""
import itertools

from scene import BLOCKED, ENDED
from turns import Game

# A script has at most so many turns.
MOST_TURNS = 65_536


class Players:
    """All actors of a plan over one scene, as the second reading has them, and what they are called."""

    def __init__(self, plan, names):
        self.game = Game(plan)
        queues = range(len(plan.modes))
        self.actors = {'host': ('host', None)}
        self.actors |= {f'S:{names[queue]}': ('S', queue) for queue in queues if plan.modes[queue] == b'threaded'}
        self.actors |= {f'R:{names[queue]}': ('R', queue) for queue in queues}
        self.turns, self.ended = [], set()

    def move(self, actor):
        """A turn of an actor: whether it moved."""
        text = self.game.turn(*self.actors[actor])
        if text == ENDED:
            self.ended.add(actor)
        if text in (BLOCKED, ENDED):
            return False
        self.turns.append(actor)
        return True

    def left(self):
        return [actor for actor in self.actors if actor not in self.ended]

    def is_over(self):
        return len(self.ended) == len(self.actors) or len(self.turns) >= MOST_TURNS


def round_by_round(players, count=1):
    """Each actor has some turns, again and again."""
    while not players.is_over():
        moved = [players.move(actor) for actor in players.left() for _ in range(count)]
        if not any(moved) and players.left():
            return


def at_random(players, dice):
    """Actors in any order, some of whom are much slower than others."""
    weights = {actor: dice.choice([1, 1, 2, 6, 20]) for actor in players.actors}
    while not players.is_over():
        able = players.left()
        while able:
            actor = dice.choices(able, [weights[each] for each in able])[0]
            if players.move(actor):
                break
            able.remove(actor)
        else:
            return


def starving(players, starved, dice):
    """One actor moves only where no other can."""
    while not players.is_over():
        others = [actor for actor in players.left() if actor != starved]
        dice.shuffle(others)
        if not any(players.move(actor) for actor in others) and not players.move(starved):
            return


def lines_of_turns(turns):
    """The lines of a schedule: neighbouring turns of one actor are one line."""
    return [actor if count == 1 else f'{actor} {count}'
            for actor, several in itertools.groupby(turns) for count in [len(list(several))]]
