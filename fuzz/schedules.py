"""Random schedules: turns that may finish a script of a few jobs."""


def actors_of(queues, threaded):
    return ['host'] + [f'S:{name}' for name in threaded] + [f'R:{name}' for name in queues]


def any_turns(dice, actors):
    """Turns in any order, of actors of whom some are much slower than others."""
    weights = [dice.choice([1, 2, 2, 6]) for _ in actors]
    weights[0] += 1
    counts = [''] * 4 + [' 2', ' 3', ' 0x5']
    return [actor + dice.choice(counts)
            for actor in dice.choices(actors, weights, k=dice.choice([0, 3, 10, 40, 120, 120, 300]))]


def rounds(dice, actors):
    """Rounds, in each of which each actor has some turns."""
    lines = []
    for _ in range(dice.choice([1, 4, 12, 20, 30])):
        dice.shuffle(actors)
        lines += [actor + dice.choice(['', ' 2', ' 4', ' 9']) for actor in actors]
    return lines


def schedule(dice, queues, threaded):
    """Lines of turns, some of which may finish the script."""
    lines = []
    for _ in range(dice.choice([1, 1, 2])):
        lines += dice.choice([any_turns, rounds])(dice, actors_of(queues, threaded))
    return lines
