"""Asks every stored point of a table, alone and in one batch, and compares each answer with the number that is stored."""
import array
import csv

import veltzuma

from . import evaluate, floats, premises, words

SHOWN = 10


def ask(table, grid, modes, listed, out, told):
    """Tells of each mode how many points answer their own number, and of those that do not; `listed`: a line for every point. Returns whether all do."""
    code, axes, count = floats.CODE[table.width], len(table.axes), len(table.vals)
    points = [[axis.entries[i] for axis, i in zip(table.axes, table.indices(at))] for at in range(count)]
    joined = array.array(code, [x[axis] for axis in range(axes) for x in points])
    to = csv.writer(out, lineterminator='\n')
    if listed:
        to.writerow([axis.name for axis in table.axes] + ['mode', 'stored', 'alone', 'in one batch'])
    print(f'{table.path}: {count:,} stored points, {table.width}', file=told)
    all_do = True
    for mode in modes:
        found = {'alone': _alone(grid, points, mode), 'in one batch': _batch(table, grid, points, joined, mode, told)}
        if listed:
            for x, *answers in zip(points, table.vals, *found.values()):
                to.writerow([floats.show(number, table.width) for number in x] + [mode] + [_shown(answer, table.width) for answer in answers])
        other = {how: _differing(answers, table.vals) for how, answers in found.items()}
        print(f'{mode:8}  ' + '   '.join(f'{how}: {count - len(places):,} of {count:,} answer their own number' for how, places in other.items()), file=told)
        for how, places in other.items():
            all_do = all_do and not places
            for place in places[:SHOWN]:
                print(f'  {how}: the point at entries {", ".join(map(str, table.indices(place)))} stores {_shown(table.vals[place], table.width)}, '
                      f'and the answer is {_shown(found[how][place], table.width) or "none"}', file=told)
            if len(places) > SHOWN:
                print(f'  {how}: and {len(places) - SHOWN:,} more', file=told)
    outside = premises.outside(table)
    for line, text in outside:
        print(f'{table.path}:{line}: outside the premises of the node rule: {text}', file=told)
    if not outside:
        print('within the premises of the node rule: that each answers its own number is proved, docs/SPECIFICATION.md 8.3', file=told)
    return all_do


def _shown(number, width):
    return '' if number is None else floats.show(number, width)


def _alone(grid, points, mode):
    found, progress = [], evaluate.Progress(f'points asked alone, {mode}', len(points))
    try:
        for x in points:
            try:
                # Without its marks, which take more room than the number.
                found.append(float(grid.interp_one(x, mode)))
            except veltzuma.Refusal:
                found.append(None)
            progress.add()
    finally:
        progress.close()
    return found


def _batch(table, grid, points, joined, mode, told):
    found = array.array(joined.typecode, bytes(len(points) * joined.itemsize))
    answered = len(points)
    try:
        grid.interp(joined, found, mode)
    except veltzuma.Refusal as refusal:
        if refusal.number not in words.OF_QUERY:
            raise
        answered = refusal.query
        print(f'  in one batch, query {refusal.query}: ' + words.of_query(table, refusal, points[refusal.query]), file=told)
    return list(found[:answered]) + [None] * (len(points) - answered)


def _differing(answers, stored):
    """Where the two hold different numbers: +0 and -0 are one number, and a NaN is none."""
    return [i for i, (answer, number) in enumerate(zip(answers, stored)) if answer != number]
