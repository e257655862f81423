"""Reduces lists of lines to schemes: a transcript of the definitions, by which a procedure has one scheme.

It is written from crates/rt_polar/specs (Puts, Tidied), crates/rt_refine/specs (Refinements), crates/rt_twins/specs
(Twinnings), crates/rt_trim/specs (Idle), crates/rt_record/specs (Records, Slots), crates/rt_reduction/specs (Simplifies,
Before, Emits, Merges, Drops, Rounds), crates/rt_scheme/specs (Schemes, SplitExistentials) and crates/rt_settle/specs
(Chosen), step by step, and is slow. Lines and variables are those of derivation.py.
"""
import heapq

import derivation
from derivation import Counts, Others, Shape, line_text, reached, sides, sign_of

DEFINING, CONSUMING = 1, -1


def is_exist(x):
    return x[0][0] == 't'


def exist(number):
    return (('t', number),)


def exists_of(lines):
    """The existentials of lines, in the order in which they are first named."""
    return list(dict.fromkeys(x[0][1] for line in lines for x in sides(line) if is_exist(x)))


def mapped(change, line):
    """The line with each of its variables changed."""
    if line[0] == 'low':
        return line[0], line[1], change(line[2])
    if line[0] == 'up':
        return line[0], change(line[1]), line[2]
    return (line[0], *map(change, line[1:]))


def placed(places, lines):
    """The lines with variables in the places of existentials."""
    def change(x):
        return places[x[0][1]] + x[1:] if is_exist(x) and x[0][1] in places else x
    return [mapped(change, line) for line in lines]


def tidied(lines):
    """Each line once, and none that puts a variable beside itself."""
    return list(dict.fromkeys(('var', line[1]) if line[0] in ('same', 'below') and line[1] == line[2] else line
                              for line in lines))

# ------------------------------------------------------------------ classes of existentials


def ends_of(classes, lines):
    """The lines and bounds of each existential, the other sides by their classes, with its own class."""
    def moved(x):
        return (('class', classes[x[0][1]]),) + x[1:] if is_exist(x) else x

    found = {number: set() for number in classes}
    for line in lines:
        if line[0] == 'below':
            ends = ((line[1], ('left', moved(line[2]))), (line[2], ('right', moved(line[1]))))
        elif line[0] == 'low':
            ends = ((line[2], ('low', line[1])),)
        elif line[0] == 'up':
            ends = ((line[1], ('up', line[2])),)
        else:
            ends = ()
        for x, end in ends:
            if is_exist(x):
                found[x[0][1]].add((x[1:], end))
    return {number: (classes[number], frozenset(ends)) for number, ends in found.items()}


def least_of(keys):
    """For each existential the least one with the same key."""
    least = {}
    for number in sorted(keys):
        least.setdefault(keys[number], number)
    return {number: least[key] for number, key in keys.items()}


def refined(lines):
    """Existentials of one shape whose `<=` lines and bounds are the same but for classes become the least of their class, by
    the coarsest such classes: those of one shape are split until no class is split any more."""
    shape = Shape(lines)
    classes = least_of({number: shape.node(exist(number)) for number in exists_of(lines)})
    while True:
        finer = least_of(ends_of(classes, lines))
        if finer == classes:
            return tidied(placed({number: exist(least) for number, least in classes.items()}, lines))
        classes = finer

# ------------------------------------------------------------------ putting


def uses(sign, number, line):
    """Whether a line has a use of an existential: a defining or a consuming one."""
    def is_use(x, variance):
        return x[0] == ('t', number) and sign_of(x[1:]) == variance
    if line[0] == 'below':
        return is_use(line[1], -sign) or is_use(line[2], sign)
    if line[0] == 'low':
        return is_use(line[2], sign)
    return line[0] == 'up' and is_use(line[1], -sign)


def other_side(sign, number, line):
    """Of a line `Z <= n` that defines the existential n, or `n <= Z` that consumes it, the variable Z."""
    if line[0] == 'below' and line[2 if sign == DEFINING else 1] == exist(number):
        return line[1 if sign == DEFINING else 2]
    return None


def sole(sign, number, lines):
    """The place of the only use, and the variable of another base that it puts the bare existential beside."""
    at = [place for place, line in enumerate(lines) if uses(sign, number, line)]
    if len(at) == 1:
        other = other_side(sign, number, lines[at[0]])
        if other is not None and other[0] != ('t', number):
            return at[0], other
    return None


def candidate(number, lines):
    return sole(DEFINING, number, lines) or sole(CONSUMING, number, lines)


def put_away(lines):
    """The least existential with a candidate gives its place to it, again and again."""
    while True:
        for number in sorted(exists_of(lines)):
            found = candidate(number, lines)
            if found:
                break
        else:
            return lines
        place, other = found
        rest = lines[:place] + lines[place + 1:]
        if number in exists_of(rest):
            lines = tidied(placed({number: other}, rest))
        else:
            lines = tidied(lines[:place] + [('var', other)] + lines[place + 1:])

# ------------------------------------------------------------------ twins


def leading(sign, lines):
    """The existentials from which a chain of defining or consuming uses without a letter leads to a base that has none."""
    beside = {}
    for line in lines:
        for number in exists_of([line]):
            other = other_side(sign, number, line)
            if other is not None:
                beside.setdefault(number, set()).add(other[0])
    back, ends = {}, set()
    for number, bases in beside.items():
        for base in bases:
            if base[0] == 't' and base[1] in beside:
                back.setdefault(base[1], set()).add(number)
            else:
                ends.add(number)
    return reached(ends, {number: back.get(number, set()) for number in beside})


def uses_of(sign, classes, lines):
    """The uses of a sign of each existential, with its own class: what stands beside it is told by its class, but exactly where
    it is used so itself."""
    def moved(x, exactly):
        return x if exactly or not is_exist(x) else (('class', classes[x[0][1]]),) + x[1:]

    found = {number: set() for number in classes}

    def note(x, variance, use):
        if is_exist(x) and sign_of(x[1:]) == variance:
            found[x[0][1]].add((x[1:], *use))

    for line in lines:
        if line[0] == 'below':
            note(line[1], -sign, ('left', moved(line[2], sign_of(line[2][1:]) == sign)))
            note(line[2], sign, ('right', moved(line[1], sign_of(line[1][1:]) == -sign)))
        elif line[0] == 'low':
            note(line[2], sign, ('low', line[1]))
        elif line[0] == 'up':
            note(line[1], -sign, ('up', line[2]))
    return {number: (classes[number], frozenset(uses)) for number, uses in found.items()}


def twinning(sign, lines):
    """The coarsest twinning: the least of its class for each existential. Those that lead out are split until those of one class
    have the same uses but for classes; each of the others is alone."""
    leads = leading(sign, lines)
    classes = least_of({number: number in leads or ('alone', number) for number in exists_of(lines)})
    while True:
        finer = least_of(uses_of(sign, classes, lines))
        if finer == classes:
            return classes
        classes = finer


def twins(sign, lines):
    """The least of its class for each existential that isn't the least itself."""
    return {number: exist(least) for number, least in twinning(sign, lines).items() if least != number}


def simplified(lines):
    while True:
        lines = put_away(lines)
        found = twins(DEFINING, lines) or twins(CONSUMING, lines)
        if not found:
            return lines
        lines = tidied(placed(found, lines))

# ------------------------------------------------------------------ idle existentials


def begins(first, second):
    """Whether the first word begins the second, a store counting as a load."""
    return len(first) <= len(second) and all(k == l or {k, l} == {'load', 'store'} for k, l in zip(first, second))


def idle(lines):
    """The existentials that are on one side of each of their `<=` lines and bounds, of no two of which the one word begins
    the other."""
    ends = {number: [] for number in exists_of(lines)}
    both = {line[1][0][1] for line in lines if line[0] == 'below' and is_exist(line[1]) and line[1][0] == line[2][0]}
    for line in lines:
        if line[0] in ('below', 'low', 'up'):
            for x in sides(line):
                if is_exist(x):
                    ends[x[0][1]].append(x[1:])
    return {number for number, found in ends.items()
            if number not in both
            and not any(begins(found[i], found[k]) for i in range(len(found)) for k in range(len(found)) if i != k)}


def trimmed(lines):
    """The lines with those of idle existentials as their shapes."""
    found = idle(lines)

    def is_idle(x):
        return is_exist(x) and x[0][1] in found

    def shape(line):
        if line[0] == 'below' and any(map(is_idle, line[1:])):
            return ('same',) + line[1:]
        if line[0] in ('low', 'up') and any(map(is_idle, sides(line))):
            return 'var', *sides(line)
        return line

    return [shape(line) for line in lines]


def prepared(lines):
    while True:
        lines = simplified(refined(lines))
        found = trimmed(lines)
        if found == lines:
            return lines
        lines = tidied(found)

# ------------------------------------------------------------------ existentials that do nothing but hold fields


def is_part(x):
    """Whether the variable is what is loaded from a field, or stored in it, with more letters or none."""
    return len(x) > 2 and x[1] in ('load', 'store') and '@' in x[2]


def flow_sides(line):
    """The sides of a `<=` line or bound, each with the sign of what may leave an existential there."""
    if line[0] == 'below':
        return [(line[1], 1), (line[2], -1)]
    return [(x, {'up': 1, 'low': -1}[line[0]]) for x in sides(line) if line[0] in ('low', 'up')]


def records(lines):
    """The existentials that stand in `<=` lines and bounds with nothing but parts: where they leave it with those that keep
    the order, elsewhere with those that turn it round."""
    ends = [(x, sign) for line in lines for x, sign in flow_sides(line) if is_exist(x)]
    spoiled = {x[0][1] for x, sign in ends if not is_part(x) or sign_of(x[1:]) != sign}
    return {number for number in exists_of(lines) if number not in spoiled}


def fields_apart(lines):
    """The lines with an existential for each field of records, and behind them the shapes of these."""
    found = records(lines)
    moving = [x for line in lines for x, _ in flow_sides(line) if is_exist(x) and x[0][1] in found]
    first = max([number + 1 for number in exists_of(lines)], default=0)
    fields = list(dict.fromkeys((x[0], x[2]) for x in moving))
    number = {field: first + place for place, field in enumerate(fields)}

    def moved(x):
        return exist(number[x[0], x[2]]) + x[3:] if is_exist(x) and x[0][1] in found else x

    return ([mapped(moved, line) if line[0] in ('below', 'low', 'up') else line for line in lines]
            + [('same', exist(number[x[0], x[2]]), x[:3]) for x in moving])


def without_records(lines):
    while True:
        found = fields_apart(lines)
        if found == lines:
            return lines
        lines = prepared(tidied(found))

# ------------------------------------------------------------------ the shape written anew


def key(x):
    """What variables are in the order of: their levels, their bases and the texts of their letters."""
    kind, number = x[0]
    level = max(len(x) - 2, 0) if kind == 'f' else len(x) - 1
    return (level, ('tgfx'.index(kind), number), tuple(label.encode() for label in x[1:]))


def shape_lines(lines, flow):
    """The shape of lines, written anew over the bases that are kept."""
    shape = Shape(lines)
    bases = dict.fromkeys(x[0] for line in lines for x in sides(line))
    kept = [base for base in bases if base[0] != 't'
            or any(uses(sign, base[1], line) for line in flow for sign in (DEFINING, CONSUMING))]
    first = []
    for base in kept:
        if base[0] == 'f':
            first += [(base, label) for label in shape.labels(shape.node((base,)))]
        else:
            first.append((base,))
    written, words = set(first), {}
    wait = [(key(x), x) for x in first]
    heapq.heapify(wait)
    while wait:
        _, x = heapq.heappop(wait)
        node = shape.node(x)
        if node not in words:
            words[node] = x
            for label in shape.labels(node):
                written.add(x + (label,))
                heapq.heappush(wait, (key(x + (label,)), x + (label,)))
    rows = []
    for x in sorted(written, key=key):
        word = words[shape.node(x)]
        rows.append(('var', x) if x == word else ('same', x, word))
    return rows


def anchored(lines):
    """The bases of lines that a chain of lines joins to a procedure or a global."""
    beside = {}
    for line in lines:
        for x in sides(line):
            beside.setdefault(x[0], set())
        if line[0] in ('same', 'below'):
            beside[line[1][0]].add(line[2][0])
            beside[line[2][0]].add(line[1][0])
    return reached({base for base in beside if base[0] != 't'}, beside)


def emitted(lines):
    flow = [line for line in tidied(lines) if line[0] not in ('var', 'same')]
    both = flow + shape_lines(lines, flow)
    joined = anchored(both)
    return [line for line in both if sides(line)[0][0] in joined]

# ------------------------------------------------------------------ equals, and lines to spare


def equals(lines):
    """For each existential, the sides of other bases that lie below it and above it."""
    numbers = exists_of(lines)
    counts = Counts(lines, [exist(number) for number in numbers])
    every = dict.fromkeys(x for line in lines for x in sides(line))
    found = {}
    for number in numbers:
        v = exist(number)
        beside = [z for z in every if z[0] != v[0] and counts.below(v, z) and counts.below(z, v)]
        if beside:
            found[number] = beside
    return found


def merged(lines):
    while True:
        found = equals(lines)
        if not found:
            return lines
        number = min(found)
        lines = tidied(placed({number: min(found[number], key=key)}, lines))


def dropped(lines, lattice):
    """From the last line to the first, a line goes if the lines before it and those that stayed behind it derive it."""
    others, kept = Others(lines, lattice), []
    for place in range(len(lines) - 1, -1, -1):
        if not others.derivable(lines[place], lines[:place] + kept):
            kept.insert(0, lines[place])
    return kept

# ------------------------------------------------------------------ rounds, and the scheme


def is_done(lines):
    numbers = exists_of(lines)
    joined = anchored(lines)
    return (not any(candidate(number, lines) for number in numbers)
            and not twins(DEFINING, lines) and not twins(CONSUMING, lines)
            and all(any(uses(sign, number, line) for line in lines for sign in (DEFINING, CONSUMING)) for number in numbers)
            and all(('t', number) in joined for number in numbers))


def reduced(lines, lattice):
    lines = tidied(without_records(prepared(tidied(lines))))
    while True:
        lines = dropped(merged(emitted(prepared(lines))), lattice)
        if is_done(lines):
            return lines


def sort_name(lattice):
    """The name of a constant by which lines are sorted, whatever the lattice."""
    numbers = {name: number for number, name in enumerate(lattice.names)}

    def name_of(name):
        number = numbers[name]
        return derivation.STANDARD[number] if number < len(derivation.STANDARD) else '%03d' % number
    return name_of


def numbered(lines):
    """The lines with their existentials numbered in the order in which they are first named."""
    return placed({number: exist(new) for new, number in enumerate(exists_of(lines))}, lines)


def settled(lines, lattice):
    name = sort_name(lattice)
    return sorted(numbered(reduced(lines, lattice)), key=lambda line: line_text(line, name).encode())


def split(own, lines):
    """The lines with an existential for each argument and result of another procedure."""
    def is_split(x):
        return x[0][0] == 'f' and x[0] != own and len(x) > 1
    first = max([number + 1 for number in exists_of(lines)], default=0)
    interfaces = dict.fromkeys(x[:2] for line in lines for x in sides(line) if is_split(x))
    place = {interface: ('t', first + i) for i, interface in enumerate(interfaces)}
    return [mapped(lambda x: (place[x[:2]],) + x[2:] if is_split(x) else x, line) for line in lines]


def is_scheme(own, lines):
    return all(x[0][0] in 'gt' or x[0] == own and len(x) > 1 and x[1].startswith(('in_', 'out_'))
               for line in lines for x in sides(line))


def scheme_from(own, whole, lattice):
    """The scheme of a member of a group whose lines are settled."""
    return whole if is_scheme(own, whole) else settled(split(own, whole), lattice)
