"""Decides which lines are derivable from a list of lines, by the rules of docs/RULES.md.

A derived variable is a tuple: its base, as ('t', 3), and then its labels. A line is a tuple: ('var', x), ('same', x, y),
('below', x, y), ('low', name, x) or ('up', x, name).

Shapes go by a quotient graph: variables of one shape are one node, whose letters are theirs. What lies below what goes by
counted judgements. A state is a variable and a sign, and a count k from (X, a) to (Y, b) says that X.r <= Y.s where r and s
are words of the signs a and b that differ only in load for store and store for load, at places that have both, and the
number of s is at least k more than that of r. A word's number has a bit for each such place, 1 where what follows from
there is covariant; the bit of the first place is the lowest. So 0 from (X, +) to (Y, +) says X <= Y itself.
"""
import collections
import functools

CONTRAVARIANT = ('store', 'in_')
POINTERS = ('load', 'store')
STANDARD = ('any', 'num32', 'int32', 'int16', 'int8', 'uint32', 'uint16', 'uint8', 'bool', 'code', 'str', 'none')
STANDARD_BELOW = (('num32', 'any'), ('int32', 'num32'), ('int16', 'int32'), ('int8', 'int16'), ('bool', 'int8'),
                  ('uint32', 'num32'), ('uint16', 'uint32'), ('uint8', 'uint16'), ('bool', 'uint8'), ('code', 'any'),
                  ('str', 'any'), ('none', 'bool'), ('none', 'code'), ('none', 'str'))

# ------------------------------------------------------------------ texts


def variable_of(text):
    base, *labels = text.split('.')
    return ((base[0], int(base[1:])), *labels)


def line_of(text):
    kind, *rest = text.split(' ')
    if kind in ('var', 'same'):
        return (kind, *map(variable_of, rest))
    left, _, right = text.split(' ')
    if left[0] == '#':
        return ('low', left[1:], variable_of(right))
    return ('up', variable_of(left), right[1:]) if right[0] == '#' else ('below', variable_of(left), variable_of(right))


def variable_text(x):
    return '.'.join(('%s%d' % x[0],) + x[1:])


def line_text(line, name=lambda name: name):
    kind = line[0]
    if kind == 'low':
        return '#%s <= %s' % (name(line[1]), variable_text(line[2]))
    if kind == 'up':
        return '%s <= #%s' % (variable_text(line[1]), name(line[2]))
    texts = [variable_text(side) for side in line[1:]]
    return ' <= '.join(texts) if kind == 'below' else ' '.join([kind] + texts)


def sides(line):
    """The variables that are sides of a line, the left one first."""
    return line[2:] if line[0] == 'low' else line[1:2] if line[0] == 'up' else line[1:]

# ------------------------------------------------------------------ constants


class Lattice:
    """Names, and which is at or below which."""

    def __init__(self, names=STANDARD, pairs=STANDARD_BELOW):
        self.names = tuple(names)
        self.above = {name: {name} for name in self.names}
        grown = True
        while grown:
            grown = False
            for lower, upper in pairs:
                if not self.above[upper] <= self.above[lower]:
                    self.above[lower] |= self.above[upper]
                    grown = True

    def at_or_below(self, lower, upper):
        return upper in self.above[lower]

# ------------------------------------------------------------------ signs and shapes


@functools.lru_cache(None)
def sign(label):
    return -1 if label.startswith(CONTRAVARIANT) else 1


def sign_of(labels):
    product = 1
    for label in labels:
        product *= sign(label)
    return product


def reached(start, beside):
    """Some, and all that is reached from them by what stands beside each."""
    found = set(start)
    todo = list(found)
    while todo:
        for one in beside[todo.pop()] - found:
            found.add(one)
            todo.append(one)
    return found


class Shape:
    """The quotient graph of lines: the node of a variable, and the node behind each letter of a node."""

    def __init__(self, lines):
        self.parent, self.letters, self.bases, self.wait = [], [], {}, []
        for line in lines:
            nodes = [self.add(x) for x in sides(line)]
            if len(nodes) == 2:
                self.join(*nodes)

    def root(self, node):
        while self.parent[node] != node:
            self.parent[node] = self.parent[self.parent[node]]
            node = self.parent[node]
        return node

    def new(self):
        self.parent.append(len(self.parent))
        self.letters.append({})
        return len(self.parent) - 1

    def add(self, x):
        if x[0] not in self.bases:
            self.bases[x[0]] = self.new()
        node = self.root(self.bases[x[0]])
        for label in x[1:]:
            if label not in self.letters[node]:
                self.letters[node][label] = self.new()
                self.point(node)
            node = self.root(self.letters[self.root(node)][label])
        return node

    def point(self, node):
        """What is stored through a readable and writable pointer has the shape of what is loaded."""
        letters = self.letters[node]
        if all(label in letters for label in POINTERS):
            self.join(letters['load'], letters['store'])

    def join(self, one, other):
        self.wait.append((one, other))
        while self.wait:
            one, other = map(self.root, self.wait.pop())
            if one != other:
                self.parent[other] = one
                for label, node in self.letters[other].items():
                    if label in self.letters[one]:
                        self.wait.append((self.letters[one][label], node))
                    else:
                        self.letters[one][label] = node
                if all(label in self.letters[one] for label in POINTERS):
                    self.wait.append(tuple(self.letters[one][label] for label in POINTERS))

    def node(self, x):
        """The node of a variable, or None where there is no such variable."""
        if x[0] not in self.bases:
            return None
        node = self.root(self.bases[x[0]])
        for label in x[1:]:
            if label not in self.letters[node]:
                return None
            node = self.root(self.letters[node][label])
        return node

    def labels(self, node):
        return list(self.letters[node])

    def flips(self, node):
        return all(label in self.letters[node] for label in POINTERS)

    def counting(self):
        """The nodes at or below which a node flips: elsewhere no count but 0 matters."""
        before = collections.defaultdict(set)
        todo = []
        for node in set(map(self.root, range(len(self.parent)))):
            for child in self.letters[node].values():
                before[self.root(child)].add(node)
            if self.flips(node):
                todo.append(node)
        return reached(todo, before)

# ------------------------------------------------------------------ counted judgements


def bit(value):
    return 1 if value > 0 else 0


def half(count, from_sign, to_sign, from_before, to_before):
    """The count between states behind load or store of one node that has both, from the count between their fronts."""
    doubled = count + bit(from_before) - bit(to_before)
    least = doubled // 2
    return least if least % 2 == (from_sign != to_sign) else least + 1


class Counts:
    """The least counts between the states of variables: the prefixes of the sides of lines, and of other variables."""

    def __init__(self, lines, others=()):
        self.shape = Shape(lines)
        counting = self.shape.counting()
        self.place, self.variables, self.nodes, self.children = {}, [], [], []
        for line in lines:
            for x in sides(line):
                self.name(x)
        for x in others:
            if self.shape.node(x) is not None:
                self.name(x)
        self.counts = [node in counting for node in self.nodes]
        self.flips = [self.shape.flips(node) for node in self.nodes]
        # counts from a state and to it; a state is twice the place of its variable, and one more where it is contravariant
        self.out = [{} for _ in range(2 * len(self.variables))]
        self.into = [{} for _ in range(2 * len(self.variables))]
        self.pushed = set()
        self.todo = collections.deque()
        for place, counts in enumerate(self.counts):
            for state in (2 * place, 2 * place + 1):
                self.lower(state, state, 0)
                if counts:
                    self.lower(state, state ^ 1, 1)
        for line in lines:
            if line[0] == 'below':
                left, right = (2 * self.place[x] for x in line[1:])
                self.lower(left, right, 0)
                self.lower(right + 1, left + 1, 0)
        while self.todo:
            self.follow(*self.todo.popleft())

    def name(self, x):
        for length in range(1, len(x) + 1):
            front = x[:length]
            if front not in self.place:
                self.place[front] = len(self.variables)
                self.variables.append(front)
                self.nodes.append(self.shape.node(front))
                self.children.append([])
                if length > 1:
                    self.children[self.place[front[:-1]]].append((front[-1], self.place[front]))

    def lower(self, start, end, count):
        if count and not self.counts[start // 2]:
            return
        old = self.out[start].get(end)
        if old is None or count < old:
            self.out[start][end] = self.into[end][start] = count
            self.todo.append((start, end, count))

    def follow(self, start, end, count):
        """Joins a count with those before and after it, and pushes it to the children."""
        if self.out[start][end] != count:
            return
        for before, more in list(self.into[start].items()):
            self.lower(before, end, more + count)
        for after, more in list(self.out[end].items()):
            self.lower(start, after, count + more)
        one, other = start // 2, end // 2
        signs = 1 - 2 * (start % 2), 1 - 2 * (end % 2)
        for label, left in self.children[one]:
            for other_label, right in self.children[other]:
                flipping = self.flips[one] and label in POINTERS and other_label in POINTERS
                if not flipping and label != other_label:
                    continue
                new = signs[0] * sign(label), signs[1] * sign(other_label)
                pushed = half(count, *new, *signs) if flipping else count
                from_state, to_state = 2 * left + (new[0] < 0), 2 * right + (new[1] < 0)
                if pushed == 0:
                    self.pushed.add((from_state, to_state))
                self.lower(from_state, to_state, pushed)

    def below(self, x, y):
        """Whether X <= Y is derivable, where both were named."""
        return x in self.place and y in self.place and self.out[2 * self.place[x]].get(2 * self.place[y]) == 0


def derivable(lines, line, lattice):
    """Whether a line is derivable from lines."""
    shape = Shape(lines)
    nodes = [shape.node(x) for x in sides(line)]
    if None in nodes:
        return False
    kind = line[0]
    if kind == 'var':
        return True
    if kind == 'same':
        return nodes[0] == nodes[1]
    if kind == 'below':
        return nodes[0] == nodes[1] and (line[1] == line[2] or Counts(lines, line[1:]).below(*line[1:]))
    x, = sides(line)
    if kind == 'low':
        known = [other[2] for other in lines if other[0] == 'low' and lattice.at_or_below(line[1], other[1])]
        tested = [(y, x) for y in known]
    else:
        known = [other[1] for other in lines if other[0] == 'up' and lattice.at_or_below(other[2], line[2])]
        tested = [(x, y) for y in known]
    if x in known:
        return True
    if not any(shape.node(y) == nodes[0] for y in known):
        return False
    counts = Counts(lines, (x,))
    return any(counts.below(*pair) for pair in tested)


class Others:
    """Decides for each line of a list whether it is derivable from the other ones, or from some of them.

    What follows from some of the lines has a way of count 0 over these lines and over what all lines push. Where there is
    none, as most often, nothing need be counted anew.
    """

    def __init__(self, lines, lattice):
        self.lines, self.lattice = lines, lattice
        self.counts = Counts(lines)
        self.pushed = collections.defaultdict(set)
        for start, end in self.counts.pushed:
            self.pushed[start].add(end)

    def reached(self, rest, starts):
        steps = collections.defaultdict(set)
        for line in rest:
            if line[0] == 'below':
                left, right = (2 * self.counts.place[x] for x in line[1:])
                steps[left].add(right)
                steps[right + 1].add(left + 1)
        found, todo = set(starts), list(starts)
        while todo:
            state = todo.pop()
            for after in (steps[state] | self.pushed[state]) - found:
                found.add(after)
                todo.append(after)
        return found

    def may(self, line, rest):
        kind = line[0]
        if kind in ('var', 'same'):
            return True
        place = self.counts.place
        if kind == 'below':
            return 2 * place[line[2]] in self.reached(rest, [2 * place[line[1]]])
        if kind == 'low':
            known = [other[2] for other in rest if other[0] == 'low' and self.lattice.at_or_below(line[1], other[1])]
            return 2 * place[line[2]] in self.reached(rest, [2 * place[y] for y in known])
        known = [other[1] for other in rest if other[0] == 'up' and self.lattice.at_or_below(other[2], line[2])]
        return bool({2 * place[y] for y in known} & self.reached(rest, [2 * place[line[1]]]))

    def derivable(self, line, rest):
        """Whether one of the lines is derivable from some of the others."""
        return self.may(line, rest) and derivable(rest, line, self.lattice)
