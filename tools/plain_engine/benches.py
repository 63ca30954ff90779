"""A bench: schema, identity and a row of whole states with a place in it; its commands and looks, and how an object is read."""
from typing import NamedTuple

from .bodies import compare, flat, is_too_large, listed, value_at
from .operations import Act, State, apply, strip, update
from .schemas import fit
from .tables import Key, entries, named, part_members, read_entries
from .values import Fault

# The greatest depth of a bench: how many commands it keeps to be undone.
MOST_DEPTH = 1_000
DROPPED = {'uid', 'resourceVersion', 'generation', 'creationTimestamp', 'selfLink'}


class Given(NamedTuple):
    """An object that was read."""
    identity: tuple
    body: dict
    entries: object


def identity_of(given):
    metadata = given.get('metadata')
    if not isinstance(metadata, dict):
        raise Fault(60)
    parts = [given.get('apiVersion'), given.get('kind'), metadata.get('name')]
    if 'namespace' in metadata:
        parts.append(metadata['namespace'])
    if not all(isinstance(part, str) and part for part in parts):
        raise Fault(60)
    return tuple(parts)


def read_object(kind, given, identity=None):
    """An object as a file has it, or, where the bench's identity is told, as a command has it."""
    if not isinstance(given, dict):
        raise Fault(21, path=[])
    found = identity_of(given)
    if identity not in (None, found):
        raise Fault(60)
    if identity and 'managedFields' in given['metadata']:
        raise Fault(61)
    left_out = {'name', 'namespace'} | (set() if identity else DROPPED | {'managedFields'})
    value = {name: inside for name, inside in given.items() if name not in ('apiVersion', 'kind')}
    value['metadata'] = {name: inside for name, inside in given['metadata'].items() if name not in left_out}
    fit(kind, value)
    body = flat(kind, value)
    if is_too_large(body):
        raise Fault(24)
    return Given(found, body, given['metadata'].get('managedFields', []))


def read_state(kind, given):
    """The identity and the state that an object file says."""
    found = read_object(kind, given)
    return found.identity, State(found.body, read_entries(found.entries, found.body, found.identity[0]))


def shown(identity, state, managed):
    """The object of a state, with its managers where they are asked for and there are some."""
    made = value_at(state.body)
    metadata = made.setdefault('metadata', {})
    made['apiVersion'], made['kind'], metadata['name'] = identity[:3]
    if len(identity) > 3:
        metadata['namespace'] = identity[3]
    if managed and state.table:
        metadata['managedFields'] = entries(state.table, identity[0])
    return made


class Bench:
    def __init__(self, schema, kind, identity, state, depth=MOST_DEPTH):
        self.schema, self.kind, self.identity, self.depth = schema, kind, identity, depth
        self.states, self.labels, self.place = [state], [], 0
        # What the last command that was kept did to the history beside its own state.
        self.has_cut = self.has_forgotten = False

    def is_same(self, other, depth=None):
        """Whether it is of the same schema and object, with the same history, and as deep, or of the depth that is named."""
        is_so = all(getattr(self, it) == getattr(other, it) for it in ('schema', 'identity', 'states', 'labels', 'place'))
        return is_so and self.depth == (depth or other.depth)

    def state(self):
        return self.states[self.place]

    def past(self):
        return self.place

    def future(self):
        return len(self.labels) - self.place

    def is_full(self):
        """Whether a further command makes it forget its oldest state."""
        return self.past() >= self.depth

    def change(self, command):
        """Carries out an apply, an update or a strip."""
        before, word = self.state(), command['do']
        if word == 'strip':
            after, label = strip(before), {'do': 'strip'}
        else:
            act = self.act(command)
            body = read_object(self.kind, command['object'], self.identity).body
            label = {'at': command['at'], 'do': word, 'manager': act.key.name, **part_members(act.key.part)}
            if word == 'apply':
                label['force'] = command.get('force', False)
                after = apply(before, act, body, label['force'])
            else:
                after = update(before, act, body)
        self.keep(after, label)
        added, modified, removed = map(listed, compare(before.body, after.body))
        return {'added': added, 'done': word, 'managers': len(after.table), 'modified': modified, 'removed': removed}

    def act(self, command):
        """Who acts, when, and through which part, where the name and the part are ones."""
        key = Key(named(command['manager']), command['do'].capitalize(), command.get('subresource', ''))
        if key.part and key.part not in self.kind.fields:
            raise Fault(67)
        return Act(key, command['at'])

    def keep(self, state, label):
        """Cuts what could be redone, goes on to the new state, and forgets the oldest where more can be undone then than is kept."""
        self.has_cut = self.future() > 0
        del self.states[self.place + 1:], self.labels[self.place:]
        self.states.append(state)
        self.labels.append(label)
        self.place += 1
        self.has_forgotten = self.is_beyond_depth()
        if self.has_forgotten:
            self.forget()

    def is_beyond_depth(self):
        return self.place > self.depth

    def forget(self):
        del self.states[0], self.labels[0]
        self.place -= 1

    def move(self, word):
        """Undoes or redoes a command."""
        if not (self.past() if word == 'undo' else self.future()):
            raise Fault(64 if word == 'undo' else 65)
        self.place += -1 if word == 'undo' else 1
        return {'done': word, 'future': self.future(), 'past': self.past()}

    def show(self, managed):
        return {'done': 'show', 'object': shown(self.identity, self.state(), managed)}

    def owners(self, path):
        return {'done': 'owners', 'owners': [row.key.members() for row in self.state().table if path in row.owned]}

    def log(self):
        return {'done': 'log', 'future': self.labels[self.place:], 'past': self.labels[:self.place]}

    def made(self):
        """What is told of a bench that was just made."""
        return {'done': 'init', 'managers': len(self.state().table), 'paths': len(self.state().body) - 1}
