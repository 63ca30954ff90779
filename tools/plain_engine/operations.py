"""Apply, Update and strip, from one state (a body and a table) to the next."""
from typing import NamedTuple

from .bodies import compare, is_too_large, listed, over, points, restrict
from .paths import beginnings, is_key_field
from .tables import MOST_MANAGERS, others, row_of, seat
from .values import Fault


class State(NamedTuple):
    body: dict
    table: list


class Act(NamedTuple):
    """Who acts, when, and on which part of the object: the one place where parts of an object are told apart."""
    key: object
    at: str

    def has(self, path):
        """Whether the path is one of the part through which the manager acts."""
        return (path[:1] == ('f:status',)) == (self.key.part == 'status')

    def of_part(self, body):
        """What of a configuration is in the part."""
        return {path: there for path, there in body.items() if path == () or self.has(path)}

    def joined(self, body, live):
        """The body in the part, the live one outside."""
        return {**self.of_part(body), **{path: there for path, there in live.items() if path != () and not self.has(path)}}


def owned_by(table, key):
    row = row_of(table, key)
    return row.owned if row else frozenset()


def owned_outside(table, act):
    """What the manager owns outside the part through which it acts."""
    return {path for path in owned_by(table, act.key) if not act.has(path)}


def dropped(table, act, config):
    """What the manager gives up: it isn't configured, is no key field, and nobody else owns it or anything below."""
    held = set().union(*map(beginnings, others(table, act.key)))
    return {path for path in owned_by(table, act.key)
            if act.has(path) and path not in config and not is_key_field(path) and path not in held}


def pruned(state, act, config):
    """The configuration over the live body, without what was given up and is not needed."""
    merged, gone = over(state.body, config), dropped(state.table, act, config)
    kept = {path for path in points(merged) if gone.isdisjoint(beginnings(path))}
    kept |= others(state.table, act.key) | points(config) | {()}
    return restrict(merged, set().union(*map(beginnings, kept)))


def clashes(state, act, modified):
    """Each other manager with those of its paths that change."""
    return [(row.key, row.owned & modified) for row in state.table if row.key != act.key and row.owned & modified]


def with_table(body, table):
    if len(table) > MOST_MANAGERS:
        raise Fault(43)
    return State(body, table)


def apply(state, act, config, force):
    config = act.of_part(config)
    body = pruned(state, act, config)
    modified = compare(state.body, body)[1]
    found = clashes(state, act, modified)
    if found and not force:
        raise Fault(50, conflicts=[{'fields': listed(paths), **key.members()} for key, paths in found])
    if is_too_large(body):
        raise Fault(24)
    owned = points(config) | owned_outside(state.table, act)
    return with_table(body, seat(state.table, act.key, owned, modified, modified, act.at))


def update(state, act, given):
    body = act.joined(given, state.body)
    if is_too_large(body):
        raise Fault(24)
    added, modified, removed = compare(state.body, body)
    owned = (owned_by(state.table, act.key) - removed) | modified | added
    return with_table(body, seat(state.table, act.key, owned, modified | removed, modified, act.at))


def strip(state):
    return State(state.body, [])
