"""Tables of managers: rows of (key, set of paths, moment), and the same as entries of managedFields."""
from typing import NamedTuple

from .bodies import is_ownable
from .paths import fields_v1, read_fields_v1
from .values import Fault, moment

MOST_MANAGERS = 64
OPERATIONS = ('Apply', 'Update')


class Key(NamedTuple):
    """What a manager is known by. Each of its spellings is one function here."""
    name: str
    operation: str
    # The subresource through which it acts, '' where it acts on all but these.
    part: str = ''

    def members(self):
        """In entries, conflicts, owners and changes."""
        return {'manager': self.name, 'operation': self.operation, **part_members(self.part)}

    def listed(self):
        """Among the managers that a record tells as gone."""
        return [self.name, self.operation, *part_members(self.part).values()]


def part_members(part):
    return {'subresource': part} if part else {}


def is_part_told(members):
    """Whether members tell no subresource, or one that is one."""
    return members.get('subresource', 'status') == 'status'


def key_of(members):
    return Key(members['manager'], members['operation'], members.get('subresource', ''))


def key_listed(said):
    return Key(*said)


def is_key_list(said):
    return (isinstance(said, list) and len(said) in (2, 3) and isinstance(said[0], str) and said[1] in OPERATIONS
            and said[2:] in ([], ['status']))


KEY_MEMBERS = {'manager', 'operation'}


class Row(NamedTuple):
    key: Key
    owned: frozenset
    at: str


def others(table, key):
    """All that other managers own."""
    return frozenset().union(*(row.owned for row in table if row.key != key))


def row_of(table, key):
    return next((row for row in table if row.key == key), None)


def is_in_one_order(before, after):
    """Whether the managers of both tables stand in one order in them."""
    keys = [[row.key for row in table if row_of(other, row.key)] for table, other in ((before, after), (after, before))]
    return keys[0] == keys[1]


def seat(table, key, owned, lost, modified, at):
    """The table after a command of a manager whose set is then `owned`, where the others lose `lost`."""
    before = row_of(table, key)
    is_renewed = before is None or before.owned != owned or bool(modified)
    own = Row(key, frozenset(owned), at if is_renewed else before.at)
    rows = [own if row.key == key else row._replace(owned=row.owned - lost) for row in table]
    if before is None:
        rows.append(own)
    return [row for row in rows if row.owned]


def named(name):
    """The name, where it is one of a manager."""
    if 1 <= len(name) <= 128 and all(' ' <= letter <= '~' for letter in name):
        return name
    raise Fault(62)


def entry(row, version):
    return {'apiVersion': version, 'fieldsType': 'FieldsV1', 'fieldsV1': fields_v1(row.owned), 'time': row.at, **row.key.members()}


def entries(table, version):
    return [entry(row, version) for row in table]


def has_entry_shape(given):
    texts = {'apiVersion', 'fieldsType', 'time'} | KEY_MEMBERS
    return (isinstance(given, dict) and given.keys() - {'subresource'} == texts | {'fieldsV1'} and is_part_told(given)
            and all(isinstance(given[name], str) for name in texts) and given['operation'] in OPERATIONS and given['fieldsType'] == 'FieldsV1')


def read_entries(given, body, version):
    """The table that an object's managedFields say."""
    if not isinstance(given, list):
        raise Fault(45)
    table = []
    for it in given:
        if len(table) == MOST_MANAGERS:
            raise Fault(43)
        if not has_entry_shape(it):
            raise Fault(45)
        named(it['manager'])
        if it['apiVersion'] != version:
            raise Fault(44)
        row = Row(key_of(it), frozenset(), moment(it['time']))
        row = row._replace(owned=frozenset(read_fields_v1(it['fieldsV1'])))
        if not row.owned:
            raise Fault(42)
        for path in sorted(row.owned):
            if not is_ownable(body, path):
                raise Fault(40, path=list(path))
        if row_of(table, row.key):
            raise Fault(41)
        table.append(row)
    return table
