"""Values: reading JSON with its faults, the one compact text of a value, moments."""
import datetime, json, re

MOST_INPUT = 1_048_576
DEEPEST = 127

NAMES = {1: 'NotJson', 2: 'NullValue', 3: 'NumberOutside', 4: 'TooLong', 6: 'BadMoment', 10: 'SchemaKeyword', 11: 'SchemaShape',
         12: 'SchemaKeys', 13: 'SchemaDepth', 20: 'UnknownField', 21: 'WrongType', 22: 'MissingKey', 23: 'DuplicateItem',
         24: 'TooManyPaths', 30: 'BadElement', 31: 'IndexElement', 32: 'NotCanonical', 40: 'AbsentPath', 41: 'DuplicateManager',
         42: 'EmptyEntry', 43: 'TooManyManagers', 44: 'OtherVersion', 45: 'BadEntry', 50: 'Conflict', 60: 'Identity',
         61: 'ManagedFieldsGiven', 62: 'ManagerName', 64: 'NothingToUndo', 65: 'NothingToRedo',
         66: 'CommandShape', 67: 'NoSubresource', 70: 'BenchText', 71: 'RecordDoesNotFit'}


class Fault(Exception):
    """A refusal, by its number; some have a path or conflicts beside it."""

    def __init__(self, number, **beside):
        super().__init__(number)
        self.number = number
        self.beside = beside

    def line(self):
        return text({'fault': self.number, 'name': NAMES[self.number], **self.beside})


def text(value):
    """The one compact text: members by the bytes of their names (which code points order alike), only what must be is escaped."""
    return json.dumps(value, separators=(',', ':'), sort_keys=True, ensure_ascii=False)


class Outside:
    """A number that is no whole one of 64 bits."""


def whole(digits):
    number = int(digits) if len(digits) <= 400 else 10 ** 400
    if digits != '-0' and -2 ** 63 <= number < 2 ** 63:
        return number
    return broken(digits)


def broken(digits):
    """A number with a fraction or an exponent, or too large a one: without a reading where it is no finite float."""
    if abs(float(digits)) == float('inf'):
        raise ValueError(digits)
    return Outside()


def constant(word):
    raise ValueError(word)


def depth(said):
    """How deep brackets nest outside of texts."""
    deepest = now = 0
    for mark in re.findall(r'"(?:[^"\\]|\\.)*"|[][{}]', said, re.S):
        now += {'[': 1, '{': 1, ']': -1, '}': -1}.get(mark, 0)
        deepest = max(deepest, now)
    return deepest


def check(value):
    """The first null or number outside, in the order of the walk."""
    if value is None:
        raise Fault(2)
    if isinstance(value, Outside):
        raise Fault(3)
    if isinstance(value, list):
        for item in value:
            check(item)
    if isinstance(value, dict):
        for name in sorted(value):
            check(value[name])


def read(given, most=MOST_INPUT):
    """The value that these bytes are; a repeated name is read as its last."""
    if len(given) > most:
        raise Fault(4)
    try:
        said = given.decode('utf-8')
        if depth(said) > DEEPEST:
            raise Fault(1)
        value = json.loads(said, parse_int=whole, parse_float=broken, parse_constant=constant)
        json.dumps(value, ensure_ascii=False, default=str).encode('utf-8')  # half a pair of code units is no text
    except (ValueError, RecursionError):
        raise Fault(1) from None
    check(value)
    return value


def is_whole(value):
    return isinstance(value, int) and not isinstance(value, bool)


def is_scalar(value):
    return isinstance(value, (str, int))


def moment(said):
    """The text, where it is a moment: a date and a time of day that exist, from 1970 on, to the second."""
    if re.fullmatch(r'[0-9]{4}-[0-9]{2}-[0-9]{2}T[0-9]{2}:[0-9]{2}:[0-9]{2}Z', said):
        try:
            if datetime.datetime.strptime(said, '%Y-%m-%dT%H:%M:%SZ').year >= 1970 and said[17:19] < '60':
                return said
        except ValueError:
            pass
    raise Fault(6)
