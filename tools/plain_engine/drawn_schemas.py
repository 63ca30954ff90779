"""Schemas: one that has every kind, and drawn ones."""
from .schemas import LIST_KEYS, LIST_TYPE, MAP_TYPE

WHOLE, WORD, TRUTH = {'type': 'integer'}, {'type': 'string'}, {'type': 'boolean'}


def fields(**properties):
    return {'type': 'object', 'properties': properties}


def entries(schema):
    return {'type': 'object', 'additionalProperties': schema}


def items(schema, **how):
    return {'type': 'array', 'items': schema, **how}


def set_of(schema):
    return items(schema, **{LIST_TYPE: 'set'})


def map_list(keys, **properties):
    return items(fields(**properties), **{LIST_TYPE: 'map', LIST_KEYS: keys})


PORTS = map_list(['proto', 'port'], name=WORD, port=WHOLE, proto=WORD, at=fields(x=WHOLE, y=WHOLE))
GROUPS = map_list(['name'], name=WORD, hosts=set_of(WORD), numbers=set_of(WHOLE), tags=entries(WORD), args=items(WORD),
                  rows=map_list(['id'], id=WHOLE, on=TRUTH, marks=set_of(WHOLE)))
EVERY_KIND = fields(args=items(WORD), limits={**entries(WHOLE), MAP_TYPE: 'atomic'}, env=entries(WORD), hosts=set_of(WORD),
                    numbers=set_of(WHOLE), parts=entries(fields(n=WHOLE, on=TRUTH)), ports=PORTS, groups=GROUPS,
                    spec=fields(image=WORD, on=TRUTH, size=WHOLE),
                    status=fields(phase=WORD, ready=WHOLE, seen=set_of(WORD), conditions=map_list(['type'], type=WORD, on=TRUTH)))
SCALARS = (WORD, WHOLE, TRUTH)
NAMES = ('a', 'b', 'c', 'd"', 'e\\', 'é', '', 'kind', 'f\n', 'z', 'status')


def some_fields(dice, level, inside):
    return fields(**{name: some_kind(dice, level + 1, inside) for name in dice.shuffled(NAMES)[:dice.below(4)]})


def some_map_list(dice, level):
    names = dice.shuffled(NAMES)[:1 + dice.below(3)]
    keys = names[:1 + dice.below(len(names))]
    made = {name: some_kind(dice, level + 1, False) for name in names}
    return map_list(keys, **{**made, **{key: dice.pick(SCALARS) for key in keys}})


def some_kind(dice, level=0, inside=False):
    """A schema of some kind; inside an atomic value none has a marker."""
    how = dice.below(3) if level > 3 else dice.below(12)
    described = {'description': dice.pick(('', 'é"'))} if dice.one_in(8) else {}
    if how < 3:
        return {**dice.pick(SCALARS), **described}
    if how < 5:
        return {**some_fields(dice, level, inside), **described}
    if how == 5:
        return entries(some_kind(dice, level + 1, inside))
    if how == 6 or inside:
        return items(some_kind(dice, level + 1, True), **({LIST_TYPE: 'atomic'} if not inside and dice.one_in(2) else {}))
    if how == 7:
        return {**dice.pick((some_fields(dice, level, True), entries(some_kind(dice, level + 1, True)))), MAP_TYPE: 'atomic'}
    if how == 8:
        return {**some_fields(dice, level, False), MAP_TYPE: 'granular'}
    return set_of(dice.pick(SCALARS)) if how == 9 else some_map_list(dice, level)


def some_schema(dice):
    made = {name: some_kind(dice) for name in dice.shuffled([it for it in NAMES if it != 'kind'])[:1 + dice.below(5)]}
    return fields(**made)
