"""Wrong rules, each in place of one of the plain engine's: what a wrong program would do, told from the other side.

`tools/plain_tests` puts each in its place, one at a time, and looks whether the comparison with the program finds it.
"""
from . import benches, bodies, files, operations, paths, records, tables

over, merged_order, compare, points = bodies.over, bodies.merged_order, bodies.compare, bodies.points
seat, clashes = tables.seat, operations.clashes
act, change, keep, move = benches.Bench.act, benches.Bench.change, benches.Bench.keep, benches.Bench.move
read_fields, carried = paths.read_fields_v1, records.carried


def configuration_first(live, configured):
    return configured + tuple(element for element in live if element not in configured)


def live_order_kept(live, configured):
    """As if the live items all kept their places."""
    return live + tuple(element for element in configured if element not in live)


def own_items_before_others(live, configured):
    """The live items refilled in the configuration's order, but behind what the configuration alone has."""
    made = merged_order(live, configured)
    return made[len(live):] + made[:len(live)]


def configured_items_together(live, configured):
    """As if all items of both stood where the first of them stands."""
    both = [element for element in configured if element in live]
    place = next((place for place, element in enumerate(live) if element in both), len(live))
    others = [element for element in live if element not in both]
    return (*others[:place], *both, *others[place:], *(element for element in configured if element not in live))


def shared_paths_dropped(table, act, config):
    return {path for path in operations.owned_by(table, act.key) if path not in config and not paths.is_key_field(path)}


def key_fields_dropped(table, act, config):
    held = set().union(*map(paths.beginnings, tables.others(table, act.key)))
    return {path for path in operations.owned_by(table, act.key) if path not in config and path not in held}


def branches_below_others_dropped(table, act, config):
    """As if only the paths of others were kept, and not those above them."""
    return {path for path in operations.owned_by(table, act.key)
            if path not in config and not paths.is_key_field(path) and path not in tables.others(table, act.key)}


def first_conflict_only(state, act, modified):
    return clashes(state, act, modified)[:1]


def clashes_of_equal_values(state, act, modified):
    return [(row.key, row.owned) for row in state.table if row.key != act.key and row.owned & modified]


def whole_sets_taken(table, key, owned, lost, modified, at):
    table = [row if row.key == key or not row.owned & lost else row._replace(owned=frozenset()) for row in table]
    return seat(table, key, owned, lost, modified, at)


def removed_paths_stay_owned(table, key, owned, lost, modified, at):
    return seat(table, key, owned, modified, modified, at)


def moments_of_others_renewed(table, key, owned, lost, modified, at):
    made = seat(table, key, owned, lost, modified, at)
    old = {row.key: row for row in table}
    return [row._replace(at=at) if row.key in old and row.owned != old[row.key].owned else row for row in made]


def moment_always_renewed(table, key, owned, lost, modified, at):
    return [row._replace(at=at) if row.key == key else row for row in seat(table, key, owned, lost, modified, at)]


def newcomer_first(table, key, owned, lost, modified, at):
    made = seat(table, key, owned, lost, modified, at)
    return made if any(row.key == key for row in table) else made[-1:] + made[:-1]


def one_manager_more(body, table):
    if len(table) > 65:
        raise tables.Fault(43)
    return operations.State(body, table)


def empty_branches_no_points(body):
    return {path for path in points(body) if bodies.is_leaf(body[path]) or paths.is_item(path[-1]) or body[path[:-1]] is bodies.DICT}


def key_fields_no_points(body):
    return {path for path in points(body) if not paths.is_key_field(path)}


def order_is_modified(before, after):
    added, modified, removed = compare(before, after)
    turned = {path for path in before.keys() & after.keys() if isinstance(before[path], tuple) and before[path] != after[path]}
    return added, modified | turned, removed


def future_cleared_by_refusal(bench, command):
    try:
        return change(bench, command)
    except benches.Fault:
        del bench.states[bench.place + 1:], bench.labels[bench.place:]
        raise


def future_kept(bench, state, label):
    bench.states.insert(bench.place + 1, state)
    bench.labels.insert(bench.place, label)
    bench.place += 1


def no_change_not_kept(bench, state, label):
    if state != bench.state():
        keep(bench, state, label)


def newest_forgotten(bench):
    del bench.states[bench.place], bench.labels[bench.place - 1]
    bench.place -= 1


def forgotten_at_the_depth(bench):
    return bench.place >= bench.depth and bench.place > 1


def forgotten_by_a_cut(bench, state, label):
    """As if the history were shortened before what can be redone is cut off."""
    is_full = len(bench.labels) >= bench.depth > 0 < bench.future()
    keep(bench, state, label)
    if is_full and bench.place > 1:
        bench.forget()


def nothing_forgotten(bench):
    return False


def depth_lost_by_a_save(bench):
    return benches.MOST_DEPTH


def longer_than_its_depth(said):
    return True


def removed_items_at_the_end(bench, word):
    """Undo that puts an item back behind the others."""
    left = bench.state().body
    said = move(bench, word)
    if word == 'undo':
        body, table = bench.state()
        orders = {path: tuple(sorted(there, key=lambda it: path in left and path + (it,) not in left))
                  for path, there in body.items() if isinstance(there, tuple)}
        bench.states[bench.place] = operations.State({**body, **orders}, table)
    return said


def emptied_managers_last(bench, word):
    left = {row.key for row in bench.state().table}
    said = move(bench, word)
    if word == 'undo':
        body, table = bench.state()
        bench.states[bench.place] = operations.State(body, sorted(table, key=lambda row: row.key not in left))
    return said


def not_canonical_read(value, at=()):
    if isinstance(value, dict):
        value = {name: {} if inside == {'.': {}} and name != '.' else inside for name, inside in value.items()}
    return read_fields(value, at)


def second_spelling_read(lines):
    line, feed, lines.rest = lines.rest.partition(b'\n')
    try:
        return files.read(line, files.MOST_BYTES)
    except files.Fault:
        raise files.Fault(70) from None


def records_not_compared(told, before, kind, version):
    try:
        after = operations.State(records.carried_body(told, before.body, kind), records.carried_table(told, before.table))
        if records.is_valid(after, kind):
            return after
    except (records.Fault, LookupError, TypeError, ValueError):
        pass
    raise records.Fault(71)


def present_state_is_the_last(bench, place):
    bench.place = len(bench.labels)
    return bench


def commands_of_states_not_asked(kind, line, is_first):
    files.that(isinstance(line, dict) and line.keys() == {'command', 'object'})
    return benches.read_state(kind, line['object'])


def part_not_restricted(act, body):
    return body


def whole_object_taken(act, body, live):
    return body


def owned_outside_lost(table, act):
    return frozenset()


def given_up_in_both_parts(table, act, config):
    held = set().union(*map(paths.beginnings, tables.others(table, act.key)))
    return {path for path in operations.owned_by(table, act.key)
            if path not in config and not paths.is_key_field(path) and path not in held}


def subresource_before_name(bench, command):
    if command.get('subresource') and 'status' not in bench.kind.fields:
        raise benches.Fault(67)
    return act(bench, command)


def subresource_of_any_schema(bench, command):
    key = tables.Key(tables.named(command['manager']), command['do'].capitalize(), command.get('subresource', ''))
    return operations.Act(key, command['at'])


def key_without_part(key):
    return {'manager': key.name, 'operation': key.operation}


def gone_without_part(key):
    return [key.name, key.operation]


def label_without_part(part):
    return {}


def older_labels_with_parts(label):
    return False


def older_entries_with_parts(state):
    return False


def older_records_with_parts(told):
    return False


def orders_not_recorded(order, after):
    return False


def all_changed_paths_cut(first, second):
    """A record that tells each path that goes, and not only the topmost."""
    return sorted(path for path in first if path not in second)


# By its name: where it belongs (a module or class, and what it takes the place of), and the wrong rule.
WRONG = {it[2].__name__: it for it in (
    (bodies, 'merged_order', configuration_first), (bodies, 'merged_order', live_order_kept),
    (bodies, 'merged_order', own_items_before_others), (bodies, 'merged_order', configured_items_together),
    (operations, 'dropped', shared_paths_dropped), (operations, 'dropped', key_fields_dropped),
    (operations, 'dropped', branches_below_others_dropped),
    (operations, 'clashes', first_conflict_only), (operations, 'clashes', clashes_of_equal_values),
    (operations, 'seat', whole_sets_taken), (operations, 'seat', removed_paths_stay_owned), (operations, 'seat', moments_of_others_renewed),
    (operations, 'seat', moment_always_renewed), (operations, 'seat', newcomer_first), (operations, 'with_table', one_manager_more),
    (operations, 'points', empty_branches_no_points), (operations, 'points', key_fields_no_points),
    (operations, 'compare', order_is_modified),
    (benches.Bench, 'change', future_cleared_by_refusal), (benches.Bench, 'keep', future_kept), (benches.Bench, 'keep', no_change_not_kept),
    (benches.Bench, 'forget', newest_forgotten), (benches.Bench, 'is_beyond_depth', forgotten_at_the_depth),
    (benches.Bench, 'keep', forgotten_by_a_cut), (benches.Bench, 'is_beyond_depth', nothing_forgotten),
    (files, 'depth_told', depth_lost_by_a_save), (files, 'is_within_depth', longer_than_its_depth),
    (benches.Bench, 'move', removed_items_at_the_end), (benches.Bench, 'move', emptied_managers_last),
    (tables, 'read_fields_v1', not_canonical_read), (files.Lines, 'next', second_spelling_read), (files, 'carried', records_not_compared),
    (files, 'at_place', present_state_is_the_last), (files, 'read_line_of_state', commands_of_states_not_asked),
    (operations.Act, 'of_part', part_not_restricted), (operations.Act, 'joined', whole_object_taken),
    (operations, 'owned_outside', owned_outside_lost), (operations, 'dropped', given_up_in_both_parts),
    (benches.Bench, 'act', subresource_before_name), (benches.Bench, 'act', subresource_of_any_schema),
    (tables.Key, 'members', key_without_part), (tables.Key, 'listed', gone_without_part), (benches, 'part_members', label_without_part),
    (files, 'is_part_label', older_labels_with_parts), (files, 'has_part', older_entries_with_parts),
    (files, 'tells_part', older_records_with_parts),
    (records, 'is_reordered', orders_not_recorded), (records, 'alone', all_changed_paths_cut))}
