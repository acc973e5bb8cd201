#!/usr/bin/env python3
"""Joined input of a stranger who wants the audit to be slow, of about so many megabytes, clean by its evidence.

    python3 bench/hostile.py KIND MEGABYTES > joined

KIND is one of
  other_changes  change lines of 200 relations, each of another namespace
  same_changes   change lines of 200 relations, all of one namespace
  late_changes   half of the bytes are tuples, the other half change lines behind them
  kinds          tuples that each store another relation of usersets, and up to 4,000 small changes of another namespace behind them
  own_kinds      the same, and the changes are of the tuples' namespace
  spread_kinds   tuples of 60 relations that each lead to 250 namespaces, and up to 4,000 changes of the tuples' namespace behind them
  read_kinds     the same, where one of the relations reads a tupleset and the 250 namespaces are declared
  more_kinds     tuples that each store another relation of usersets of 250 namespaces, and changes of these that bring one relation each
  known_kinds    a wide rule, and tuples that each store another relation of usersets, all of them declared
  old_kinds      changes of a wide rule, and behind them tuples whose users are of 1,000 namespaces that are not declared
  covers         such tuples, and behind them changes of their namespace
  cube           a rule of many `this` in nested unions, usersets of a namespace that is not declared, and one record of many facts of their set
  stored         the same with a plain rule
  records        the same, with a record of one fact for each check
  ghosts         as `records`, where each userset has a relation and a namespace of its own, which nobody declares
  dead           as `stored`, where the usersets are declared and were removed again
  late           the same, where they stand and are declared behind the snapshot that is asked for
  churned        usersets that are added and removed again, and a record of two facts at each snapshot, in random order
  churned_through  the same through a tupleset
  churned_led    the same, and a user who is known to be in a group that is not stored there, and is let in as an owner
  parents        as `stored`, through a tupleset
  lacking        the same, where the users' namespace is declared and lacks the relation
  led            usersets that are not declared, stored behind a group that is, and facts that hold through that group
  led_through    the same through a tupleset
  led_far        a user of many groups, and documents that each store the first of these behind many others
  led_again      a user of many groups, and a document that stores the first of these behind many others, asked for again and again
  wide_rule      a rule of many places in nested unions and intersections of two leaves, and records of many facts
  same_fact      the same, with one fact again and again
  wide_computed  a rule of many places that compute 250 other relations
  wide_pairs     a rule of many intersections that differ, and all begin with one leaf
  wide_leaves    the same, and they end with it: before it stand two of 250 computed relations, which nothing is known of
  wide_through   a rule of many relations through one tupleset, in which three usersets are stored
  wide_records   as `wide_pairs`, with a record of one fact for each check
  wide_turns     as `wide_pairs`, behind two leaves that deny the users in turn
  wide_users     as `wide_through`, and users that are let in by the last of the relations
  wide_crowd     as `wide_through`, where a hundred usersets are stored, and a hundred namespaces are declared
  few_through    a rule of 14 relations through one tupleset, which stores usersets of 250 namespaces that declare none of them
  many_names     a rule of 30 relations through a tupleset that stores usersets of a namespace with 250 others
  many_tuplesets a rule through 100 tuplesets, each of which stores usersets of 17 namespaces that do not declare what is read
  tuplesets_in_turn  the same with 240 namespaces that declare what is read and of which nothing is stored, and facts of two objects in turn
  snapshots_in_turn  the same, and records of one fact each at two snapshots in turn
  objects_in_turn    the same, and facts of 16 objects, of which each is asked for again and again
  wide_tuples    a rule of many intersections of relations that are read through ten tuplesets, no two alike and none declared
  wide_stored    the same, and each tupleset stores 17 usersets, among 250 namespaces
  same_object    a tupleset that stores usersets of one object alone, and facts that name what is read of it
  same_object_in_turn      the same, where each userset is removed when the next is added, and a record at each snapshot, in random order
  same_object_overlapping  the same, where each userset stays until a fifth of them are added behind it
  wide_folders   as `wide_through`, and each fact is of another object, in whose tupleset a userset is stored
  chosen_leaves  an intersection that reads two relations through a tupleset in turn, whose marks agree, and users who are in both
  chosen_relations  as `wide_through`, where the names of the relations have one hash, as has each of 250 that the userset's namespace declares
  many_namespaces   a narrow rule through two tuplesets of 17 usersets, and 254 namespaces that declare what is read and of which nothing is stored
  chosen_namespaces  the same, and the names of the namespaces have one hash
  chosen_users   such namespaces, and stored usersets of others with that hash, which nobody declares
  beyond_first   usersets that were added and removed again, and a user of 70 groups, who is let in by the last of 250 relations
  known_folders  a user of as many folders as each of many objects stores others, who is let in by the last of 250 relations
  live_grid      objects that all store the same groups, 250 relations that each read a member of these, and users who are in none
  known_grid     the same, and a user of the group that was stored first, and of as many others that are stored nowhere
  known_through  as `wide_users`, with many documents, and one user who is known to be in many groups
  asked_changes  changes of a rule through 17 tuplesets, and a check that asks it behind each of them
  moments        a wide rule through a tupleset, and objects that each store 100 usersets there
  ring           groups in a circle, and checks that each of many strangers is not in it: for `make`
  wide_make      a rule of many places that compute one relation, and objects in a chain of such rules: for `make`
  nested_make    a rule of many intersections, and objects in a chain of such rules: for `make`
  parts_make     a rule of many intersections of relations that are read through ten tuplesets, and objects in a chain of such rules: for `make`
  through_make   a rule of many relations through one tupleset, in which 400 usersets are stored, and checks of two such objects in turn: for `make`
  few_make       the same with 60 relations, of which one of the usersets' 250 namespaces declares one: for `make`
  each_declares  as `through_make`, where each of 250 namespaces declares other ones of the relations, and the usersets are of one of them: for `make`
  unread_through as `few_make`, where the usersets' namespaces each declare 200 relations that the rule does not read: for `make`
  late_through   as `few_make`, where the usersets' namespaces declare the relations behind the snapshots that are asked for: for `make`
  wide_groups    a rule of `this` and many relations through one tupleset, and objects that each store one group: for `make`
  many_make      a rule of one relation through many tuplesets, in each of which 17 usersets are stored, and checks of two such objects in turn: for `make`
  small_sets     a rule of 60 relations through each of many tuplesets, in each of which 16 usersets are stored, and checks of two such objects in turn: for `make`
  three_steps    a group of many groups of one group each, and checks that users of the last are in the first: for `make`
  given_up       objects in a chain, relations that each read others, and checks of what no record can say: for `make`
  minus_make     objects in a chain that each have whom the next one has and a wide rule has not: for `make`
  barred_make    documents that each bar the user by three steps, and by a group of many others: for `make`
  toggled        one tuple added and removed in every other commit, and checks at old snapshots
  ids            one group of users alone, and checks that a stranger is not in it
  chain          records of one chain of groups each, as long as a record may be: from the last group on
  reversed       the same chains, whose groups are stored in the other order
  circle         the same groups in a circle, and checks that nobody is in it
  alike          objects whose texts share all but the last bytes
  long_text      lines of one text of 2^20 bytes
  nested         lines of nested arrays
  short_keys     lines of 100,000 short keys
  versions       content checks that issue a version each, and checks of them
  long_ids       ids of 128 bytes
"""
import json
import random

from trace import THIS, Input, asked, relation, text

LINE = 1 << 20


def blown(size, key, values):
    """Check lines with a key that nothing reads, and as little else as there may be."""
    given = Input(size, [{"name": "doc", "relations": [relation("viewer")]}])
    goal = "doc:readme#viewer@10"
    given.commit([goal])
    while not given.is_full():
        given.line({"kind": "check", "goal": goal, "snapshot": 1, "reply": True, "zookie": "z1-%016x" % 1, key: values()})
        given.records.append(text({"line": len(given.lines), "steps": [{"yes": goal}]}))
    return given


def rules_of(count):
    """Relations that read their neighbours: the rules of a large namespace."""
    names = [f"r{k}" for k in range(count)]
    places = [[{"computed": names[(k + step) % count]} for step in range(1, 52)] for k in range(count)]
    return [relation(name, {"union": [THIS] + some}) for name, some in zip(names, places)]


def changes(size, name_of, before=()):
    given = Input(size, [{"name": "doc", "relations": [relation("viewer")]}])
    rules = rules_of(200)
    for tuples in before:
        given.commit(tuples)
    if not before:
        given.commit(["doc:readme#viewer@10"])
    k = 0
    while not given.is_full() and k < 250:
        given.at += 1
        given.line({"kind": "namespace", "at": given.at, "name": name_of(k), "relations": rules})
        k += 1
    given.check("doc:readme#viewer@10", True, [{"yes": "doc:readme#viewer@10"}], snapshot=1)
    return given


def late_changes(size):
    tuples, bytes_of = [["doc:readme#viewer@10"]], 0
    while bytes_of < size // 2:
        k = len(tuples)
        tuples.append([f"doc:{k}/{user}#viewer@{user}" for user in range(100)])
        bytes_of += sum(len(one) + 3 for one in tuples[-1])
    return changes(size, lambda k: f"n{k}", tuples)


def kinds(size, name):
    """Tuples that each store another relation of usersets, and behind them changes of a namespace."""
    small = [relation("viewer")]
    given = Input(size, [{"name": "doc", "relations": small}, {"name": "plan", "relations": small}])
    k = 0
    while given.bytes < size // 2:
        given.commit([f"doc:a#viewer@group:b#m{j}" for j in range(k, k + 100)])
        k += 100
    for _ in range(4000):
        if given.is_full():
            break
        given.at += 1
        given.line({"kind": "namespace", "at": given.at, "name": name, "relations": small})
    given.check("doc:a#viewer@10", False, [{"no": ["doc:a#viewer@10"]}], snapshot=1)
    return given


def spread_kinds(size, more=(), users=()):
    """Tuples of 60 relations of one namespace that lead to 250 namespaces each, and behind them changes of that namespace."""
    relations = [relation(f"r{k}") for k in range(60)] + list(more)
    given = Input(size, [{"name": "doc", "relations": relations}, *users])
    for k in range(60):
        given.commit([f"doc:a#r{k}@n{j}:b#m" for j in range(250)])
    for _ in range(4000):
        if given.is_full():
            break
        given.at += 1
        given.line({"kind": "namespace", "at": given.at, "name": "doc", "relations": relations})
    given.check("doc:b#r0@10", False, [{"no": ["doc:b#r0@10"]}], snapshot=1)
    return given


def read_kinds(size):
    """The same, where one of the relations reads a tupleset and the users' namespaces are declared."""
    reader = relation("reader", {"tuple_to": {"tupleset": "r0", "computed": "m"}})
    return spread_kinds(size, [reader], [{"name": f"n{j}", "relations": [relation("m")]} for j in range(250)])


def more_kinds(size):
    """Tuples that each store another relation of usersets, and behind them changes of the users' namespaces that bring one relation each."""
    given = Input(size, [{"name": "doc", "relations": [relation("viewer")]}])
    k = 0
    while given.bytes < size // 3:
        given.commit([f"doc:a#viewer@n{j % 250}:b#m{j // 250}" for j in range(k, k + 100)])
        k += 100
    for change in range(4000):
        if given.is_full():
            break
        given.at += 1
        given.line({"kind": "namespace", "at": given.at, "name": f"n{change % 250}", "relations": [relation(f"m{j}") for j in range(change // 250 + 1)]})
    given.check("doc:a#viewer@10", False, [{"no": ["doc:a#viewer@10"]}], snapshot=1)
    return given


def nested(leaves, joint="union"):
    """A union of many places, or an intersection: one has at most 64 children."""
    while len(leaves) > 64:
        leaves = [{joint: leaves[k:k + 64]} for k in range(0, len(leaves), 64)]
    return {joint: leaves}


def wide(size):
    """A relation with a rule of about so many bytes."""
    through = {"tuple_to": {"tupleset": "viewer", "computed": "m0"}}
    return relation("viewer", nested([THIS, through] * (size // 60)))


def known_kinds(size):
    """A wide rule, and tuples that each store another relation of usersets. All of these are declared."""
    users = [{"name": f"n{j}", "relations": [relation(f"m{k}") for k in range(250)]} for j in range(min(size // 16000, 250))]
    given = Input(size, [{"name": "doc", "relations": [wide(min(size // 4, 500000))]}, *users])
    given.bytes = sum(len(line) + 1 for line in given.lines)
    for n in users:
        given.commit([f"doc:a#viewer@{n['name']}:b#m{k}" for k in range(250)])
    while not given.is_full():
        given.check("doc:b#viewer@10", False, [{"no": ["doc:b#viewer@10"]}])
    return given


def foreign(given, size):
    """Tuples whose users are of namespaces that are not declared."""
    k = 0
    while given.bytes < size:
        given.commit([f"doc:{j}#viewer@n{j % 1000}:b#m" for j in range(k, k + 100)])
        k += 100


def changed(given, size, relations):
    """Changes of the namespace of documents."""
    changes = 0
    while given.bytes < size and changes < 4000:
        given.at += 1
        changes += 1
        given.line({"kind": "namespace", "at": given.at, "name": "doc", "relations": relations})


def old_kinds(size):
    given = Input(size, [{"name": "doc", "relations": [relation("viewer")]}])
    changed(given, size // 2, [wide(10000)])
    foreign(given, size)
    given.check("doc:b#viewer@10", False, [{"no": ["doc:b#viewer@10"]}])
    return given


def covers(size):
    given = Input(size, [{"name": "doc", "relations": [relation("viewer")]}])
    foreign(given, size // 2)
    changed(given, size, [relation("viewer")])
    given.check("doc:b#viewer@10", False, [{"no": ["doc:b#viewer@10"]}])
    return given


def refused(given, facts, snapshot=None):
    """A check that the first of some facts does not hold, and a record that says so of all of them."""
    given.check(facts[0], False, [{"no": facts}], snapshot)


def barred(given, size):
    """Usersets of a namespace that is not declared, stored in one set."""
    k = 0
    while given.bytes < size:
        given.commit([f"doc:a#viewer@ghost:{j}#m" for j in range(k, k + 100)])
        k += 100


def facts_of(goal, size, first=0):
    """Facts of one userset and many users, of about so many bytes, and no more than a record may have."""
    return [f"{goal}@{first + user}" for user in range(min(size // (len(goal) + 9), 100000, (LINE - 100) // (len(goal) + 10)))]


def asked_of_many(given):
    """Records of as many facts as a line holds, until the input is full."""
    first = 0
    while not given.is_full():
        facts = facts_of("doc:a#viewer", given.size - given.bytes, first) or ["doc:a#viewer@1"]
        refused(given, facts)
        first += len(facts)
    return given


def cube(size):
    rule = nested([THIS] * (size // 36))
    given = Input(size, [{"name": "doc", "relations": [relation("viewer", rule)]}])
    given.bytes = len(given.lines[0])
    barred(given, size * 2 // 3)
    return asked_of_many(given)


def stored(size):
    given = Input(size, [{"name": "doc", "relations": [relation("viewer")]}])
    barred(given, size // 2)
    return asked_of_many(given)


def records(size):
    given = Input(size, [{"name": "doc", "relations": [relation("viewer")]}])
    barred(given, size // 2)
    return asked_one_by_one(given)


def ghosts(size):
    given = Input(size, [{"name": "doc", "relations": [relation("viewer")]}])
    k = 0
    while given.bytes < size // 2:
        given.commit([f"doc:a#viewer@g{j}:b#m{j}" for j in range(k, k + 100)])
        k += 100
    return asked_one_by_one(given)


def asked_one_by_one(given):
    """A record of one fact for each check, until the input is full."""
    user = 0
    while not given.is_full():
        refused(given, [f"doc:a#viewer@{user}"])
        user += 1
    return given


def grouped(size):
    """Documents whose viewers are groups."""
    return Input(size, [{"name": "doc", "relations": [relation("viewer")]}, {"name": "group", "relations": [relation("member")]}])


def stored_groups(given, size):
    """Groups that are stored in one set."""
    k = 0
    while given.bytes < size:
        given.commit([f"doc:a#viewer@group:{j}#member" for j in range(k, k + 100)])
        k += 100
    return k


def dead(size):
    given = grouped(size)
    for k in range(0, stored_groups(given, size // 4), 100):
        given.commit([], [f"doc:a#viewer@group:{j}#member" for j in range(k, k + 100)])
    return asked_of_many(given)


def late(size):
    given = Input(size, [{"name": "doc", "relations": [relation("viewer")]}])
    k = 0
    while given.bytes < size // 2:
        given.commit([f"doc:a#viewer@group:{j}#member" for j in range(k, k + 100)])
        k += 100
    snapshot = given.at
    given.at += 1000
    given.line({"kind": "namespace", "at": given.at, "name": "group", "relations": [relation("member")]})
    first = 0
    while not given.is_full():
        facts = facts_of("doc:a#viewer", given.size - given.bytes, first) or ["doc:a#viewer@1"]
        refused(given, facts, snapshot + 500)
        first += len(facts)
    return given


def churn(given, stored, size):
    """Usersets of which each is removed as the next one is added; how many."""
    k = 0
    while given.bytes < size:
        given.commit([stored % k], [stored % (k - 1)] if k else [])
        k += 1
    return k


def churned_in(given, stored, member):
    """Such usersets, and records of two facts at a snapshot each, in random order: of what is stored then nobody is a member."""
    before = given.at
    k = churn(given, stored, given.size // 2)
    order = random.Random(7)
    user = 0
    while not given.is_full():
        at = order.randrange(1, k + 1)
        refused(given, [f"doc:a#viewer@{user}", f"{member % (at - 1)}@{user}"], before + at)
        user += 1
    return given


def churned(size):
    return churned_in(grouped(size), "doc:a#viewer@group:%d#member", "group:%d#member")


def churned_through(size):
    return churned_in(parented(size, [{"name": "folder", "relations": [relation("viewer")]}]), "doc:a#parent@folder:%d#...", "folder:%d#viewer")


def churned_led(size):
    """A user of a group that is not stored there, who is let in as an owner."""
    rule = {"union": [THIS, {"computed": "owner"}]}
    given = Input(size, [{"name": "doc", "relations": [relation("owner"), relation("viewer", rule)]}, {"name": "group", "relations": [relation("member")]}])
    given.commit(["doc:a#owner@1", "group:own#member@1"])
    k = churn(given, "doc:a#viewer@group:%d#member", size // 2)
    order = random.Random(7)
    while not given.is_full():
        steps = [{"yes": fact} for fact in ("group:own#member@1", "doc:a#owner@1", "doc:a#viewer@1")]
        given.check("doc:a#viewer@1", True, steps, order.randrange(2, k + 2))
    return given


def led_by(given, group, goal):
    """Facts that hold through one userset, which is stored before all others."""
    user = 0
    while not given.is_full():
        users = range(user, user + 100)
        given.commit([f"{group}@{one}" for one in users])
        given.check(f"{goal}@{user}", True, [{"yes": f"{of}@{one}"} for one in users for of in (group, goal)])
        user += 100
    return given


def led(size):
    given = grouped(size)
    given.commit(["doc:a#viewer@group:0#member"])
    barred(given, size // 3)
    return led_by(given, "group:0#member", "doc:a#viewer")


def led_through(size):
    given = parented(size, [{"name": "folder", "relations": [relation("viewer")]}])
    k = 0
    while given.bytes < size // 3:
        given.commit([f"doc:a#parent@folder:{j}#..." for j in range(k, k + 100)])
        k += 100
    return led_by(given, "folder:0#viewer", "doc:a#viewer")


def led_far(size):
    """One user of many groups, all of whose facts are known, and of many documents that store many groups each."""
    given = grouped(size)
    groups = max(size // 400, 1)
    given.commit([f"group:{k}#member@1" for k in range(groups)])
    documents = max(size // 4000, 1)
    for k in range(documents):
        given.commit([f"doc:{k}#viewer@group:0#member"] + [f"doc:{k}#viewer@ghost:{j}#m" for j in range(40)])
    known = [{"yes": f"group:{k}#member@1"} for k in range(groups)]
    steps = [{"yes": f"doc:{k}#viewer@1"} for k in range(documents)]
    given.check("doc:0#viewer@1", True, known + steps)
    while not given.is_full():
        given.check("doc:0#viewer@1", True, [{"yes": "group:0#member@1"}, {"yes": "doc:0#viewer@1"}])
    return given


def led_again(size):
    """One record: what is known of a user, and then one fact many times, which the first known fact and the first stored userset show."""
    given = grouped(size)
    groups = size // 150
    given.commit(["doc:a#viewer@group:0#member"])
    barred(given, size // 3)
    given.commit([f"group:{k}#member@1" for k in range(groups)])
    known = [{"yes": f"group:{k}#member@1"} for k in range(groups)]
    times = min(max((min(size, LINE) - given.bytes) // 26 - groups, 10), 30000)
    given.check("doc:a#viewer@1", True, known + [{"yes": "doc:a#viewer@1"}] * times)
    return given


def parented(size, namespaces):
    """Documents that are viewed through what stands in their tupleset."""
    through = {"tuple_to": {"tupleset": "parent", "computed": "viewer"}}
    return Input(size, [{"name": "doc", "relations": [relation("parent"), relation("viewer", through)]}, *namespaces])


def through_parents(given):
    k = 0
    while given.bytes < given.size // 2:
        given.commit([f"doc:a#parent@folder:{j}#..." for j in range(k, k + 100)])
        k += 100
    return asked_of_many(given)


def parents(size):
    return through_parents(parented(size, []))


def lacking(size):
    return through_parents(parented(size, [{"name": "folder", "relations": [relation("owner")]}]))


def wide_rules(size, leaves):
    """A namespace with a wide rule of about a third of the bytes, of pairs of these leaves."""
    pairs = [{"intersection": leaves}, {"union": leaves}]
    rule = nested(pairs * (min(size // 3, LINE * 9 // 10) // len(text(pairs))))
    given = Input(size, [{"name": "doc", "relations": [relation("owner"), relation("viewer", rule)]}])
    given.bytes = len(given.lines[0])
    given.commit(["doc:b#owner@1"])
    return given


def wide_rule(size):
    return owned(wide_rules(size, [THIS, {"computed": "owner"}]))


def owned(given):
    """Records that say of many users that they neither own nor view a document."""
    first = 0
    while not given.is_full():
        many = facts_of("doc:a#viewer", (given.size - given.bytes) // 2, first) or ["doc:a#viewer@1"]
        many = many[:len(many) // 2 + 1]
        refused(given, many + [fact.replace("viewer", "owner") for fact in many])
        first += len(many)
    return given


def same_fact(size):
    given = wide_rules(size, [THIS, {"computed": "owner"}])
    while not given.is_full():
        count = min((given.size - given.bytes) // 18 + 1, 50000)
        refused(given, ["doc:a#viewer@1"] * count + ["doc:a#owner@1"])
    return given


def wide_computed(size):
    names = [f"r{k}" for k in range(250)]
    rule = nested([{"computed": names[k % 250]} for k in range(min(size // 3, LINE * 9 // 10) // 19)])
    given = Input(size, [{"name": "doc", "relations": [*map(relation, names), relation("viewer", rule)]}])
    given.bytes = len(given.lines[0])
    given.commit(["doc:b#r0@1"])
    user = 0
    while not given.is_full():
        count = min(max((given.size - given.bytes) // 2700, 1), 300)
        goals = ["doc:a#viewer", *(f"doc:a#{name}" for name in names)]
        refused(given, [f"{goal}@{k}" for k in range(user, user + count) for goal in goals])
        user += count
    return given


def wide_intersections(size, leaves, fill=True):
    """A rule of many intersections, no two alike, of the leaves that two of 250 relations make; and records of many facts, if wanted."""
    names = [f"r{k}" for k in range(250)]
    pairs = [{"intersection": leaves({"computed": names[k // 250 % 250]}, {"computed": names[k % 250]})} for k in range(62500)]
    rule = nested(pairs[:min(size // 3, LINE * 8 // 10) // len(text(pairs[-1]))])
    given = Input(size, [{"name": "doc", "relations": [*map(relation, names), relation("viewer", rule)]}])
    given.bytes = len(given.lines[0])
    given.commit(["doc:b#r0@1"])
    return asked_of_many(given) if fill else given


def wide_pairs(size):
    return wide_intersections(size, lambda one, other: [THIS, one, other])


def wide_leaves(size):
    return wide_intersections(size, lambda one, other: [one, other, THIS])


def through_parent(names):
    """Leaves that read relations of these names through one tupleset."""
    return [{"tuple_to": {"tupleset": "parent", "computed": name}} for name in names]


def through_many(size, *more, names=0, beside=()):
    """Rules of many relations through one tupleset, behind these leaves; those of these names declared and the last ones; and so many
    further namespaces."""
    count = min(size // 3, LINE * 8 // 10) // 52
    rule = nested([*beside, *through_parent(["c%x" % k for k in range(count)]), *through_parent(more)])
    others = [{"name": f"n{k}", "relations": [relation("m")]} for k in range(names)]
    given = Input(size, [{"name": "doc", "relations": [relation("parent"), *map(relation, more), relation("viewer", rule)]}, *others])
    given.bytes = sum(map(len, given.lines))
    return given


def wide_through(size):
    given = through_many(size)
    given.commit([f"doc:a#parent@doc:p{k}#parent" for k in range(3)])
    return asked_of_many(given)


def wide_records(size):
    return asked_one_by_one(wide_intersections(size, lambda one, other: [THIS, one, other], fill=False))


def wide_turns(size):
    """Users that are denied by the first leaf and by the second in turn."""
    turns = [{"computed": "r0"}, {"computed": "r1"}]
    given = wide_intersections(size, lambda one, other: [*turns, one, other], fill=False)
    user = 0
    while not given.is_full():
        count = min(max((given.size - given.bytes) // 40, 2), 20000)
        users = range(user, user + count)
        refused(given, [f"doc:a#viewer@{one}" for one in users] + [f"doc:a#r{one % 2}@{one}" for one in users])
        user += count
    return given


def wide_users(size):
    """Users that are let in by the last of the relations."""
    given = through_many(size, "last")
    given.commit(["doc:a#parent@doc:p#parent"])
    user = 0
    while not given.is_full():
        users = range(user, user + 100)
        given.commit([f"doc:p#last@{one}" for one in users])
        given.check(f"doc:a#viewer@{user}", True, [{"yes": f"doc:{goal}@{one}"} for one in users for goal in ("p#last", "a#viewer")])
        user += 100
    return given


def wide_crowd(size):
    """The tupleset stores a hundred usersets, and a hundred namespaces are declared."""
    given = through_many(size, names=100)
    given.commit([f"doc:a#parent@doc:p{k}#parent" for k in range(100)])
    return asked_of_many(given)


def few_through(size):
    """A rule of a few relations through a tupleset that stores usersets of 250 namespaces, none of which declares one of them."""
    names = [f"c{k}" for k in range(14)]
    rule = {"union": through_parent(names)}
    own = [relation(name) for name in ["parent", *names]]
    others = [{"name": f"n{k}", "relations": [relation("m")]} for k in range(250)]
    given = Input(size, [{"name": "doc", "relations": [*own, relation("viewer", rule)]}, *others])
    given.bytes = sum(map(len, given.lines))
    given.commit([f"doc:a#parent@n{k}:p#m" for k in range(250)])
    return asked_of_many(given)


def many_names(size):
    """30 relations through a tupleset that stores 12 usersets of a namespace with 250 relations, none of which is one of them."""
    names = [f"c{k}" for k in range(30)]
    rule = {"union": through_parent(names)}
    other = {"name": "other", "relations": [relation(f"m{k}") for k in range(250)]}
    given = Input(size, [{"name": "doc", "relations": [*map(relation, ["parent", *names]), relation("viewer", rule)]}, other])
    given.bytes = sum(map(len, given.lines))
    given.commit([f"doc:a#parent@other:p{k}#m0" for k in range(12)])
    return asked_of_many(given)


def many_tuplesets(size):
    """A rule through 100 tuplesets, each of which stores 17 usersets, and 250 further namespaces."""
    sets = [f"p{k}" for k in range(100)]
    rule = nested([{"tuple_to": {"tupleset": name, "computed": "m"}} for name in sets])
    others = [{"name": f"n{k}", "relations": [relation("r")]} for k in range(250)]
    given = Input(size, [{"name": "doc", "relations": [*map(relation, [*sets, "m"]), relation("viewer", rule)]}, *others])
    given.bytes = sum(map(len, given.lines))
    for name in sets:
        given.commit([f"doc:a#{name}@n{k}:p#r" for k in range(17)])
    return asked_of_many(given)


def read_tuplesets(size, objects):
    """A rule through 100 tuplesets, each of which stores 17 usersets of namespaces that do not declare what 240 others declare."""
    sets = [f"p{k}" for k in range(100)]
    rule = nested([{"tuple_to": {"tupleset": name, "computed": "m"}} for name in sets])
    others = [{"name": f"n{k}", "relations": [relation("m" if k < 240 else "r")]} for k in range(250)]
    given = Input(size, [{"name": "doc", "relations": [*map(relation, [*sets, "m"]), relation("viewer", rule)]}, *others])
    given.bytes = sum(map(len, given.lines))
    for one in objects:
        for name in sets:
            given.commit([f"doc:{one}#{name}@n{240 + k % 10}:p{k}#r" for k in range(17)])
    return given


def asked_in_turn(size, objects):
    given = read_tuplesets(size, objects)
    user = 0
    while not given.is_full():
        count = min(max((given.size - given.bytes) // 20, 1), 40000)
        refused(given, [f"doc:{objects[one % len(objects)]}#viewer@{one}" for one in range(user, user + count)])
        user += count
    return given


def snapshots_in_turn(size):
    given = read_tuplesets(size, ["a"])
    user = 0
    while not given.is_full():
        refused(given, [f"doc:a#viewer@{user}"], given.at - user % 2)
        user += 1
    return given


def wide_tuples(size, names=0):
    """A rule of many intersections of what is read through ten tuplesets, and so many further namespaces."""
    sets = [f"p{k}" for k in range(10)]
    places = [{"intersection": [{"tuple_to": {"tupleset": sets[k % 10], "computed": "c%x" % (2 * k + j)}} for j in range(2)]}
              for k in range(min(size // 3, LINE * 8 // 10) // 120)]
    others = [{"name": f"n{k}", "relations": [relation("r")]} for k in range(names)]
    given = Input(size, [{"name": "doc", "relations": [*map(relation, sets), relation("viewer", nested(places))]}, *others])
    given.bytes = sum(map(len, given.lines))
    for name in sets:
        given.commit([f"doc:a#{name}@n{k}:p#r" for k in range(17)] if names else [f"doc:b#{name}@1"])
    return asked_of_many(given)


def one_object(size):
    rule = {"tuple_to": {"tupleset": "parent", "computed": "member"}}
    return Input(size, [{"name": "doc", "relations": [relation("parent"), relation("viewer", rule)]},
                        {"name": "group", "relations": [relation("member")]}])


def same_object(size):
    given = one_object(size)
    k = 0
    while given.bytes < size // 2:
        given.commit([f"doc:a#parent@group:g#x{j}" for j in range(k, k + 100)])
        k += 100
    user = 0
    while not given.is_full():
        users = range(user, user + min(max((given.size - given.bytes) // 40, 1), 20000))
        refused(given, [f"{goal}@{one}" for one in users for goal in ("doc:a#viewer", "group:g#member")])
        user += len(users)
    return given


def same_object_for(size, stay):
    """Each userset of the object is removed when so many are added behind it."""
    given = one_object(size)
    k = 0
    while given.bytes < size // 2:
        given.commit([f"doc:a#parent@group:g#x{k}"], [f"doc:a#parent@group:g#x{k - stay}"] if k >= stay else [])
        k += 1
    order = random.Random(7)
    user = 0
    while not given.is_full():
        refused(given, [f"doc:a#viewer@{user}", f"group:g#member@{user}"], order.randrange(1, k + 1))
        user += 1
    return given


def wide_folders(size):
    given = through_many(size)
    k = 0
    while not given.is_full():
        objects = range(k, k + 100)
        given.commit([f"doc:{one}#parent@doc:p#parent" for one in objects])
        refused(given, [f"doc:{one}#viewer@1" for one in objects])
        k += 100
    return given


# Two names whose marks in `rewrites` agree, where they are read through a tupleset of the name `p`.
ALIKE = ("jv6x0huu_i", "bxhl4kygyb")


def chosen_leaves(size):
    """The userset that lets users in was stored before 15 others, so that it is looked at last."""
    leaves = [{"tuple_to": {"tupleset": "p", "computed": ALIKE[k % 2]}} for k in range(min(size // 3, LINE * 9 // 10) // 53)]
    given = Input(size, [{"name": "d", "relations": [relation("p"), relation("v", nested(leaves, "intersection"))]},
                         {"name": "n", "relations": [*map(relation, ALIKE)]}])
    given.bytes = len(given.lines[0])
    given.commit([f"d:a#p@n:{k}#..." for k in range(16)])
    user = 0
    while not given.is_full():
        users = range(user, user + min(max((given.size - given.bytes) // 140, 1), 5000))
        given.commit([f"n:0#{name}@{one}" for one in users for name in ALIKE])
        given.check(f"d:a#v@{user}", True, [{"yes": f"{goal}@{one}"} for one in users for goal in (*(f"n:0#{name}" for name in ALIKE), "d:a#v")])
        user += len(users)
    return given


def of_one_hash(count, first=0):
    """Names that the kit's tables give one hash: it folds the first 16 bytes to the next eight, and so multiplies by 0 whatever follows."""
    return ["aaaaaaaaaaaato0uspu4yoas%08d" % k for k in range(first, first + count)]


def chosen_relations(size):
    read = of_one_hash(min(size // 3, LINE * 8 // 10) // 75)
    rule = nested(through_parent(read))
    unread = of_one_hash(249, 10**6)
    given = Input(size, [{"name": "doc", "relations": [relation("parent"), relation("viewer", rule)]},
                         {"name": "n", "relations": [*map(relation, [read[0], *unread])]}])
    given.bytes = sum(map(len, given.lines))
    given.commit(["doc:a#parent@n:p#..."])
    user = 0
    while not given.is_full():
        users = range(user, user + min(max((given.size - given.bytes) // 80, 1), 10000))
        refused(given, [f"{goal}@{one}" for one in users for goal in ("doc:a#viewer", f"n:p#{read[0]}")])
        user += len(users)
    return given


def many_namespaces(size, names=tuple(f"n{k}" for k in range(254))):
    rule = {"union": [{"tuple_to": {"tupleset": name, "computed": "m"}} for name in "pq"]}
    others = [{"name": name, "relations": [relation("m")]} for name in names]
    given = Input(size, [{"name": "doc", "relations": [*map(relation, "pq"), relation("viewer", rule)]}, *others])
    given.bytes = sum(map(len, given.lines))
    for name in "pq":
        given.commit([f"doc:a#{name}@ghost:{k}#m" for k in range(17)])
    return asked_of_many(given)


def chosen_users(size):
    others = [{"name": name, "relations": [relation("m")]} for name in of_one_hash(255)]
    given = Input(size, [{"name": "doc", "relations": [relation("viewer")]}, *others])
    given.bytes = sum(map(len, given.lines))
    given.commit([f"doc:a#viewer@{name}:b#m" for name in of_one_hash(16, 1000)])
    return asked_of_many(given)


def beyond_first(size):
    """The folder that lets the user in was known first, and stored first, so that it is looked at last."""
    names = [f"r{k}" for k in range(250)]
    rule = nested([{"tuple_to": {"tupleset": "p", "computed": name}} for name in names])
    given = Input(size, [{"name": "d", "relations": [relation("p"), relation("v", rule)]},
                         {"name": "f", "relations": [relation(names[-1])]}, {"name": "g", "relations": [relation("m")]}])
    given.bytes = sum(map(len, given.lines))
    known = [f"f:0#{names[-1]}@1", *(f"g:{k}#m@1" for k in range(69))]
    given.commit([*known, "d:a#p@f:0#..."])
    k = 1
    while given.bytes < size // 2:
        some = [f"d:a#p@f:{j}#..." for j in range(k, k + 100)]
        given.commit(some)
        given.commit([], some)
        k += 100
    while not given.is_full():
        given.check("d:a#v@1", True, [{"yes": fact} for fact in [*known, "d:a#v@1"]])
    return given


def known_folders(size):
    """The folder that lets the user in was known first, and stored first in each object, and its relation is read last."""
    names = [f"r{k}" for k in range(250)]
    rule = nested([{"tuple_to": {"tupleset": "p", "computed": name}} for name in names])
    given = Input(size, [{"name": "d", "relations": [relation("p"), relation("v", rule)]}, {"name": "f", "relations": list(map(relation, names))}])
    given.bytes = sum(map(len, given.lines))
    count = int((size / 3) ** 0.5)
    known = [f"f:0#{names[-1]}@1", *(f"f:{k}#{names[k % 249]}@1" for k in range(1, count))]
    given.commit(known)
    objects = range(max(int(size) // 90 // count, 1))
    for one in objects:
        given.commit([f"d:{one}#p@f:0#...", *(f"d:{one}#p@f:x{k}#..." for k in range(count))])
    while not given.is_full():
        given.check("d:0#v@1", True, [{"yes": fact} for fact in [*known, *(f"d:{one}#v@1" for one in objects)]])
    return given


def grid(size):
    """Objects that each store the same groups, and relations that each read a member of these: as many groups as relations of all objects."""
    objects = max(round((size / 3 / 250 / 22) ** 0.5), 1)
    names = [f"v{k}" for k in range(250)]
    rule = {"tuple_to": {"tupleset": "p", "computed": "m"}}
    given = Input(size, [{"name": "d", "relations": [relation("p"), *(relation(name, rule) for name in names)]},
                         *({"name": name, "relations": [relation("m")]} for name in "go")])
    given.bytes = sum(map(len, given.lines))
    groups = [f"g:{k}#m" for k in range(min(250 * objects, size // 66))]
    for one in range(objects):
        given.commit([f"d:{one}#p@{group}" for group in groups])
    return given, objects, names, groups


def live_grid(size):
    given, objects, names, groups = grid(size)
    user = 0
    while not given.is_full():
        refused(given, [f"{goal}@{user}" for goal in [*(f"d:{one}#{name}" for one in range(objects) for name in names), *groups]])
        user += 1
    return given


def known_grid(size):
    given, objects, names, groups = grid(size)
    others = [f"o:{k}#m@1" for k in range(len(groups))]
    given.commit([f"{groups[0]}@1", *others])
    while not given.is_full():
        facts = [f"{groups[0]}@1", *others, *(f"d:{one}#{name}@1" for one in range(objects) for name in names)]
        given.check("d:0#v0@1", True, [{"yes": fact} for fact in facts])
    return given


def known_through(size):
    """The relation of the rule by which the user is let in was known first, so that it is looked at last."""
    given = through_many(size, "last", names=1)
    known = ["doc:p#last@1", *(f"n0:{k}#m@1" for k in range(min(size // 4, LINE // 2) // 40))]
    given.commit(known)
    document = 0
    while not given.is_full():
        documents = range(document, document + min(max((size - given.bytes) // 60, 1), 5000))
        given.commit([f"doc:{one}#parent@doc:p#parent" for one in documents])
        given.check(f"doc:{document}#viewer@1", True, [{"yes": fact} for fact in [*known, *(f"doc:{one}#viewer@1" for one in documents)]])
        document += len(documents)
    return given


def asked_changes(size):
    """Each of 17 tuplesets is a part of its own."""
    sets = "abcdefghijklmnopq"
    relations = [*map(relation, sets), relation("v", {"union": [{"tuple_to": {"tupleset": name, "computed": "x"}} for name in sets]})]
    given = Input(size, [{"name": "d", "relations": relations}])
    while not given.is_full() and given.at < 4000:
        given.at += 1
        given.line({"kind": "namespace", "at": given.at, "name": "d", "relations": relations})
        refused(given, ["d:x#v@1"])
    return given


def moments(size):
    rule = {"union": [{"tuple_to": {"tupleset": "p", "computed": name}} for name in "abc"]}
    given = Input(size, [{"name": "d", "relations": [relation("p"), relation("v", rule)]}])
    given.check("d:0#v@1", False, [{"no": ["d:0#v@1"]}], 0)
    k = 0
    while not given.is_full():
        given.commit([f"d:{k:x}#p@d:{j:x}#p" for j in range(100)])
        k += 1
    return given


def ring(size):
    groups = size // 150
    given = Input(size, [{"name": "group", "relations": [relation("member")]}])
    given.commit([f"group:{k}#member@group:{(k + 1) % groups}#member" for k in range(groups)])
    user = 0
    while not given.is_full():
        refused(given, [f"group:0#member@{user}"])
        user += 1
    return given


def wide_make(size):
    rule = nested([{"computed": "owner"}] * (min(size, LINE * 9 // 10) * 9 // 10 // 21))
    given = Input(size, [{"name": "doc", "relations": [relation("owner", {"union": [THIS, {"tuple_to": {"tupleset": "parent", "computed": "viewer"}}]}),
                                                       relation("parent"), relation("viewer", rule)]}])
    given.bytes = len(given.lines[0])
    k = 0
    while not given.is_full():
        given.commit([f"doc:{j}#parent@doc:{j + 1}#..." for j in range(k, k + 100)])
        k += 100
    refused(given, ["doc:0#viewer@1"])
    return given


EACH_OF_250 = [k % 250 for k in range(400)]


def read_by_two(size, read, others, stored):
    """Namespaces that each declare relations of these names, and two objects that are viewed through a tupleset by the relations that are
    read. Each stores 400 usersets there, of the namespaces of these numbers."""
    doc = {"name": "doc", "relations": [relation("parent"), relation("viewer", nested(through_parent(read)))]}
    given = Input(size, [doc, *({"name": f"n{k}", "relations": [*map(relation, names)]} for k, names in enumerate(others))])
    for one in "ab":
        for first in range(0, 400, 100):
            given.commit([f"doc:{one}#parent@n{stored[k]}:{k}#..." for k in range(first, first + 100)])
    return given


def denied_in_turn(given, count):
    """So many checks of the two objects in turn."""
    for user in range(count):
        given.check(f"doc:{'ab'[user % 2]}#viewer@{user}", False, [])
    return given


def many_read(size):
    """Names of relations for a rule of at most a line."""
    return [f"r{k}" for k in range(min(size // 120, LINE * 8 // 10 // 54))]


def through_make(size):
    """Folders that each declare one relation, of which the rule reads many: each check has to name all folders, so there are few checks."""
    return denied_in_turn(read_by_two(size, many_read(size), [["r0"]] * 250, EACH_OF_250), size // 4000)


FEW = [f"r{k}" for k in range(60)]


def few_make(size):
    """One of the namespaces declares one of the relations, so that each check has to name two folders of the 400."""
    return denied_in_turn(read_by_two(size, FEW, [["r0"], *[["x"]] * 249], EACH_OF_250), size // 80)


def each_declares(size):
    """Of the first namespace, which declares the first relation alone, usersets are stored: each check has to name all folders."""
    read = many_read(size)
    return denied_in_turn(read_by_two(size, read, [["r0"], *(read[k::249] or ["x"] for k in range(1, 250))], [0] * 400), size // 4000)


def unread_through(size):
    """As many namespaces as a third of the bytes has room for. One userset is of the one that declares what is read too."""
    count = min(max(size // 3 // 3300, 1), 249)
    unread = [f"x{k}" for k in range(200)]
    stored = [0, *(1 + k % count for k in range(399))]
    return denied_in_turn(read_by_two(size, FEW, [["r0", *unread], *[unread] * count], stored), size // 120)


def late_through(size):
    """Changes, as many as a third of the bytes has room for, behind all checks."""
    given = denied_in_turn(read_by_two(size, FEW, [["r0"], *[["x"]] * 249], EACH_OF_250), size // 120)
    for k in range(1, min(max(size // 3 // 900, 1), 249) + 1):
        given.at += 1
        given.line({"kind": "namespace", "at": given.at, "name": f"n{k}", "relations": [*map(relation, ["x", *FEW])]})
    return given


def wide_groups(size):
    """None of the relations is declared anywhere, so that each check has to name the object's group alone."""
    given = through_many(size, names=1, beside=[THIS])
    k = 0
    while not given.is_full():
        objects = range(k, k + 20)
        given.commit([f"doc:{one}#viewer@n0:{one}#m" for one in objects])
        for one in objects:
            given.check(f"doc:{one}#viewer@{one}", False, [])
        k += 20
    return given


def nested_make(size):
    """A rule of many intersections, no two alike, and objects in a chain that each read the next one's."""
    names = [f"r{k}" for k in range(40)]
    pairs = [{"intersection": [{"computed": one}, {"computed": other}]} for k, one in enumerate(names) for other in names[:k]]
    places = pairs[:max(size // 3 // len(text(pairs[-1])), 1)]
    rule = nested(places + [{"tuple_to": {"tupleset": "parent", "computed": "viewer"}}])
    given = Input(size, [{"name": "doc", "relations": [relation("parent"), *map(relation, names), relation("viewer", rule)]}])
    given.bytes = len(given.lines[0])
    k = 0
    while not given.is_full():
        given.commit([f"doc:{j}#parent@doc:{j + 1}#parent" for j in range(k, k + 20)])
        k += 20
    given.check("doc:0#viewer@7", False, [])
    return given


def parts_make(size):
    """A rule of many intersections of what is read through ten tuplesets, no two alike, and objects in a chain that each read the next one's."""
    sets = [f"p{k}" for k in range(10)]
    places = [{"intersection": [{"tuple_to": {"tupleset": sets[k % 10], "computed": "c%x" % (2 * k + j)}} for j in range(2)]}
              for k in range(min(size // 3, LINE * 8 // 10) // 120)]
    rule = nested([*places, {"tuple_to": {"tupleset": "parent", "computed": "viewer"}}])
    given = Input(size, [{"name": "doc", "relations": [*map(relation, [*sets, "parent"]), relation("viewer", rule)]}])
    given.bytes = len(given.lines[0])
    k = 0
    while not given.is_full():
        given.commit([f"doc:{j}#parent@doc:{j + 1}#parent" for j in range(k, k + 20)])
        k += 20
    given.check("doc:0#viewer@7", False, [])
    return given


def many_make(size):
    """One of the usersets is of the namespace that declares what is read, so that each check has to name two folders."""
    names = [f"t{k}" for k in range(max(min(size // 3000, 200), 1))]
    leaves = [{"tuple_to": {"tupleset": name, "computed": "r0"}} for name in names]
    rule = {"union": [{"union": leaves[k : k + 50]} for k in range(0, len(leaves), 50)]}
    doc = {"name": "doc", "relations": [*map(relation, names), relation("viewer", rule)]}
    given = Input(size, [doc, *({"name": f"n{k}", "relations": [relation("r0" if k == 0 else "x")]} for k in range(18))])
    for one in "ab":
        for name in names:
            given.commit([f"doc:{one}#{name}@n{k if name == 't0' else k + 1}:{k}#..." for k in range(17)])
    return denied_in_turn(given, size // 240)


def small_sets(size):
    """The same of tuplesets of 16 usersets, for which there is no index, and of many relations through each."""
    names = [f"t{k}" for k in range(max(min(size // 3 // 5000, 100), 1))]
    leaves = [{"tuple_to": {"tupleset": name, "computed": f"r{k}"}} for name in names for k in range(60)]
    unread = [f"x{k}" for k in range(100)]
    doc = {"name": "doc", "relations": [*map(relation, names), relation("viewer", nested(leaves))]}
    given = Input(size, [doc, *({"name": f"n{k}", "relations": [*map(relation, unread if k else ["r0"])]} for k in range(17))])
    for one in "ab":
        for name in names:
            given.commit([f"doc:{one}#{name}@n{k if name == 't0' else k + 1}:{k}#..." for k in range(16)])
    return denied_in_turn(given, size // 240)


def three_steps(size):
    given = Input(size, [{"name": "g", "relations": [relation("m")]}])
    count = size // 2 // 80
    for k in range(0, count, 100):
        groups = range(k, min(k + 100, count))
        given.commit([one for j in groups for one in (f"g:all#m@g:{j}#m", f"g:{j}#m@g:{j}/in#m", f"g:{j}/in#m@{j}")])
    user = 0
    while not given.is_full():
        given.check(f"g:all#m@{user % count}", True, [])
        user += 1
    return given


def given_up(size):
    """From 0.05 MB on a cone has some 125,000 facts, and a record would have to say them all. Each relation reads up to 15 others."""
    names = [f"r{k}" for k in range(min(size // 100, 250) + 1)]
    count = min(max(size // 12000, 1), 15)
    rules = [{"union": [{"computed": name} for name in (names * 2)[k + 1:k + 1 + count]]} for k in range(len(names) - 1)]
    last = {"tuple_to": {"tupleset": "p", "computed": "r0"}}
    given = Input(size, [{"name": "d", "relations": [relation("p"), *map(relation, names, [*rules, last])]}])
    given.bytes = len(given.lines[0])
    given.commit([f"d:{k}#p@d:{k + 1}#p" for k in range(min(size // 100, 500))])
    user = 0
    while user == 0 or not given.is_full():
        given.check(f"d:0#r0@{user}", False, [])
        user += 1
    return given


def minus_make(size):
    """From 0.05 MB on a cone has some 125,000 facts, of which a record would have to say too many."""
    objects = min(size * 2 // 3 // 22, 12000)
    names = [f"r{k}" for k in range(min(max(125000 // objects - 1, 9), 250, size // 200))]
    places = [{"intersection": [{"computed": one}, {"computed": other}]} for one, other in zip(names, names[1:])]
    rule = {"exclusion": {"base": {"union": [THIS, {"tuple_to": {"tupleset": "p", "computed": "v"}}]}, "subtract": nested(places)}}
    given = Input(size, [{"name": "d", "relations": [*map(relation, ["p", *names]), {**relation("v", rule), "stratum": 1}]}])
    given.bytes = len(given.lines[0])
    chain = 0
    while not given.is_full():
        for k in range(0, objects, 20):
            given.commit([f"d:{chain}/{j}#p@d:{chain}/{j + 1}#p" for j in range(k, k + 20)])
        given.commit([f"d:{chain}/{objects - 1}#v@1"])
        given.check(f"d:{chain}/0#v@1", True, [])
        chain += 1
    return given


def barred_make(size):
    """Documents that each bar the user by three steps, and by a group of many groups that the user is in none of."""
    doc = {"name": "d", "relations": [relation("banned"), {**relation("v", {"exclusion": {"base": THIS, "subtract": {"computed": "banned"}}}), "stratum": 1}]}
    given = Input(size, [{"name": "g", "relations": [relation("m")]}, doc, {"name": "top", "relations": [{**relation("m"), "stratum": 1}]}])
    count = size // 500
    for k in range(count):
        given.commit([f"g:hub#m@g:{k}#m", f"g:{k}#m@g:{k}/in#m", f"g:{k}/a#m@g:{k}/b#m", f"g:{k}/b#m@g:{k}/c#m", f"g:{k}/c#m@1",
                      f"d:{k}#banned@g:hub#m", f"d:{k}#banned@g:{k}/a#m", f"d:{k}#v@1", f"top:all#m@d:{k}#v"])
    given.check("top:all#m@1", False, [])
    return given


def toggled(size):
    given = Input(size, [{"name": "doc", "relations": [relation("viewer")]}])
    goal = "doc:readme#viewer@10"
    while not given.is_full():
        given.commit([goal])
        given.commit([], [goal])
        snapshot = given.at // 2 * 7919 % given.at + 1
        if snapshot % 2:
            given.check(goal, True, [{"yes": goal}], snapshot)
        else:
            given.check(goal, False, [{"no": [goal]}], snapshot)
    return given


def ids(size):
    given = Input(size, [{"name": "group", "relations": [relation("member")]}])
    user = 0
    while given.bytes < size * 9 // 10:
        given.commit([f"group:all#member@{user + i}" for i in range(1000)])
        user += 1000
    goal = f"group:all#member@{user}"
    while not given.is_full():
        given.check(goal, False, [{"no": [goal]}])
    return given


def rings(size, order, closed):
    """Groups that store one another, and a record for each ring. A record has 30,000 facts: more do not fit its line."""
    given = Input(size, [{"name": "g", "relations": [relation("m")]}])
    count, ring = 30000, 0
    while not given.is_full():
        names = [f"g:{ring}/{k}#m" for k in range(count)]
        links = [f"{one}@{two}" for one, two in zip(names, names[1:])]
        links.append(f"{names[-1]}@{names[0]}" if closed else f"{names[-1]}@7")
        for start in range(0, count, 1000):
            given.commit(links[::order][start:start + 1000])
        if closed:
            given.check(f"{names[0]}@7", False, [{"no": [f"{name}@7" for name in names]}])
        else:
            given.check(f"{names[0]}@7", True, [{"yes": f"{name}@7"} for name in reversed(names)])
        ring += 1
    return given


def alike(size):
    given = Input(size, [{"name": "doc", "relations": [relation("viewer")]}])
    front = "a" * 100
    while not given.is_full():
        docs = [f"doc:{front}{given.at * 10 + k:08d}#viewer@1" for k in range(10)]
        given.commit(docs)
        given.check(docs[-1], True, [{"yes": docs[-1]}])
    return given


def versions(size):
    given = Input(size, [{"name": "doc", "relations": [relation("editor")]}])
    goal = "doc:plan#editor@30"
    given.commit([goal])
    k = 0
    while not given.is_full():
        given.line({"kind": "content", "goal": goal, "snapshot": 1, "reply": True, "zookie": "z1-%016x" % 1, "version": f"v{k}"})
        given.records.append(text({"line": len(given.lines), "steps": [{"yes": goal}]}))
        given.line({"kind": "check", "goal": goal, "snapshot": 1, "reply": True, "zookie": "z1-%016x" % 1, "version": f"v{k}"})
        given.records.append(text({"line": len(given.lines), "steps": [{"yes": goal}]}))
        given.bytes += len(given.records[-1]) + len(given.records[-2]) + 2
        k += 1
    return given


def long_ids(size):
    given = Input(size, [{"name": "doc", "relations": [relation("viewer")]}])
    while not given.is_full():
        docs = [f"doc:{given.at * 10 + k:08d}{'z' * 120}#viewer@1" for k in range(10)]
        given.commit(docs)
        given.check(docs[0], True, [{"yes": docs[0]}])
    return given


KINDS = {
    "other_changes": lambda size: changes(size, lambda k: f"n{k}"),
    "same_changes": lambda size: changes(size, lambda k: "n"),
    "late_changes": late_changes,
    "kinds": lambda size: kinds(size, "plan"),
    "own_kinds": lambda size: kinds(size, "doc"),
    "spread_kinds": spread_kinds,
    "read_kinds": read_kinds,
    "more_kinds": more_kinds,
    "known_kinds": known_kinds,
    "old_kinds": old_kinds,
    "covers": covers,
    "cube": cube,
    "stored": stored,
    "records": records,
    "ghosts": ghosts,
    "dead": dead,
    "late": late,
    "churned": churned,
    "churned_through": churned_through,
    "churned_led": churned_led,
    "parents": parents,
    "lacking": lacking,
    "led": led,
    "led_through": led_through,
    "led_far": led_far,
    "led_again": led_again,
    "wide_rule": wide_rule,
    "same_fact": same_fact,
    "wide_computed": wide_computed,
    "wide_pairs": wide_pairs,
    "wide_leaves": wide_leaves,
    "wide_through": wide_through,
    "wide_records": wide_records,
    "wide_turns": wide_turns,
    "wide_users": wide_users,
    "wide_crowd": wide_crowd,
    "few_through": few_through,
    "many_names": many_names,
    "many_tuplesets": many_tuplesets,
    "tuplesets_in_turn": lambda size: asked_in_turn(size, "ab"),
    "snapshots_in_turn": snapshots_in_turn,
    "objects_in_turn": lambda size: asked_in_turn(size, "abcdefghijklmnop"),
    "wide_tuples": wide_tuples,
    "wide_stored": lambda size: wide_tuples(size, 250),
    "same_object": same_object,
    "same_object_in_turn": lambda size: same_object_for(size, 1),
    "same_object_overlapping": lambda size: same_object_for(size, max(size // 1000, 1)),
    "wide_folders": wide_folders,
    "chosen_leaves": chosen_leaves,
    "chosen_relations": chosen_relations,
    "many_namespaces": many_namespaces,
    "chosen_namespaces": lambda size: many_namespaces(size, of_one_hash(254)),
    "chosen_users": chosen_users,
    "beyond_first": beyond_first,
    "known_folders": known_folders,
    "live_grid": live_grid,
    "known_grid": known_grid,
    "known_through": known_through,
    "asked_changes": asked_changes,
    "moments": moments,
    "ring": ring,
    "wide_make": wide_make,
    "nested_make": nested_make,
    "parts_make": parts_make,
    "through_make": through_make,
    "few_make": few_make,
    "each_declares": each_declares,
    "unread_through": unread_through,
    "late_through": late_through,
    "wide_groups": wide_groups,
    "many_make": many_make,
    "small_sets": small_sets,
    "three_steps": three_steps,
    "given_up": given_up,
    "minus_make": minus_make,
    "barred_make": barred_make,
    "toggled": toggled,
    "ids": ids,
    "chain": lambda size: rings(size, 1, False),
    "reversed": lambda size: rings(size, -1, False),
    "circle": lambda size: rings(size, 1, True),
    "alike": alike,
    "long_text": lambda size: blown(size, "x", lambda: "y" * (LINE - 200)),
    "nested": lambda size: blown(size, "x", lambda: [[0]] * (LINE // 5)),
    "short_keys": lambda size: blown(size, "x", lambda: {"%x" % k: 0 for k in range(100000)}),
    "versions": versions,
    "long_ids": long_ids,
}

# Those whose evidence the auditor makes: they have none.
FOR_MAKE = ("ring", "wide_make", "nested_make", "parts_make", "through_make", "few_make", "each_declares", "unread_through", "late_through",
            "wide_groups", "many_make", "small_sets", "three_steps", "given_up", "minus_make", "barred_make")


def main():
    kind, size = asked(__doc__, KINDS)
    given = KINDS[kind](size)
    print("\n".join(given.lines + ["---"] + ([] if kind in FOR_MAKE else given.records)))


if __name__ == "__main__":
    main()
