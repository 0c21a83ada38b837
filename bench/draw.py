"""Small random instances and patterns of a schema. `chance` is a random.Random, and `schema` a definition.Schema."""

# How often a row is drawn for one arrow, and how often an instance is begun anew, before it is given up.
TRIES = 100
# Parts of one object of an instance, and of a pattern in all.
MOST_PARTS = 4
# Entries on the cells of a pattern.
MOST_ENTRIES = 4

# Atoms that are drawn beside those that the patterns of a document want.
ATOMS = {"int": [0, -1], "text": ["", "\u00e9"], "bool": [False, True]}


def atoms_of(schema, patterns):
    """The atoms to draw from, by kind: two, and the constants of the patterns."""
    found = {kind: list(atoms) for kind, atoms in ATOMS.items()}
    for pattern in patterns:
        for attribute, _, term in pattern.get("cells", []):
            kind = schema.attributes[schema.attribute_names[attribute]][1]
            if not isinstance(term, dict) and term not in found[kind]:
                found[kind].append(term)
    return found


def follow(rows, path, part):
    for arrow in path:
        part = rows[arrow][part]
    return part


def holds(equation, sizes, rows):
    """Both paths of the equation lead from each part to one part. An equation over arrows without rows is passed."""
    start, first, second = equation
    if any(arrow not in rows for arrow in first + second):
        return True
    return all(follow(rows, first, part) == follow(rows, second, part) for part in range(sizes[start]))


def draw_rows(chance, schema, sizes):
    """Random functions for the arrows that satisfy the equations, or None. The arrows are taken in random order, and each
    is drawn again until the equations between the arrows so far hold."""
    rows = {}
    for arrow in chance.sample(range(len(schema.arrows)), len(schema.arrows)):
        source, target = schema.arrows[arrow]
        if sizes[source] and not sizes[target]:
            return None
        for _ in range(TRIES):
            rows[arrow] = [chance.randrange(sizes[target]) for _ in range(sizes[source])]
            if all(holds(equation, sizes, rows) for equation in schema.equations):
                break
        else:
            return None
    return [rows[arrow] for arrow in range(len(schema.arrows))]


def draw_parts(chance, schema, draw_sizes):
    """Random sizes and rows, without parts where they are not found."""
    for _ in range(TRIES):
        sizes = draw_sizes()
        rows = draw_rows(chance, schema, sizes)
        if rows is not None:
            return {"parts": sizes, "rows": rows}
    return {"parts": [0] * len(schema.objects), "rows": [[] for _ in schema.arrows]}


def beside(schema, first, second):
    """The parts and rows of two instances side by side: those of the second are numbered after those of the first."""
    rows = [
        before + [first["parts"][target] + value for value in after]
        for (_, target), before, after in zip(schema.arrows, first["rows"], second["rows"])
    ]
    return {"parts": [before + after for before, after in zip(first["parts"], second["parts"])], "rows": rows}


def draw_cells(chance, schema, atoms, sizes):
    """Random cells, from some of the atoms."""
    few = {kind: chance.sample(of_kind, chance.randint(1, len(of_kind))) for kind, of_kind in atoms.items()}
    return [[chance.choice(few[kind]) for _ in range(sizes[holder])] for holder, kind in schema.attributes]


def draw_instance(chance, schema, atoms):
    """A random instance with 0 to MOST_PARTS parts of each object."""
    instance = draw_parts(chance, schema, lambda: [chance.randint(0, MOST_PARTS) for _ in schema.objects])
    return instance | {"cells": draw_cells(chance, schema, atoms, instance["parts"])}


def draw_instance_around(chance, schema, atoms, pattern):
    """A random instance that has the pattern's parts and rows, most of its constants, and at most one more part of each
    object."""
    more = draw_parts(chance, schema, lambda: [chance.randint(0, 1) for _ in schema.objects])
    instance = beside(schema, pattern, more)
    cells = draw_cells(chance, schema, atoms, instance["parts"])
    for attribute, part, term in pattern.get("cells", []):
        if not isinstance(term, dict) and chance.random() < 0.9:
            cells[schema.attribute_names[attribute]][part] = term
    return instance | {"cells": cells}


def draw_pattern_sizes(chance, schema, count):
    """Random sizes of so many parts in all."""
    sizes = [0] * len(schema.objects)
    for _ in range(count):
        sizes[chance.randrange(len(sizes))] += 1
    return sizes


def draw_entry(chance, schema, parts, atoms):
    """An entry on one of the cells of the parts: a constant, or one of two variables of the attribute's kind."""
    name, number = chance.choice([
        (name, number) for name, number in schema.attribute_names.items() if parts[schema.attributes[number][0]]
    ])
    holder, kind = schema.attributes[number]
    variable = {"var": f"{kind} {chance.randrange(2)}"}
    return [name, chance.randrange(parts[holder]), chance.choice([variable, variable, chance.choice(atoms[kind])])]


def draw_watch(chance, schema, atoms, name):
    """A watch with a random pattern of at most MOST_PARTS parts and random monic objects, in random order."""
    count = max(chance.randint(0, MOST_PARTS), chance.randint(0, MOST_PARTS))
    pattern = draw_parts(chance, schema, lambda: draw_pattern_sizes(chance, schema, count))
    if any(pattern["parts"][holder] for holder, _ in schema.attributes):
        count = chance.randint(0, MOST_ENTRIES)
        pattern["cells"] = [draw_entry(chance, schema, pattern["parts"], atoms) for _ in range(count)]
    objects = list(schema.objects)
    return {"name": name, "monic": chance.sample(objects, chance.randint(0, len(objects))), "pattern": pattern}
