"""Wrong values in Python sources, one at a time: other comparisons, constants, fields, signs and branches; narrower
types, shorter slices, other encodings; and without a lock, a call, a conversion, a keyword or a default."""
import ast

SWAPS = {ast.Lt: ast.LtE, ast.Gt: ast.GtE, ast.Eq: ast.NotEq, ast.In: ast.NotIn, ast.Is: ast.IsNot, ast.And: ast.Or}
SWAPS |= {ast.Add: ast.Sub, ast.Mult: ast.FloorDiv, ast.BitAnd: ast.BitOr, ast.USub: ast.UAdd, ast.LShift: ast.RShift}
SWAPS |= {new: old for old, new in SWAPS.items()} | {ast.Div: ast.Mult, ast.Mod: ast.FloorDiv, ast.Pow: ast.Mult}
NARROWER = {f"{kind}{bits}": f"{kind}{bits // 2}" for kind in ("int", "uint") for bits in (64, 32, 16)}
# what makes of a value another one that looks alike, as a function and as a method
CONVERSIONS = {"int", "str", "bool", "float", "list", "tuple", "set", "sorted", "ascontiguousarray", "Fraction"}
CONVERTED = {"astype", "copy", "strip", "rstrip", "resolve", "tolist", "item"}
# those that do without their last word, with the number of words
DEFAULTED = {"get": 2, "pop": 2, "next": 2, "getattr": 3}
NO_ARGUMENTS = ast.arguments([], [], None, [], [], None, [])
ENCODINGS = {"utf-8": "ascii", "ascii": "utf-8", "latin-1": "utf-8"}


def nodes_of(tree):
    """The nodes that do something: neither types nor documentation."""
    documented = (ast.Module, ast.FunctionDef, ast.ClassDef)
    skipped = set()
    for node in ast.walk(tree):
        text = node.body[:1] if isinstance(node, documented) and ast.get_docstring(node) is not None else []
        for part in (getattr(node, "annotation", None), getattr(node, "returns", None), *text):
            skipped.update(ast.walk(part) if part else ())
        if isinstance(node, ast.Subscript) and ast.unparse(node.value) in ("Literal", "Union", "npt.NDArray"):
            skipped.update(ast.walk(node))
    return [node for node in ast.walk(tree) if node not in skipped]


def named(nodes):
    """Of each field of an object, and of each key of an array, the names that stand in the same place elsewhere."""
    modules = {name.asname or name.name for node in nodes if isinstance(node, ast.Import) for name in node.names}
    called = {node.func for node in nodes if isinstance(node, ast.Call)}
    fields = [node for node in nodes if isinstance(node, ast.Attribute) and node not in called]
    keys = [node.slice for node in nodes if isinstance(node, ast.Subscript)]
    groups = [("attr", node, node.attr, ast.unparse(node.value)) for node in fields]
    groups += [("value", key, key.value, "") for key in keys if isinstance(getattr(key, "value", None), str)]
    for name, node, value, group in groups:
        others = sorted({other for _, _, other, same in groups if same == group and other != value})
        if others and group not in modules:
            # the next in their order, and after the last the first
            yield node, (name, next((other for other in others if other > value), others[0]))


def replacing(tree):
    """Gives for a node and another one in its place the change of what holds it."""
    holders = {}
    for node in ast.walk(tree):
        for name, value in ast.iter_fields(node):
            holders.update((id(part), (node, name)) for part in (value if isinstance(value, list) else [value]))

    def replaced(old, new):
        node, name = holders[id(old)]
        value = getattr(node, name)
        return node, name, [new if part is old else part for part in value] if isinstance(value, list) else new

    return replaced


def left_out(nodes, replaced):
    """Each change by which something is left out, or is smaller."""
    for node in nodes:
        name = getattr(getattr(node, "func", None), "attr", getattr(getattr(node, "func", None), "id", None))
        if isinstance(node, ast.With) and node.items[0].optional_vars is None:
            yield replaced(node, ast.If(ast.Constant(True), node.body, []))
        elif isinstance(node, ast.Expr) and isinstance(node.value, ast.Call):
            yield node, "value", ast.Lambda(NO_ARGUMENTS, node.value)
        elif isinstance(node, ast.Attribute) and node.attr in NARROWER:
            yield node, "attr", NARROWER[node.attr]
        elif isinstance(node, ast.Slice) and node.step is None:
            for end, first, op in (("upper", -1, ast.Sub()), ("lower", 1, ast.Add())):
                if not isinstance(bound := getattr(node, end), ast.Constant):
                    yield node, end, ast.BinOp(bound, op, ast.Constant(1)) if bound else ast.Constant(first)
        elif isinstance(node, ast.arguments):
            values = (*node.defaults, *node.kw_defaults)
            yield from (replaced(one, ast.Constant(1)) for one in values if getattr(one, "value", 0) is None)
        elif isinstance(node, ast.Call):
            for word in filter(lambda word: word.arg, node.keywords):
                yield node, "keywords", [one for one in node.keywords if one is not word]
            if name in CONVERSIONS and len(node.args) == 1 and not node.keywords:
                yield replaced(node, node.args[0])
            elif name in CONVERTED and isinstance(node.func, ast.Attribute):
                yield replaced(node, node.func.value)
            elif DEFAULTED.get(name) == len(node.args):
                yield node, "args", node.args[:-1]
            elif name == "encode" and not node.args:
                yield node, "args", [ast.Constant("ascii")]


def changes(tree):
    """Each change as a node, the name of what changes in it, and the new value."""
    nodes = nodes_of(tree)
    others = dict(named(nodes))
    yield from left_out(nodes, replacing(tree))
    for node in nodes:
        if isinstance(node, ast.Compare):
            for place, op in enumerate(node.ops):
                yield node, "ops", [*node.ops[:place], SWAPS[type(op)](), *node.ops[place + 1 :]]
        elif isinstance(node, (ast.BoolOp, ast.BinOp, ast.AugAssign, ast.UnaryOp)) and type(node.op) in SWAPS:
            yield node, "op", SWAPS[type(node.op)]()
        elif isinstance(node, ast.UnaryOp):
            yield node, "operand", ast.UnaryOp(ast.Not(), node.operand)
        elif isinstance(node, (ast.If, ast.IfExp, ast.While)):
            yield node, "test", ast.UnaryOp(ast.Not(), node.test)
        elif isinstance(node, ast.comprehension) and node.ifs:
            yield node, "ifs", [ast.UnaryOp(ast.Not(), node.ifs[0]), *node.ifs[1:]]
        elif node in others:
            yield node, *others[node]
        elif isinstance(node, ast.Constant) and node.value in ENCODINGS:
            yield node, "value", ENCODINGS[node.value]
        elif isinstance(node, ast.Constant) and isinstance(node.value, (bool, int, float, str, bytes)):
            more = {str: "x", bytes: b"x"}.get(type(node.value), 1)
            yield node, "value", not node.value if isinstance(node.value, bool) else node.value + more


def begin_of(source):
    """The line by which the system runs a script, or nothing."""
    return source[: source.index("\n") + 1] if source.startswith("#!") else ""


def plain(source):
    """A file without what a parser passes over, as its mutants are."""
    return begin_of(source) + ast.unparse(ast.parse(source))


def mutants_of(file, source):
    """The mutants of a file: its new text, by what it is known (the file, and the line in it that is new), and the number
    of that line in `plain`."""
    tree = ast.parse(source)
    lines = plain(source).splitlines()
    for node, name, new in changes(tree):
        old = getattr(node, name)
        setattr(node, name, new)
        text = begin_of(source) + ast.unparse(tree)
        setattr(node, name, old)
        pairs = enumerate(zip(text.splitlines(), lines), 1)
        number, changed = next(((number, one) for number, (one, other) in pairs if one != other), (0, None))
        if changed is not None:
            yield text, f"{file}: {changed.strip()}", number
