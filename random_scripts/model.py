"""A second oracle: an interpreter of the subset, written from a description of the language without looking at the program, that counts units and tells the kind of Beyond.
run(text, fuel) answers (output, end, units), or None where it can't tell (deep recursion of its own)."""
import ast
import sys
import threading
import warnings

MOST_WEIGHT, MOST_DEPTH, MOST_ITEMS, MOST_OUT = 1048576, 32, 1048576, 16777216
BUILTINS = {"print", "len", "str", "repr", "int", "bool", "abs", "ord", "chr", "range", "list", "tuple", "dict", "min", "max", "sum", "sorted"}
BASES = {"Exception": None, "ArithmeticError": "Exception", "ZeroDivisionError": "ArithmeticError", "OverflowError": "ArithmeticError",
         "AssertionError": "Exception", "AttributeError": "Exception", "EOFError": "Exception", "ImportError": "Exception",
         "ModuleNotFoundError": "ImportError", "LookupError": "Exception", "IndexError": "LookupError", "KeyError": "LookupError",
         "NameError": "Exception", "UnboundLocalError": "NameError", "RuntimeError": "Exception", "NotImplementedError": "RuntimeError",
         "StopIteration": "Exception", "TypeError": "Exception", "ValueError": "Exception"}
LIST_METHODS = {"append", "clear", "extend", "index", "insert", "pop", "remove", "reverse"}
DICT_METHODS = {"clear", "get", "items", "keys", "pop", "setdefault", "values"}
TEXT_METHODS = {"endswith", "find", "join", "replace", "split", "startswith", "strip"}


class Raised(Exception):
    def __init__(self, kind, *args):
        self.kind, self.values = kind, args


class Beyond(BaseException):
    def __init__(self, kind):
        self.kind = kind


class NoFuel(BaseException):
    pass


class Ret(Exception):
    def __init__(self, v):
        self.v = v


class Brk(Exception):
    pass


class Cont(Exception):
    pass


class Cell:
    __slots__ = ()


class MList(Cell):
    __slots__ = ("items",)

    def __init__(self, items):
        self.items = items


class MDict(Cell):
    __slots__ = ("d", "shape")

    def __init__(self, d):
        self.d, self.shape = d, 0


class MRange(Cell):
    __slots__ = ("r",)

    def __init__(self, r):
        self.r = r


class MFunc(Cell):
    __slots__ = ("info", "scope")

    def __init__(self, info, scope):
        self.info, self.scope = info, scope


class MClass(Cell):
    __slots__ = ("name", "base", "attrs")

    def __init__(self, name, base, attrs):
        self.name, self.base, self.attrs = name, base, attrs


class MInst(Cell):
    __slots__ = ("cls", "attrs")

    def __init__(self, cls):
        self.cls, self.attrs = cls, {}


class MBound(Cell):
    __slots__ = ("receiver", "func", "method")

    def __init__(self, receiver, func=None, method=None):
        self.receiver, self.func, self.method = receiver, func, method


class MIter(Cell):
    __slots__ = ("source", "at", "shape")

    def __init__(self, source, shape=0):
        self.source, self.at, self.shape = source, 0, shape


class MView(Cell):
    __slots__ = ("dict", "which")

    def __init__(self, d, which):
        self.dict, self.which = d, which


class Info:
    """A function: parameters, own names, names declared global, the function around."""
    def __init__(self, node, parent):
        self.node, self.parent = node, parent
        self.params = [a.arg for a in node.args.args]
        self.globals, self.nonlocals, bound = set(), set(), set(self.params)
        self.is_lambda = isinstance(node, ast.Lambda)
        if not self.is_lambda:
            for s in node.body:
                self.collect(s, bound)
        self.locals = bound - self.globals - self.nonlocals

    def collect(self, n, bound):
        if isinstance(n, (ast.FunctionDef, ast.ClassDef)):
            bound.add(n.name)
            return
        if isinstance(n, ast.Lambda):
            return
        if isinstance(n, ast.Global):
            self.globals |= set(n.names)
        elif isinstance(n, ast.Nonlocal):
            self.nonlocals |= set(n.names)
        elif isinstance(n, ast.Name) and isinstance(n.ctx, ast.Store):
            bound.add(n.id)
        for c in ast.iter_child_nodes(n):
            self.collect(c, bound)


class Scope:
    __slots__ = ("info", "names", "parent")

    def __init__(self, info, names, parent):
        self.info, self.names, self.parent = info, names, parent


def weight(v):
    if v is None or v is True or v is False or v is Ellipsis or v is NotImplemented:
        return 1
    if isinstance(v, int):
        return 2
    if isinstance(v, str):
        return 1 + (len(v) if v.isascii() else len(v.encode("utf-8")))
    if isinstance(v, bytes):
        return 1 + len(v)
    if isinstance(v, tuple):
        return 1 + sum(map(weight, v))
    return 8


def depth(v):
    return 1 + max(map(depth, v), default=0) if isinstance(v, tuple) else 0


def has_ref(v):
    return isinstance(v, Cell) or (isinstance(v, tuple) and any(map(has_ref, v)))


def tuple_of(items):
    t = tuple(items)
    if weight(t) > MOST_WEIGHT:
        raise Beyond("Size")
    if depth(t) > MOST_DEPTH:
        raise Beyond("Depth")
    return t


def limited(t):
    if 1 + (len(t) if isinstance(t, bytes) or t.isascii() else len(t.encode("utf-8"))) > MOST_WEIGHT:
        raise Beyond("Size")
    return t


def fits(n):
    if not -(1 << 127) <= n < (1 << 127):
        raise Beyond("Int")
    return n


def is_int(v):
    return isinstance(v, int)


def as_int(v):
    return int(v) if isinstance(v, int) else None


def is_count(n):
    return -(1 << 63) <= n < (1 << 63)


def type_error(t):
    raise Raised("TypeError", t)


def unsupported():
    type_error("unsupported operand")


SPACES = "".join(map(chr, [*range(9, 14), *range(28, 33), 0x85, 0xa0, 0x1680, *range(0x2000, 0x200b), 0x2028, 0x2029, 0x202f, 0x205f, 0x3000]))


class Model:
    def __init__(self, tree, fuel):
        self.tree, self.fuel, self.used = tree, fuel, 0
        self.out, self.size = [], 0
        self.globals = {}
        self.handled = []
        self.printing = []
        self.made = {}
        self.infos = {}
        self.handler_names = {h.name for h in ast.walk(tree) if isinstance(h, ast.ExceptHandler) and h.name}

    # ---- units
    def spend(self):
        if self.used >= self.fuel:
            raise NoFuel()
        self.used += 1

    def judge(self, args):
        if 1 + sum(map(weight, args)) > MOST_WEIGHT:
            raise Beyond("Size")

    # ---- names
    def info(self, node, env):
        i = self.infos.get(node)
        if i is None:
            i = self.infos[node] = Info(node, env.info if env else None)
        return i

    def place(self, name, env):
        """The scope whose own name it is and whether it is this call's own; None for a global name."""
        if env is None or name in env.info.globals:
            return None, False
        if name in env.info.locals:
            return env, True
        s = env.parent
        while s is not None:
            if name in s.info.globals:
                return None, False
            if name in s.info.locals:
                return s, False
            s = s.parent
        return None, False

    def read(self, name, env):
        s, own = self.place(name, env)
        if s is None:
            if name in self.globals:
                return self.globals[name]
            if name in self.handler_names:
                raise Beyond("Name")
            raise Raised("NameError", name)
        if name in s.names:
            return s.names[name]
        raise Raised("UnboundLocalError" if own else "NameError", name)

    def bind(self, name, v, env):
        s, _ = self.place(name, env)
        if s is None:
            if name in self.handler_names:
                raise Beyond("Name")
            self.globals[name] = v
        else:
            s.names[name] = v

    # ---- operations: each one unit
    def class_find(self, c, name):
        while c is not None:
            if name in c.attrs:
                return c.attrs[name], True
            c = c.base
        return None, False

    def getattr(self, v, name):
        self.spend()
        if name.startswith("__"):
            raise Raised("AttributeError", name)
        if isinstance(v, MInst):
            if name in v.attrs:
                return v.attrs[name]
            f, there = self.class_find(v.cls, name)
            if not there:
                raise Raised("AttributeError", name)
            return MBound(v, f) if isinstance(f, MFunc) else f
        if isinstance(v, MClass):
            f, there = self.class_find(v, name)
            if there:
                return f
            if name == "mro":
                raise Beyond("Attribute")
            raise Raised("AttributeError", name)
        ms = LIST_METHODS if isinstance(v, MList) else DICT_METHODS if isinstance(v, MDict) else TEXT_METHODS if isinstance(v, str) else ()
        if name in ms:
            return MBound(v, method=name)
        raise Beyond("Attribute")

    def setattr(self, v, name, x):
        self.spend()
        if name.startswith("__"):
            raise Raised("AttributeError", name)
        if not isinstance(v, (MInst, MClass)):
            raise Beyond("Attribute")
        v.attrs[name] = x

    def delattr(self, v, name):
        self.spend()
        if name.startswith("__"):
            raise Raised("AttributeError", name)
        if not isinstance(v, (MInst, MClass)):
            raise Beyond("Attribute")
        if name not in v.attrs:
            raise Raised("AttributeError", name)
        del v.attrs[name]

    def call(self, f, args):
        self.judge(args)
        self.spend()
        if isinstance(f, MFunc):
            i = f.info
            if len(i.params) != len(args):
                type_error("wrong number of arguments")
            env = Scope(i, dict(zip(i.params, args)), f.scope)
            if i.is_lambda:
                return self.eval(i.node.body, env)
            try:
                self.suite(i.node.body, env)
            except Ret as r:
                return r.v
            return None
        if isinstance(f, MBound):
            if f.method is None:
                return self.call(f.func, [f.receiver] + args)
            return self.method(f.receiver, f.method, args)
        if isinstance(f, MClass):
            o = MInst(f)
            m, there = self.class_find(f, "__init__")
            if there:
                if self.call(m, [o] + args) is not None:
                    type_error("wrong result kind")
            elif args:
                type_error("wrong number of arguments")
            return o
        type_error("not callable")

    def special(self, v, name, args):
        self.judge(args)
        self.spend()
        return getattr(self, "s_" + name)(v, *args)

    def by_class(self, v, name):
        return self.class_find(v.cls, name) if isinstance(v, MInst) else (None, False)

    def s_len(self, v):
        if isinstance(v, MList):
            return len(v.items)
        if isinstance(v, MDict):
            return len(v.d)
        if isinstance(v, MView):
            return len(v.dict.d)
        if isinstance(v, MRange):
            return self.within_length(self.range_len(v.r))
        m, there = self.by_class(v, "__len__")
        if there:
            return self.counted(self.call(m, [v]))
        type_error("no length")

    def range_len(self, r):
        a, b, c = r.start, r.stop, r.step
        return max(0, (b - a + c - 1) // c) if c > 0 else max(0, (a - b - c - 1) // -c)

    def within_length(self, n):
        if n > (1 << 63) - 1:
            raise Beyond("Int")
        return n

    def counted(self, v):
        n = as_int(v)
        if n is None:
            type_error("wrong result kind")
        if n < 0:
            raise Raised("ValueError", "negative length")
        return self.within_length(n)

    def s_bool(self, v):
        if isinstance(v, MList):
            return len(v.items) > 0
        if isinstance(v, MDict):
            return len(v.d) > 0
        if isinstance(v, MView):
            return len(v.dict.d) > 0
        if isinstance(v, MRange):
            return self.range_len(v.r) > 0
        if isinstance(v, MInst):
            m, there = self.by_class(v, "__bool__")
            if there:
                x = self.call(m, [v])
                if not isinstance(x, bool):
                    type_error("wrong result kind")
                return x
            m, there = self.by_class(v, "__len__")
            if there:
                return self.counted(self.call(m, [v])) > 0
        return True

    def index(self, k):
        n = as_int(k)
        if n is None:
            type_error("index is no integer")
        return n

    def key(self, k):
        if has_ref(k):
            raise Beyond("Key")
        return k

    def s_getitem(self, v, k):
        if isinstance(v, MList):
            n = self.index(k)
            if not -len(v.items) <= n < len(v.items):
                raise Raised("IndexError", "list index out of range")
            return v.items[n]
        if isinstance(v, MDict):
            self.key(k)
            if k not in v.d:
                raise Raised("KeyError", k)
            return v.d[k]
        if isinstance(v, MRange):
            n = self.index(k)
            m = self.range_len(v.r)
            if not -m <= n < m:
                raise Raised("IndexError", "range index out of range")
            return v.r[n]
        m, there = self.by_class(v, "__getitem__")
        if there:
            return self.call(m, [v, k])
        type_error("no items")

    def put(self, d, k, x):
        if k not in d.d:
            if len(d.d) + 1 > MOST_ITEMS:
                raise Beyond("Size")
            d.shape += 1
        d.d[k] = x

    def s_setitem(self, v, k, x):
        if isinstance(v, MList):
            n = self.index(k)
            if not -len(v.items) <= n < len(v.items):
                raise Raised("IndexError", "list index out of range")
            v.items[n] = x
            return None
        if isinstance(v, MDict):
            self.put(v, self.key(k), x)
            return None
        m, there = self.by_class(v, "__setitem__")
        if there:
            self.call(m, [v, k, x])
            return None
        type_error("no items")

    def s_delitem(self, v, k):
        if isinstance(v, MList):
            n = self.index(k)
            if not -len(v.items) <= n < len(v.items):
                raise Raised("IndexError", "list index out of range")
            del v.items[n]
            return None
        if isinstance(v, MDict):
            self.key(k)
            if k not in v.d:
                raise Raised("KeyError", k)
            del v.d[k]
            v.shape += 1
            return None
        m, there = self.by_class(v, "__delitem__")
        if there:
            self.call(m, [v, k])
            return None
        type_error("no items")

    def s_contains(self, v, x):
        if isinstance(v, MList):
            return self.search(v, x) is not None
        if isinstance(v, MDict):
            return self.key(x) in v.d
        if isinstance(v, MView):
            if v.which == "keys":
                return self.key(x) in v.dict.d
            if v.which == "items":
                raise Beyond("Compare")
            shape, i = v.dict.shape, 0
            while i < len(v.dict.d):
                if self.found(x, list(v.dict.d.values())[i]):
                    return True
                if v.dict.shape != shape:
                    raise Beyond("Changed")
                i += 1
            return False
        if isinstance(v, MRange):
            n = as_int(x)
            if n is None:
                raise Beyond("Compare")
            return n in v.r
        if isinstance(v, MInst):
            m, there = self.by_class(v, "__contains__")
            if there:
                return self.truth(self.call(m, [v, x]))
            if self.by_class(v, "__iter__")[1] or self.by_class(v, "__getitem__")[1]:
                raise Beyond("Drain")
        type_error("not iterable")

    def s_iter(self, v):
        if isinstance(v, (MList, MRange)) or isinstance(v, (str, bytes, tuple)):
            return MIter(v)
        if isinstance(v, MDict):
            return MIter(v, v.shape)
        if isinstance(v, MView):
            return MIter(v, v.dict.shape)
        if isinstance(v, MIter):
            return v
        if isinstance(v, MInst):
            m, there = self.by_class(v, "__iter__")
            if there:
                x = self.call(m, [v])
                if not isinstance(x, (MInst, MIter)):
                    type_error("wrong result kind")
                return x
            if self.by_class(v, "__getitem__")[1]:
                raise Beyond("Drain")
        type_error("not iterable")

    def s_next(self, v):
        if isinstance(v, MIter):
            s = v.source
            if s is None:
                raise Raised("StopIteration")
            if isinstance(s, (MDict, MView)):
                d = s if isinstance(s, MDict) else s.dict
                if d.shape != v.shape:
                    raise Beyond("Changed")
                which = "keys" if isinstance(s, MDict) else s.which
                xs = {"keys": list(d.d), "values": list(d.d.values()), "items": list(d.d.items())}[which]
            elif isinstance(s, MList):
                xs = s.items
            elif isinstance(s, MRange):
                xs = s.r
            else:
                xs = s
            n = self.range_len(xs) if isinstance(xs, range) else len(xs)
            if v.at >= n:
                v.source = None
                raise Raised("StopIteration")
            x = xs[v.at]
            v.at += 1
            return tuple_of(x) if isinstance(s, MView) and s.which == "items" else x
        if isinstance(v, MInst):
            m, there = self.by_class(v, "__next__")
            if there:
                return self.call(m, [v])
        type_error("not iterable")

    def arith(self, v, name, x):
        if isinstance(v, MInst):
            m, there = self.by_class(v, name)
            if there:
                r = self.call(m, [v, x])
                if r is NotImplemented:
                    unsupported()
                return r
        return Model        # no method

    def s_add(self, v, x):
        if isinstance(v, MList):
            if not isinstance(x, MList):
                unsupported()
            n = self.special(x, "len", [])
            if len(v.items) + n > MOST_ITEMS:
                raise Beyond("Size")
            made = list(v.items)
            for i in range(n):
                made.append(self.special(x, "getitem", [i]))
            return MList(made)
        r = self.arith(v, "__add__", x)
        return unsupported() if r is Model else r

    def s_sub(self, v, x):
        if isinstance(v, MView):
            raise Beyond("Operator")
        r = self.arith(v, "__sub__", x)
        if r is not Model:
            return r
        if isinstance(x, MView):
            if isinstance(v, (MList, MDict, MRange, MIter)):
                raise Beyond("Operator")
            if isinstance(v, MInst) and (self.by_class(v, "__iter__")[1] or self.by_class(v, "__getitem__")[1]):
                raise Beyond("Operator")
        unsupported()

    def s_mul(self, v, x):
        if isinstance(v, MList):
            n = as_int(x)
            if n is None:
                unsupported()
            if not is_count(n):
                raise Beyond("Int")
            if len(v.items) * max(n, 0) > MOST_ITEMS:
                raise Beyond("Size")
            return MList(v.items * n)
        r = self.arith(v, "__mul__", x)
        return unsupported() if r is Model else r

    def s_floordiv(self, v, x):
        r = self.arith(v, "__floordiv__", x)
        return unsupported() if r is Model else r

    def s_mod(self, v, x):
        r = self.arith(v, "__mod__", x)
        return unsupported() if r is Model else r

    def s_neg(self, v):
        m, there = self.by_class(v, "__neg__")
        if there:
            return self.call(m, [v])
        unsupported()

    def s_iadd(self, v, x):
        if not isinstance(v, MList):
            unsupported()
        self.extend(v, x)
        return v

    def extend(self, v, x):
        more = self.drain(x, False)
        if len(v.items) + len(more) > MOST_ITEMS:
            raise Beyond("Size")
        v.items.extend(more)

    # ---- comparing
    def same(self, a, b):
        return a is b and isinstance(a, Cell)

    def compare(self, op, a, b):
        if not has_ref(a) and not has_ref(b):
            try:
                return {"==": a == b, "!=": a != b}[op] if op in ("==", "!=") else {"<": a.__class__ and (lambda: a < b), "<=": lambda: a <= b, ">": lambda: a > b, ">=": lambda: a >= b}[op]()
            except TypeError:
                type_error("no order")
        if isinstance(a, tuple) and isinstance(b, tuple):
            if len(a) != len(b):
                raise Beyond("Compare")
            if op not in ("==", "!="):
                raise Beyond("Order")
            eq = True
            for x, y in zip(a, b):
                if not (self.same(x, y) or self.truth(self.compare("==", x, y))):
                    eq = False
                    break
            return eq == (op == "==")
        if isinstance(a, Cell):
            r = self.cmp(a, op, b)
            if r is not NotImplemented:
                return r
        if isinstance(b, Cell):
            r = self.cmp(b, {"==": "==", "!=": "!=", "<": ">", ">": "<", "<=": ">=", ">=": "<="}[op], a)
            if r is not NotImplemented:
                return r
        if op == "==":
            return self.same(a, b)
        if op == "!=":
            return not self.same(a, b)
        type_error("no order")

    def cmp(self, v, op, x):
        self.spend()
        if isinstance(v, MList) and isinstance(x, MList):
            if op not in ("==", "!="):
                raise Beyond("Order")
            n = self.special(x, "len", [])
            if n != len(v.items):
                return op == "!="
            eq = True
            for i in range(n):
                try:
                    y = self.special(x, "getitem", [i])
                except Raised as r:
                    if r.kind == "IndexError":
                        raise Beyond("Changed")
                    raise
                if len(v.items) != n:
                    raise Beyond("Changed")
                b = self.found(v.items[i], y)
                if len(v.items) != n:
                    raise Beyond("Changed")
                if not b:
                    eq = False
                    break
            if self.special(x, "len", []) != n or len(v.items) != n:
                raise Beyond("Changed")
            return eq == (op == "==")
        for k in (MDict, MRange, MView, MBound):
            if isinstance(v, k) and isinstance(x, k):
                raise Beyond("Compare")
        if isinstance(v, MInst):
            name = {"==": "__eq__", "!=": "__eq__", "<": "__lt__", "<=": "__le__", ">": "__gt__", ">=": "__ge__"}[op]
            m, there = self.by_class(v, name)
            if there:
                r = self.call(m, [v, x])
                if op == "!=" and r is not NotImplemented:
                    return not self.truth(r)
                return r
        return NotImplemented

    def found(self, x, e):
        return self.same(x, e) or self.truth(self.compare("==", x, e))

    def search(self, v, x):
        i = 0
        while i < len(v.items):
            if self.found(x, v.items[i]):
                return i
            i += 1
        return None

    def truth(self, v):
        if isinstance(v, Cell):
            return self.special(v, "bool", [])
        if v is NotImplemented:
            raise Beyond("Truth")
        return bool(v)

    # ---- draining
    def at_hand(self, v):
        if isinstance(v, str):
            return list(v)
        if isinstance(v, (bytes, tuple)):
            return list(v)
        return None

    def drain(self, v, as_tuple):
        xs = self.at_hand(v)
        if xs is not None:
            return xs
        if isinstance(v, (MList, MDict, MRange, MView)):
            return self.go_over(v, as_tuple)
        if isinstance(v, (MInst, MIter)):
            raise Beyond("Drain")
        type_error("not iterable")

    def go_over(self, v, as_tuple):
        it = self.special(v, "iter", [])
        out = []
        while True:
            try:
                x = self.special(it, "next", [])
            except Raised as r:
                if r.kind == "StopIteration":
                    return out
                raise
            out.append(x)
            if as_tuple:
                tuple_of(out)
            elif len(out) > MOST_ITEMS:
                raise Beyond("Size")

    def unpack(self, v, n):
        xs = self.at_hand(v)
        if xs is None:
            if isinstance(v, MList):
                xs = self.go_over(v, False)
            elif isinstance(v, Cell):
                raise Beyond("Drain")
            else:
                type_error("not iterable")
        if len(xs) != n:
            raise Raised("ValueError", "wrong number of values")
        return xs

    # ---- texts
    def add(self, t, part):
        return limited(t + part)

    def repr(self, v):
        if not has_ref(v):
            return limited(repr(v))
        if isinstance(v, tuple):
            t = "("
            for i, x in enumerate(v):
                if i:
                    t = self.add(t, ", ")
                t = self.add(t, self.repr(x))
            return self.add(t, ",)" if len(v) == 1 else ")")
        return self.text_op(v, False)

    def str(self, v):
        if isinstance(v, Cell):
            return self.text_op(v, True)
        return limited(v) if isinstance(v, str) else self.repr(v)

    def text_op(self, v, as_str):
        self.spend()
        if isinstance(v, (MList, MDict)):
            if any(p is v for p in self.printing):
                raise Beyond("CyclicRepr")
            self.printing.append(v)
            try:
                return self.list_text(v) if isinstance(v, MList) else self.dict_text(v)
            finally:
                self.printing.pop()
        if isinstance(v, MRange):
            r = v.r
            return "range(%d, %d%s)" % (r.start, r.stop, "" if r.step == 1 else ", %d" % r.step)
        if isinstance(v, MInst):
            for name in (["__str__"] if as_str else []) + ["__repr__"]:
                m, there = self.by_class(v, name)
                if there:
                    t = self.call(m, [v])
                    if not isinstance(t, str):
                        type_error("wrong result kind")
                    return t
        raise Beyond("Address")

    def list_text(self, v):
        t, i = "[", 0
        while i < len(v.items):
            if i:
                t = self.add(t, ", ")
            t = self.add(t, self.repr(v.items[i]))
            i += 1
        return self.add(t, "]")

    def dict_text(self, v):
        t, i, shape = "{", 0, v.shape
        while i < len(v.d):
            k, x = list(v.d.items())[i]
            if i:
                t = self.add(t, ", ")
            t = self.add(t, repr(k))
            t = self.add(t, ": ")
            s = self.repr(x)
            if v.shape != shape:
                raise Beyond("Changed")
            t = self.add(t, s)
            i += 1
        return self.add(t, "}")

    def write(self, t):
        b = t.encode("utf-8")
        if self.size + len(b) > MOST_OUT:
            raise Beyond("Output")
        self.size += len(b)
        self.out.append(b)

    # ---- methods
    def method(self, v, name, a):
        n = len(a)
        bad = Beyond("Arguments")
        if isinstance(v, MList):
            if name == "append" and n == 1:
                if len(v.items) + 1 > MOST_ITEMS:
                    raise Beyond("Size")
                v.items.append(a[0])
            elif name == "clear" and n == 0:
                v.items.clear()
            elif name == "extend" and n == 1:
                self.extend(v, a[0])
            elif name == "index" and n == 1:
                i = self.search(v, a[0])
                if i is None:
                    raise Raised("ValueError", "not in list")
                return i
            elif name == "insert" and n == 2:
                k = as_int(a[0])
                if k is None:
                    raise bad
                if not is_count(k):
                    raise Beyond("Int")
                if len(v.items) + 1 > MOST_ITEMS:
                    raise Beyond("Size")
                v.items.insert(k, a[1])
            elif name == "pop" and n <= 1:
                k = as_int(a[0]) if n else -1
                if k is None:
                    raise bad
                if not is_count(k):
                    raise Beyond("Int")
                if not v.items:
                    raise Raised("IndexError", "pop from empty list")
                if not -len(v.items) <= k < len(v.items):
                    raise Raised("IndexError", "list index out of range")
                return v.items.pop(k)
            elif name == "remove" and n == 1:
                i = self.search(v, a[0])
                if i is None:
                    raise Raised("ValueError", "not in list")
                if i < len(v.items):
                    del v.items[i]
            elif name == "reverse" and n == 0:
                v.items.reverse()
            else:
                raise bad
            return None
        if isinstance(v, MDict):
            if name == "clear" and n == 0:
                if v.d:
                    v.d.clear()
                    v.shape += 1
                return None
            if name == "get" and n in (1, 2):
                return v.d.get(self.key(a[0]), a[1] if n == 2 else None)
            if name in ("items", "keys", "values") and n == 0:
                return MView(v, name)
            if name == "pop" and n in (1, 2):
                k = self.key(a[0])
                if k in v.d:
                    v.shape += 1
                    return v.d.pop(k)
                if n == 2:
                    return a[1]
                raise Raised("KeyError", k)
            if name == "setdefault" and n == 2:
                k = self.key(a[0])
                if k in v.d:
                    return v.d[k]
                self.put(v, k, a[1])
                return a[1]
            raise bad
        if name == "join" and n == 1:
            xs = self.drain(a[0], False)
            if not all(isinstance(x, str) for x in xs):
                type_error("text expected")
            return limited(v.join(xs))
        if name == "strip" and n == 0:
            return v.strip(SPACES)
        if name == "split" and n == 0:
            return MList(v.split())
        if not all(isinstance(x, str) for x in a):
            raise bad
        if name == "endswith" and n == 1:
            return v.endswith(a[0])
        if name == "startswith" and n == 1:
            return v.startswith(a[0])
        if name == "find" and n == 1:
            return v.find(a[0])
        if name == "replace" and n == 2 and a[0]:
            return limited(v.replace(a[0], a[1]))
        if name == "split" and n == 1:
            if not a[0]:
                raise Raised("ValueError", "empty separator")
            return MList(v.split(a[0]))
        raise bad

    # ---- builtins
    def builtin(self, name, a):
        n = len(a)
        bad = Beyond("Arguments")
        if name == "print":
            for i, v in enumerate(a):
                if i:
                    self.write(" ")
                self.write(self.str(v))
            self.write("\n")
            return None
        if name == "len":
            return self.special(a[0], "len", []) if isinstance(a[0], Cell) else len(a[0]) if isinstance(a[0], (str, bytes, tuple)) else type_error("no length")
        if name == "str":
            return self.str(a[0]) if n else ""
        if name == "repr":
            return self.repr(a[0])
        if name == "int":
            if not n:
                return 0
            if is_int(a[0]):
                return int(a[0])
            if isinstance(a[0], str):
                t = a[0].strip(SPACES)
                d = t[1:] if t[:1] in ("+", "-") and t else t
                if d and all("0" <= c <= "9" for c in d):
                    return fits(int(t))
                if a[0].isascii() and "_" not in a[0]:
                    raise Raised("ValueError", "not an integer text")
                raise Beyond("IntText")
            raise bad
        if name == "bool":
            return self.truth(a[0]) if n else False
        if name == "abs":
            if not is_int(a[0]):
                raise bad
            return fits(abs(int(a[0])))
        if name == "ord":
            if not isinstance(a[0], str) or len(a[0]) != 1:
                raise bad
            return ord(a[0])
        if name == "chr":
            if not is_int(a[0]) or isinstance(a[0], bool):
                raise bad
            if not 0 <= a[0] <= 0x10ffff:
                raise Raised("ValueError", "character out of range")
            if 0xd800 <= a[0] <= 0xdfff:
                raise bad
            return chr(a[0])
        if name == "range":
            if not all(is_int(x) and not isinstance(x, bool) for x in a):
                raise bad
            if n == 3 and a[2] == 0:
                raise Raised("ValueError", "step is zero")
            return MRange(range(*a))
        if name == "list":
            return MList(self.drain(a[0], False) if n else [])
        if name == "tuple":
            return tuple_of(self.drain(a[0], True) if n else [])
        if name == "dict":
            return MDict({})
        if name in ("min", "max"):
            xs = a if n > 1 else self.drain(a[0], False)
            if any(map(has_ref, xs)):
                raise Beyond("Order")
            if not xs:
                raise Raised("ValueError", "empty sequence")
            best = xs[0]
            for x in xs[1:]:
                if self.compare("<" if name == "min" else ">", x, best):
                    best = x
            return best
        if name == "sum":
            xs = self.drain(a[0], False)
            if not all(map(is_int, xs)):
                raise Beyond("Order")
            s = 0
            for x in xs:
                s = fits(s + x)
            return s
        if name == "sorted":
            xs = self.drain(a[0], False)
            if not (all(map(is_int, xs)) or all(isinstance(x, str) for x in xs)):
                raise Beyond("Order")
            return MList(sorted(xs))
        raise AssertionError(name)

    # ---- operators
    def int_op(self, op, a, b):
        a, b = int(a), int(b)
        if op == "+":
            return fits(a + b)
        if op == "-":
            return fits(a - b)
        if op == "*":
            return fits(a * b)
        if op in ("//", "%", "/"):
            if b == 0:
                raise Raised("ZeroDivisionError", "division by zero")
            if op == "/":
                raise Beyond("Float")
            return fits(a // b if op == "//" else a % b)
        if op == "**":
            if b < 0:
                if a == 0:
                    raise Raised("ZeroDivisionError", "division by zero")
                raise Beyond("Float")
            if abs(a) > 1 and b > 130:
                raise Beyond("Int")
            if a in (0, 1, -1) and b > 1:
                b = 2 if b % 2 == 0 else 1
            return fits(a ** b)
        if op in ("<<", ">>"):
            if b < 0:
                raise Raised("ValueError", "negative shift count")
            if op == ">>":
                return a >> min(b, 200)
            if a == 0:
                return 0
            if b > 130:
                raise Beyond("Int")
            return fits(a << b)
        return {"&": a & b, "|": a | b, "^": a ^ b}[op]

    def times(self, s, n):
        if not is_count(n):
            raise Beyond("Int")
        n = max(n, 0)
        if isinstance(s, tuple):
            w = 1 + sum(map(weight, s)) * n
        else:
            w = 1 + (weight(s) - 1) * n
        if w > MOST_WEIGHT:
            raise Beyond("Size")
        return s * (n if len(s) else 0)

    def is_iterable(self, v):
        return isinstance(v, (MList, MDict, MRange, MIter, MView, MInst, str, bytes, tuple))

    def binary(self, op, a, b):
        names = {"+": "add", "-": "sub", "*": "mul", "//": "floordiv", "%": "mod"}
        if isinstance(a, Cell):
            if op in names:
                return self.special(a, names[op], [b])
            return self.unasked(op, a, b)
        if isinstance(b, Cell):
            return self.unasked(op, a, b)
        if is_int(a) and is_int(b):
            if op in ("&", "|", "^") and isinstance(a, bool) and isinstance(b, bool):
                return {"&": a & b, "|": a | b, "^": a ^ b}[op]
            return self.int_op(op, a, b)
        seq = (str, bytes, tuple)
        if op == "+":
            for k in seq:
                if isinstance(a, k) and isinstance(b, k):
                    return tuple_of(a + b) if k is tuple else limited(a + b)
        if op == "*":
            if is_int(a) and isinstance(b, seq):
                return self.times(b, int(a))
            if isinstance(a, seq) and is_int(b):
                return self.times(a, int(b))
        if op == "%" and isinstance(a, (str, bytes)):
            raise Beyond("Operator")
        unsupported()

    def unasked(self, op, a, b):
        view = isinstance(a, MView) or (self.is_iterable(a) and isinstance(b, MView))
        if op in ("-", "&", "^", "|") and view:
            raise Beyond("Operator")
        if op == "|" and (isinstance(a, MClass) or isinstance(b, MClass) or (isinstance(a, MDict) and isinstance(b, MDict))):
            raise Beyond("Operator")
        if op == "*" and is_int(a) and isinstance(b, MList):
            raise Beyond("Operator")
        if op == "%" and isinstance(a, (str, bytes)):
            raise Beyond("Operator")
        unsupported()

    def augmented(self, op, a, b):
        if isinstance(a, MList):
            if op == "+":
                return self.special(a, "iadd", [b])
            if op == "*":
                if is_int(b):
                    raise Beyond("Operator")
                unsupported()
        if isinstance(a, MDict) and op == "|":
            if self.is_iterable(b) or isinstance(b, MClass):
                raise Beyond("Operator")
            unsupported()
        return self.binary(op, a, b)

    OPS = {ast.Add: "+", ast.Sub: "-", ast.Mult: "*", ast.Div: "/", ast.FloorDiv: "//", ast.Mod: "%", ast.Pow: "**", ast.LShift: "<<", ast.RShift: ">>",
           ast.BitOr: "|", ast.BitXor: "^", ast.BitAnd: "&"}
    CMPS = {ast.Eq: "==", ast.NotEq: "!=", ast.Lt: "<", ast.LtE: "<=", ast.Gt: ">", ast.GtE: ">="}

    # ---- expressions: one unit when a node begins
    def eval(self, n, env):
        self.spend()
        return getattr(self, "e_" + n.__class__.__name__)(n, env)

    def e_Name(self, n, env):
        if n.id == "NotImplemented":
            return NotImplemented
        return self.read(n.id, env)

    def e_Constant(self, n, env):
        return n.value

    def e_Tuple(self, n, env):
        return tuple_of([self.eval(x, env) for x in n.elts])

    def e_List(self, n, env):
        return MList([self.eval(x, env) for x in n.elts])

    def e_Dict(self, n, env):
        pairs = []
        for k, v in zip(n.keys, n.values):
            k = self.eval(k, env)
            pairs.append((k, self.eval(v, env)))
        d = {}
        for k, v in pairs:
            d[self.key(k)] = v
        return MDict(d)

    def e_Lambda(self, n, env):
        return MFunc(self.info(n, env), env)

    def e_IfExp(self, n, env):
        return self.eval(n.body if self.truth(self.eval(n.test, env)) else n.orelse, env)

    def e_BoolOp(self, n, env):
        for x in n.values[:-1]:
            v = self.eval(x, env)
            if self.truth(v) == isinstance(n.op, ast.Or):
                return v
        return self.eval(n.values[-1], env)

    def e_UnaryOp(self, n, env):
        v = self.eval(n.operand, env)
        if isinstance(n.op, ast.Not):
            return not self.truth(v)
        if is_int(v):
            v = int(v)
            return fits(-v if isinstance(n.op, ast.USub) else ~v if isinstance(n.op, ast.Invert) else v)
        if isinstance(n.op, ast.USub) and isinstance(v, Cell):
            return self.special(v, "neg", [])
        unsupported()

    def e_BinOp(self, n, env):
        a = self.eval(n.left, env)
        return self.binary(self.OPS[type(n.op)], a, self.eval(n.right, env))

    def contains(self, x, v):
        if isinstance(v, Cell):
            return self.special(v, "contains", [x])
        if isinstance(v, str):
            if not isinstance(x, str):
                type_error("text expected")
            return x in v
        if isinstance(v, bytes):
            raise Beyond("Compare")
        if isinstance(v, tuple):
            for e in v:
                if self.found(x, e):
                    return True
            return False
        type_error("not iterable")

    def link(self, op, a, b):
        if isinstance(op, ast.In):
            return self.contains(a, b)
        if isinstance(op, ast.NotIn):
            return not self.contains(a, b)
        if isinstance(op, ast.Is):
            return a is None
        if isinstance(op, ast.IsNot):
            return a is not None
        return self.compare(self.CMPS[type(op)], a, b)

    def e_Compare(self, n, env):
        a = self.eval(n.left, env)
        for i, (op, right) in enumerate(zip(n.ops, n.comparators)):
            b = self.eval(right, env)
            v = self.link(op, a, b)
            if i == len(n.ops) - 1 or not self.truth(v):
                return v
            a = b

    def is_handler(self, n):
        return isinstance(n, ast.Name) and n.id in self.handler_names

    def e_Attribute(self, n, env):
        if self.is_handler(n.value):
            self.spend()
            return tuple_of(self.on_handled(n.value.id, env).values)
        return self.getattr(self.eval(n.value, env), n.attr)

    def e_Subscript(self, n, env):
        v = self.eval(n.value, env)
        return self.item(v, self.eval(n.slice, env))

    def item(self, v, k):
        if isinstance(v, Cell):
            return self.special(v, "getitem", [k])
        if isinstance(v, (str, bytes, tuple)):
            i = self.index(k)
            if not -len(v) <= i < len(v):
                raise Raised("IndexError", {str: "text", bytes: "bytes", tuple: "tuple"}[type(v)] + " index out of range")
            return v[i]
        type_error("no items")

    def e_Call(self, n, env):
        if isinstance(n.func, ast.Name) and n.func.id in BUILTINS:
            name = n.func.id
            if name in ("str", "repr") and len(n.args) == 1 and self.is_handler(n.args[0]):
                self.spend()
                r = self.on_handled(n.args[0].id, env)
                return limited(exc_str(r) if name == "str" else exc_repr(r))
            return self.builtin(name, [self.eval(x, env) for x in n.args])
        f = self.eval(n.func, env)
        return self.call(f, [self.eval(x, env) for x in n.args])

    # ---- handlers
    def on_handled(self, name, env):
        for h in reversed(self.handled):
            if h["env"] is env and h["name"] == name:
                if h["bound"]:
                    return h["raised"]
                raise Raised("NameError" if env is None else "UnboundLocalError", name)
        raise AssertionError("no handler")

    def handling(self, env, name, r, body):
        self.handled.append({"env": env, "name": name, "raised": r, "bound": True})
        try:
            self.suite(body, env)
        finally:
            self.handled.pop()
            if name is not None:
                for h in reversed(self.handled):
                    if h["env"] is env and h["name"] == name:
                        h["bound"] = False
                        break

    # ---- statements
    def suite(self, body, env):
        for s in body:
            self.spend()
            getattr(self, "t_" + s.__class__.__name__)(s, env)

    def t_Expr(self, s, env):
        self.eval(s.value, env)

    def t_Pass(self, s, env):
        pass

    t_Global = t_Nonlocal = t_Pass

    def t_Break(self, s, env):
        raise Brk()

    def t_Continue(self, s, env):
        raise Cont()

    def t_Return(self, s, env):
        raise Ret(self.eval(s.value, env) if s.value else None)

    def store(self, t, v, env):
        if isinstance(t, ast.Name):
            self.bind(t.id, v, env)
        elif isinstance(t, ast.Attribute):
            self.setattr(self.eval(t.value, env), t.attr, v)
        elif isinstance(t, ast.Subscript):
            o = self.eval(t.value, env)
            self.special(o, "setitem", [self.eval(t.slice, env), v])
        else:
            xs = self.unpack(v, len(t.elts))
            for x, y in zip(t.elts, xs):
                self.store(x, y, env)

    def t_Assign(self, s, env):
        self.store(s.targets[0], self.eval(s.value, env), env)

    def t_AugAssign(self, s, env):
        op, t = self.OPS[type(s.op)], s.target
        if isinstance(t, ast.Name):
            old = self.read(t.id, env)
            self.bind(t.id, self.augmented(op, old, self.eval(s.value, env)), env)
        elif isinstance(t, ast.Attribute):
            o = self.eval(t.value, env)
            old = self.getattr(o, t.attr)
            self.setattr(o, t.attr, self.augmented(op, old, self.eval(s.value, env)))
        else:
            o = self.eval(t.value, env)
            k = self.eval(t.slice, env)
            old = self.item(o, k)
            self.special(o, "setitem", [k, self.augmented(op, old, self.eval(s.value, env))])

    def t_Delete(self, s, env):
        t = s.targets[0]
        o = self.eval(t.value, env)
        if isinstance(t, ast.Attribute):
            self.delattr(o, t.attr)
        else:
            self.special(o, "delitem", [self.eval(t.slice, env)])

    def t_If(self, s, env):
        self.suite(s.body if self.truth(self.eval(s.test, env)) else s.orelse, env)

    def t_While(self, s, env):
        while self.truth(self.eval(s.test, env)):
            try:
                self.suite(s.body, env)
            except Brk:
                return
            except Cont:
                pass

    def t_For(self, s, env):
        it = self.special(self.eval(s.iter, env), "iter", [])
        while True:
            try:
                v = self.special(it, "next", [])
            except Raised as r:
                if r.kind == "StopIteration":
                    return
                raise
            self.store(s.target, v, env)
            try:
                self.suite(s.body, env)
            except Brk:
                return
            except Cont:
                pass

    def t_Try(self, s, env):
        pending = None
        try:
            try:
                self.suite(s.body, env)
            except Raised as r:
                for h in s.handlers:
                    if self.catches(h.type, r.kind):
                        self.handling(env, h.name, r, h.body)
                        break
                else:
                    raise
        except (Raised, Ret, Brk, Cont) as e:
            pending = e
        if s.finalbody:
            if isinstance(pending, Raised):
                self.handling(env, None, pending, s.finalbody)
            else:
                self.suite(s.finalbody, env)
        if pending is not None:
            raise pending

    def catches(self, t, kind):
        if t is None:
            return True
        names = {x.id for x in t.elts} if isinstance(t, ast.Tuple) else {t.id}
        while kind is not None:
            if kind in names:
                return True
            kind = BASES[kind]
        return False

    def t_Raise(self, s, env):
        x = s.exc
        if x is None:
            for h in reversed(self.handled):
                if h["env"] is env:
                    raise h["raised"]
            raise AssertionError("bare raise")
        if isinstance(x, ast.Name):
            if x.id in BASES:
                raise Raised(x.id)
            raise self.on_handled(x.id, env)
        args = [self.eval(a, env) for a in x.args]
        self.judge(args)
        if any(map(has_ref, args)):
            raise Beyond("Payload")
        raise Raised(x.func.id, *args)

    def t_FunctionDef(self, s, env):
        self.bind(s.name, MFunc(self.info(s, env), env), env)

    def t_ClassDef(self, s, env):
        base = None
        if s.bases:
            name = s.bases[0].id
            base = self.globals.get(name)
            if base is None or self.made.get(name) is not base:
                raise Beyond("Base")
        attrs = {}
        for m in s.body:
            self.spend()
            if isinstance(m, ast.FunctionDef):
                attrs[m.name] = MFunc(self.info(m, None), None)
            elif isinstance(m, ast.Assign):
                attrs[m.targets[0].id] = self.eval(m.value, None)
            elif isinstance(m, ast.Expr):
                self.eval(m.value, None)
        c = MClass(s.name, base, attrs)
        self.made[s.name] = c
        self.bind(s.name, c, None)


def exc_str(r):
    if not r.values:
        return ""
    if len(r.values) == 1:
        v = r.values[0]
        return repr(v) if r.kind == "KeyError" else v if isinstance(v, str) else repr(v)
    return repr(tuple(r.values))


def exc_repr(r):
    return r.kind + "(" + ", ".join(map(repr, r.values)) + ")"


def run_here(text, fuel):
    try:
        with warnings.catch_warnings():
            warnings.simplefilter("ignore")
            tree = ast.parse(text)
    except SyntaxError:
        return None
    m = Model(tree, fuel)
    try:
        m.suite(tree.body, None)
        end = "done"
    except Raised as r:
        end = "raised A " + exc_repr(r)
    except Beyond as b:
        end = "beyond " + b.kind
    except NoFuel:
        end = "fuel"
    except (RecursionError, MemoryError):
        return None
    return b"".join(m.out), end, m.used


def run(text, fuel=10000000, recursion=20000):
    """In a thread of its own, with a deep stack."""
    box = []
    old = sys.getrecursionlimit()
    sys.setrecursionlimit(recursion)
    threading.stack_size(512 << 20)
    t = threading.Thread(target=lambda: box.append(run_here(text, fuel)))
    t.start()
    t.join()
    sys.setrecursionlimit(old)
    return box[0] if box else None


if __name__ == "__main__":
    fuel = int(sys.argv[2]) if len(sys.argv) > 2 else 10000000
    r = run(open(sys.argv[1]).read(), fuel)
    if r is None:
        print("no answer")
        sys.exit(1)
    o, end, units = r
    sys.stdout.buffer.write(b"A %d\n" % len(o) + o + (b"\n" if o and not o.endswith(b"\n") else b"") + ("end %s\nunits %d\n" % (end, units)).encode())
