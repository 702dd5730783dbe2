#!/usr/bin/env python3
"""gen.py SEED: prints a random script of the subset. Same seed, same script."""
import random
import sys

SAFE = ["RuntimeError", "NotImplementedError", "AssertionError", "EOFError", "OverflowError", "KeyError"]
EXC = ["Exception", "ArithmeticError", "ZeroDivisionError", "OverflowError", "AssertionError", "AttributeError",
       "EOFError", "ImportError", "ModuleNotFoundError", "LookupError", "IndexError", "KeyError", "NameError",
       "UnboundLocalError", "RuntimeError", "NotImplementedError", "StopIteration", "TypeError", "ValueError"]
LADDER = ["UnboundLocalError", "NameError", "ZeroDivisionError", "KeyError", "IndexError", "LookupError",
          "AttributeError", "TypeError", "ValueError", "StopIteration", "NotImplementedError", "RuntimeError",
          "AssertionError", "OverflowError", "ArithmeticError"]
TEXTS = ['""', '"a"', '"b"', '"ab"', '"abc"', '"a b"', '"a,b,c"', '"x-y"', "'it\\'s'", "'q\"q'", '"\\n"', '"\\t"', '"\\\\"',
         '"1"', '"12"', '"-7"', '" 5 "', '"zz"', '"\\xe9"', '"\\u4e2d"', '"\\x00"', '"\\x7f"', '"\\u200b"', '"\\xa0"', '"b\'c\\"d"']
BYTES = ['b""', 'b"a"', 'b"ab"', 'b"\\x00\\xff"', "b'\"'", "b\"it's\""]


def sc_names(vis):
    return [n for n, k in vis.items() if isinstance(k, tuple) or k in ("lint", "lany", "tup", "rtup", "text", "int", "none")]


class Fn:
    """A function that scripts may call: its name, the kinds of its parameters, the kind of its value."""
    def __init__(self, name, params, ret):
        self.name, self.params, self.ret = name, params, ret


class Cls:
    def __init__(self, name, params):
        self.name = name
        self.params = params      # kinds of __init__'s arguments
        self.attrs = {}           # own attributes with kinds
        self.methods = {}         # name -> (kinds, ret)
        self.special = set()
        self.add = None
        self.item_kind = None     # kind of keys
        self.eq = None
        self.lt = None
        self.base = None
        self.iter_kind = None


class Scope:
    """Where statements are written: which names may be read and bound."""
    def __init__(self, prefix, outer=None, function=False):
        self.prefix, self.outer, self.function = prefix, outer, function
        self.vars = {}            # name -> kind, bound here (or declared global or nonlocal)
        self.ret = None
        self.loop = 0             # loops around that break and continue may mean
        self.fin = False          # inside a finally
        self.count = 0


class Gen:
    def __init__(self, seed):
        self.seed = seed
        self.r = random.Random(seed)
        r = self.r
        self.wild = r.random() < 0.15
        self.w_beyond = 0.03 if self.wild else 0.0      # operands of kinds that may leave the subset
        self.w_type = r.choice([0.0, 0.01, 0.03, 0.06])  # operands that may be TypeErrors
        self.lines = []
        self.funcs = []
        self.classes = []
        self.g = Scope("g")
        self.guard = 0
        self.handler = 0
        self.uniq = 0
        self.feature = {k: r.random() < 0.75 for k in ["class", "dict", "tuple", "closure", "exc", "iter", "bytes", "range", "ref_tuple", "lambda", "classattr", "bound"]}
        self.size = r.choice([6, 10, 16, 24])
        self.calm = False
        self.tries = 0
        self.w_oops = r.choice([0.05, 0.15, 0.3])
        self.w_trick = r.choice([0.0, 0.03, 0.08])
        self.saying = r.choice([0.0, 0.0, 0.02, 0.08])

    # ---- helpers
    def p(self, x):
        return self.r.random() < x

    def pick(self, xs):
        return self.r.choice(xs)

    def weighted(self, pairs):
        total = sum(w for w, _ in pairs)
        x = self.r.random() * total
        for w, v in pairs:
            x -= w
            if x < 0:
                return v
        return pairs[-1][1]

    def visible(self, sc):
        out = {}
        chain = []
        s = sc
        while s is not None:
            chain.append(s)
            s = s.outer
        for s in reversed(chain):
            out.update(s.vars)
        return out

    def vars_of(self, sc, test):
        return [n for n, k in self.visible(sc).items() if test(k)]

    # ---- constants
    def int_const(self):
        x = self.r.random()
        if x < 0.75:
            return str(self.r.randrange(0, 8))
        if x < 0.9:
            return "(-%d)" % self.r.randrange(1, 6)
        if x < 0.97:
            return str(self.r.randrange(8, 2000))
        return self.pick(["0x1f", "65536", "4294967296", "170141183460469231731687303715884105727" if self.wild else "99999999"])

    # ---- expressions. Each answers a text that may stand as an operand.
    def expr(self, kind, sc, d):
        """An expression of this kind; sometimes of another, which may raise or leave the subset."""
        if self.w_type and d > 0 and self.p(self.w_type * 0.5):
            kind = self.pick(["int", "text", "none", "bool", "tup", "lint"])
        if self.w_beyond and self.p(self.w_beyond):
            kind = self.pick(["int", "text", "none", "bytes", "rtup", "lany", "dict", "range", "inst", "fun", "cls", "bound", "view"])
        if self.saying and d > 0 and self.p(self.saying):
            return "say(%s)" % self.of(kind, sc, d - 1)
        return self.of(kind, sc, d)

    def constant(self, kind):
        """A value that is made without any risk."""
        if kind in ("any", "printable"):
            kind = self.pick(["int", "text", "bool", "none"])
        if isinstance(kind, tuple):
            c = kind[1]
            return "%s(%s)" % (c.name, ", ".join(self.constant(k) for k in c.params))
        if kind == "inst":
            return self.constant(("inst", self.pick(self.classes))) if self.classes else "0"
        k = self.constant
        n = self.r.randrange(0, 4)
        if kind == "int":
            return str(self.r.randrange(0, 7))
        if kind == "text":
            return self.pick(TEXTS)
        if kind == "bool":
            return self.pick(["True", "False"])
        if kind == "bytes":
            return self.pick(BYTES)
        if kind in ("lint", "ltext"):
            return "[%s]" % ", ".join(k(kind[1:]) for _ in range(n))
        if kind == "lany":
            return "[%s]" % ", ".join(k(self.pick(["int", "text", "none", "lint", "inst", "rtup"])) for _ in range(n))
        if kind in ("tup", "rtup", "pair", "tup_of_ints"):
            n = 2 if kind in ("pair", "tup_of_ints") else n
            return "(%s%s)" % (", ".join(k(self.pick(["int", "text", "none"] if kind == "tup" else ["int", "inst", "lint"])) for _ in range(n)), "," if n == 1 else "")
        if kind == "dict":
            return "{%s}" % ", ".join("%s: %s" % (self.pick(["1", "0", '"a"', "True", "(1, 2)", "None"]), k(self.pick(["int", "text", "lint", "inst"]))) for _ in range(n))
        if kind == "range":
            return "range(%d)" % n
        return "None"

    def of(self, kind, sc, d):
        if self.calm:
            return self.constant(kind)
        if kind == "any":
            kind = self.any_kind()
        if kind == "printable":
            kind = self.any_kind()
        if isinstance(kind, tuple) and kind[0] == "inst":
            return self.inst(kind[1], sc, d)
        f = getattr(self, "x_" + kind)
        return f(sc, d)

    def any_kind(self):
        ks = [(4, "int"), (2, "text"), (2, "bool"), (1, "none"), (2, "lint"), (1, "ltext"), (1.5, "lany")]
        if self.feature["tuple"]:
            ks += [(2, "tup")]
            if self.feature["ref_tuple"]:
                ks += [(2, "rtup")]
        if self.feature["dict"]:
            ks += [(1, "dict")]
        if self.feature["bytes"]:
            ks += [(0.4, "bytes")]
        if self.feature["range"]:
            ks += [(0.5, "range")]
        if self.classes:
            ks += [(3, "inst")]
        return self.weighted(ks)

    def var(self, sc, kind):
        ns = self.vars_of(sc, lambda k: k == kind)
        return self.pick(ns) if ns else None

    def call_of(self, kind, sc, d):
        fs = [f for f in self.funcs if f.ret == kind]
        if not fs or d <= 0:
            return None
        f = self.pick(fs)
        return "%s(%s)" % (f.name, ", ".join(self.expr(k, sc, d - 1) for k in f.params))

    def method_call(self, kind, sc, d):
        cands = []
        for c in self.classes:
            for m, (ks, ret) in c.methods.items():
                if ret == kind:
                    cands.append((c, m, ks))
        if not cands or d <= 0:
            return None
        c, m, ks = self.pick(cands)
        o = self.inst(c, sc, d - 1)
        args = [self.expr(k, sc, d - 1) for k in ks]
        if self.p(0.15):
            return "%s.%s(%s)" % (c.name, m, ", ".join([o] + args))
        return "%s.%s(%s)" % (o, m, ", ".join(args))

    def attr_of(self, kind, sc, d):
        cands = [(c, a) for c in self.classes for a, k in c.attrs.items() if k == kind]
        if not cands:
            return None
        c, a = self.pick(cands)
        v = self.var(sc, ("inst", c))
        return "%s.%s" % (v, a) if v else None

    def conditional(self, kind, sc, d):
        return "(%s if %s else %s)" % (self.expr(kind, sc, d - 1), self.test(sc, d - 1), self.expr(kind, sc, d - 1))

    def test(self, sc, d):
        return self.expr("bool", sc, d) if self.p(0.75) else self.expr("any", sc, d)

    def x_int(self, sc, d):
        r = self.r
        v = self.var(sc, "int")
        if d <= 0 or self.p(0.25):
            return v if v and self.p(0.6) else self.int_const()
        x = r.random()
        e = lambda k: self.expr(k, sc, d - 1)
        if x < 0.22:
            return "(%s %s %s)" % (e("int"), self.pick(["+", "-", "+", "-", "&", "|", "^"]), e("int"))
        if x < 0.28:
            return "(%s * %s)" % (e("int"), self.r.randrange(0, 4)) if self.p(0.7) else "(%s %% 7 * %s)" % (e("int"), self.int_const())
        if x < 0.36:
            return "(%s %s %s)" % (e("int"), self.pick(["//", "%"]), e("int") if self.p(0.4) else str(r.randrange(1, 9)))
        if x < 0.38:
            return "(%s ** %s)" % (self.pick(["2", "3", "(-2)", "0", "1", "10"]), self.pick(["0", "1", "2", "3", "5"]))
        if x < 0.40:
            return "(%s %s %s)" % (self.int_const(), self.pick(["<<", ">>"]), self.pick(["0", "1", "2", "3", "(-1)" if self.p(0.2) else "4"]))
        if x < 0.43:
            return "(%s%s)" % (self.pick(["-", "+", "~", "- -"]), e("int"))
        if x < 0.52:
            return "len(%s)" % e(self.pick(["text", "lint", "lany", "tup", "dict" if self.feature["dict"] else "lint", "rtup", "range" if self.feature["range"] else "text", "ltext"]))
        if x < 0.55:
            return "abs(%s)" % e("int")
        if x < 0.57:
            return "ord(%s)" % self.pick(['"a"', '"\\n"', '"\\u4e2d"'])
        if x < 0.60:
            return "int(%s)" % (self.pick(['"12"', '" -7 "', '"+3"', '"x"', '""', '"1 2"', '"\\n4"']) if self.p(0.5) else e(self.pick(["int", "bool"])))
        if x < 0.64:
            f = self.pick(["min", "max"])
            return "%s(%s)" % (f, ", ".join(e("int") for _ in range(r.randrange(2, 4))) if self.p(0.6) else e("lint"))
        if x < 0.67:
            return "sum(%s)" % e(self.pick(["lint", "lint", "range" if self.feature["range"] else "lint"]))
        if x < 0.72:
            return "%s[%s]" % (e("lint"), e("int") if self.p(0.4) else self.pick(["0", "1", "-1", "True"]))
        if x < 0.75:
            t = self.var(sc, "text") or '"abca"'
            return "%s.find(%s)" % (t, self.pick(['"a"', '"b"', '""', '"zz"']))
        if x < 0.79:
            l = self.var(sc, "lint")
            if l:
                return self.pick(["%s.index(%s)" % (l, e("int")), "%s.pop()" % l, "%s.pop(%s)" % (l, self.pick(["0", "-1", "1", "5"]))])
            return self.int_const()
        if x < 0.82 and self.feature["dict"]:
            dd = self.var(sc, "dict")
            if dd:
                return "len(%s%s)" % (dd, self.pick(["", ".keys()", ".values()", ".items()"]))
        if x < 0.85:
            return self.conditional("int", sc, d)
        if x < 0.87:
            return "(%s %s %s)" % (e("int"), self.pick(["or", "and"]), e("int"))
        if x < 0.89 and self.feature["lambda"]:
            a = "q%d" % r.randrange(3)
            return "(lambda %s: %s + %s)(%s)" % (a, a, e("int"), e("int"))
        for f in self.r.sample([self.call_of, self.method_call, self.attr_of], 3):
            s = f("int", sc, d)
            if s:
                return s
        return v or self.int_const()

    def x_bool(self, sc, d):
        v = self.var(sc, "bool")
        if d <= 0 or self.p(0.15):
            return v if v and self.p(0.5) else self.pick(["True", "False"])
        e = lambda k: self.expr(k, sc, d - 1)
        x = self.r.random()
        if x < 0.25:
            ops = ["==", "!=", "<", "<=", ">", ">="]
            k = self.pick(["int", "int", "text", "tup_of_ints", "bool"])
            n = self.pick([1, 1, 1, 2, 3])
            s = e(k)
            for _ in range(n):
                s += " %s %s" % (self.pick(ops), e(k))
            return "(%s)" % s
        if x < 0.45:
            return "(%s)" % self.equality(sc, d)
        if x < 0.62:
            return "(%s)" % self.membership(sc, d)
        if x < 0.70:
            return "(not %s)" % e(self.pick(["bool", "any"]))
        if x < 0.80:
            o = self.pick(["and", "or"])
            return "(%s)" % (" %s " % o).join(e("bool") for _ in range(self.pick([2, 2, 3])))
        if x < 0.84:
            return "(%s is %sNone)" % (e("any"), self.pick(["", "not "]))
        if x < 0.88:
            return "%s.%s(%s)" % (self.of("text", sc, d - 1), self.pick(["startswith", "endswith"]), self.pick(['"a"', '""', '"bc"']))
        if x < 0.92:
            return "bool(%s)" % e("any")
        for f in [self.call_of, self.method_call, self.attr_of]:
            s = f("bool", sc, d)
            if s:
                return s
        return self.order_of_instances(sc, d) or "True"

    def order_of_instances(self, sc, d):
        cs = [c for c in self.classes if c.lt]
        if not cs:
            return None
        c = self.pick(cs)
        a = self.inst(c, sc, d - 1)
        b = self.inst(c, sc, d - 1) if self.p(0.7) else self.expr("int", sc, d - 1)
        if self.p(0.3):
            a, b = b, a
        s = "%s %s %s" % (a, self.pick(["<", "<=", ">", ">="]), b)
        if self.p(0.2):
            s += " %s %s" % (self.pick(["<", "==", ">"]), self.inst(c, sc, d - 1))
        return "(%s)" % s

    def equality(self, sc, d):
        e = lambda k: self.expr(k, sc, d - 1)
        o = self.pick(["==", "==", "!="])
        x = self.r.random()
        if x < 0.2:
            return "%s %s %s" % (e("lint"), o, e("lint"))
        if x < 0.45 and self.feature["ref_tuple"]:
            n = self.r.randrange(1, 4)
            return "%s %s %s" % (self.tuple_of(n, sc, d - 1), o, self.tuple_of(n, sc, d - 1))
        if x < 0.6:
            return "%s %s %s" % (e("lany"), o, e("lany"))
        if x < 0.75 and self.classes:
            return "%s %s %s" % (e("inst"), o, e(self.pick(["inst", "inst", "any_eq"])))
        if x < 0.8 and self.feature["tuple"]:
            return "%s %s %s" % (e("tup"), o, e("tup"))
        return "%s %s %s" % (e("any_eq"), o, e("any_eq"))

    # kinds that `==` takes with any other kind, but for two dicts, two ranges, and tuples of other lengths
    def x_any_eq(self, sc, d):
        k = self.weighted([(4, "int"), (2, "text"), (1, "none"), (2, "lint"), (1, "bool"), (1, "lany"), (2 if self.classes else 0, "inst"), (1, "pair"), (0.3, "dict1")])
        return self.of(k, sc, d)

    def x_dict1(self, sc, d):
        return self.of("dict", sc, d) if self.wild else "None"

    def x_pair(self, sc, d):
        return self.tuple_of(2, sc, d)

    def tuple_of(self, n, sc, d):
        ks = ["int", "int", "text", "none", "bool"]
        if self.classes and self.feature["ref_tuple"]:
            ks += ["inst", "inst", "inst"]
        if self.feature["ref_tuple"]:
            ks += ["lint"]
        items = []
        for _ in range(n):
            if d > 1 and self.p(0.2):
                items.append(self.tuple_of(2, sc, d - 1))
            else:
                items.append(self.expr(self.pick(ks), sc, d - 1))
        return "(%s%s)" % (", ".join(items), "," if n == 1 else "")

    def membership(self, sc, d):
        e = lambda k: self.expr(k, sc, d - 1)
        o = self.pick(["in", "in", "not in"])
        x = self.r.random()
        if x < 0.15:
            return "%s %s %s" % (e("int"), o, e("lint"))
        if x < 0.25:
            return "%s %s %s" % (e("text"), o, e("text"))
        if x < 0.35 and self.feature["tuple"]:
            return "%s %s %s" % (e(self.pick(["int", "text", "none"])), o, e("tup"))
        if x < 0.5 and self.feature["ref_tuple"]:
            n = self.r.randrange(0, 4)
            t = self.tuple_of(n, sc, d - 1) if self.p(0.7) else (self.var(sc, "rtup") or self.tuple_of(n, sc, d - 1))
            return "%s %s %s" % (e(self.pick(["int", "inst", "inst", "lint", "none"]) if self.classes else "lint"), o, t)
        if x < 0.6:
            return "%s %s %s" % (e(self.pick(["int", "inst", "lint", "text"]) if self.classes else "int"), o, e("lany"))
        if x < 0.75 and self.feature["dict"]:
            dd = self.var(sc, "dict") or self.x_dict(sc, d - 1)
            s = self.pick(["", "", ".keys()", ".values()"])
            return "%s %s %s%s" % (e(self.pick(["int", "text", "none"]) if s != ".values()" else self.pick(["int", "inst" if self.classes else "text"])), o, dd, s)
        if x < 0.85 and self.feature["range"]:
            return "%s %s %s" % (e(self.pick(["int", "int", "bool"])), o, e("range"))
        cs = [c for c in self.classes if "__contains__" in c.special]
        if cs:
            return "%s %s %s" % (e("int"), o, self.inst(self.pick(cs), sc, d - 1))
        return "%s %s %s" % (e("int"), o, e("lint"))

    def x_text(self, sc, d):
        v = self.var(sc, "text")
        if d <= 0 or self.p(0.3):
            return v if v and self.p(0.5) else self.pick(TEXTS)
        e = lambda k: self.expr(k, sc, d - 1)
        x = self.r.random()
        if x < 0.2:
            return "(%s + %s)" % (e("text"), e("text"))
        if x < 0.27:
            a, b = self.pick(TEXTS), self.pick(["0", "1", "2", "3", "(-1)", "True"])
            return "(%s * %s)" % ((a, b) if self.p(0.6) else (b, a))
        if x < 0.47:
            return "str(%s)" % e("printable")
        if x < 0.62:
            return "repr(%s)" % e("printable")
        if x < 0.70:
            return "%s.join(%s)" % (self.pick(['","', '""', '"-"', v or '"+"']), e(self.pick(["ltext", "ltext", "text", "lany" if self.w_type else "ltext"])))
        if x < 0.75:
            return "%s.replace(%s, %s)" % (self.of("text", sc, d - 1), self.pick(['"a"', '"b"', '"ab"', '" "']), self.pick(['""', '"x"', '"aa"']))
        if x < 0.79:
            return "%s.strip()" % self.of("text", sc, d - 1)
        if x < 0.85:
            return "%s[%s]" % (e("text"), self.pick(["0", "-1", "1", "3"]))
        if x < 0.87:
            return "chr(%s)" % self.pick(["97", "10", "233", "20013", "(-1)", "0", "1114112", "128512"])
        if x < 0.91:
            return self.conditional("text", sc, d)
        for f in [self.call_of, self.method_call, self.attr_of]:
            s = f("text", sc, d)
            if s:
                return s
        return self.pick(TEXTS)

    def x_none(self, sc, d):
        return "None" if self.p(0.8) else self.pick(["print()", "None", "..."])

    def x_bytes(self, sc, d):
        if d > 0 and self.p(0.3):
            return "(%s %s)" % (self.pick(BYTES), self.pick(["+ b\"z\"", "* 2", "+ " + self.pick(BYTES)]))
        return self.pick(BYTES)

    def x_tup_of_ints(self, sc, d):
        return "(%s, %s)" % (self.x_int(sc, d - 1), self.x_int(sc, d - 1))

    def x_tup(self, sc, d):
        v = self.var(sc, "tup")
        if v and self.p(0.4):
            return v
        x = self.r.random()
        if d > 1 and x < 0.15:
            return "(%s + %s)" % (self.x_tup(sc, d - 1), self.x_tup(sc, d - 1)) if not v else "(%s + (%s,))" % (v, self.expr("int", sc, d - 1))
        if d > 1 and x < 0.2:
            return "(%s * %s)" % (self.x_tup(sc, d - 1) if not v else "(1, 2)", self.pick(["2", "0", "(-1)"]))
        if d > 0 and x < 0.3:
            return "tuple(%s)" % self.expr(self.pick(["lint", "text", "ltext", "tup"]), sc, d - 1)
        n = self.r.randrange(0, 4)
        ks = ["int", "text", "bool", "none", "tup", "int"]
        items = [self.expr(self.pick(ks) if d > 0 else "int", sc, d - 1) for _ in range(n)]
        return "(%s%s)" % (", ".join(items), "," if n == 1 else "")

    def x_rtup(self, sc, d):
        v = self.var(sc, "rtup")
        if v and self.p(0.5):
            return v
        if not self.feature["ref_tuple"]:
            return self.x_tup(sc, d)
        if d > 1 and v and self.p(0.1):
            return "(%s * %s)" % (self.tuple_of(2, sc, d - 1), self.pick(["2", "0"]))
        if d > 1 and self.p(0.1):
            return "(%s + %s)" % (self.tuple_of(2, sc, d - 1), self.tuple_of(1, sc, d - 1))
        if d > 1 and self.p(0.1):
            return "tuple(%s)" % self.expr("lany", sc, d - 1)
        return self.tuple_of(self.r.randrange(1, 4), sc, d)

    def x_lint(self, sc, d):
        v = self.var(sc, "lint")
        if v and self.p(0.5):
            return v
        e = lambda k: self.expr(k, sc, d - 1)
        x = self.r.random()
        if d > 1 and x < 0.1:
            return "(%s + %s)" % (v or "[1]", self.x_lint(sc, 0))
        if d > 1 and x < 0.15:
            return "(%s * %s)" % (v or "[1, 2]", self.pick(["2", "0", "1"]))
        if d > 0 and x < 0.25:
            return "list(%s)" % e(self.pick(["lint", "range"]) if self.feature["range"] else "lint")
        if d > 0 and x < 0.33:
            return "sorted(%s)" % e("lint")
        if d > 0 and x < 0.38:
            f = self.call_of("lint", sc, d)
            if f:
                return f
        return "[%s]" % ", ".join(self.x_int(sc, d - 1) for _ in range(self.r.randrange(0, 5)))

    def x_ltext(self, sc, d):
        v = self.var(sc, "ltext")
        if v and self.p(0.5):
            return v
        x = self.r.random()
        if d > 0 and x < 0.2:
            return "%s.split(%s)" % (self.of("text", sc, d - 1), self.pick(["", '","', '" "', '"ab"', '""']))
        if d > 0 and x < 0.3:
            return "sorted(%s)" % self.expr(self.pick(["ltext", "text"]), sc, d - 1)
        if d > 0 and x < 0.35:
            return "list(%s)" % self.expr("text", sc, d - 1)
        return "[%s]" % ", ".join(self.x_text(sc, d - 1) for _ in range(self.r.randrange(0, 4)))

    def x_lany(self, sc, d):
        v = self.var(sc, "lany")
        if v and self.p(0.6):
            return v
        ks = ["int", "text", "none", "lint", "bool"]
        if self.classes:
            ks += ["inst", "inst"]
        if self.feature["ref_tuple"]:
            ks += ["rtup"]
        if self.feature["tuple"]:
            ks += ["tup"]
        if self.feature["dict"]:
            ks += ["dict"]
        return "[%s]" % ", ".join(self.expr(self.pick(ks), sc, d - 1) if d > 0 else self.int_const() for _ in range(self.r.randrange(0, 4)))

    def key(self, sc, d):
        x = self.r.random()
        if x < 0.5:
            return self.pick(["0", "1", "2", "True", "False", '"a"', '"b"', '"ab"', "None", "(1, 2)", '(True, "a")', "()", '""', 'b"a"'])
        return self.of(self.pick(["int", "text", "int"]), sc, max(d, 0))

    def x_dict(self, sc, d):
        v = self.var(sc, "dict")
        if v and self.p(0.6):
            return v
        ks = ["int", "text", "lint", "none", "tup", "bool"]
        if self.classes:
            ks += ["inst"]
        if self.feature["ref_tuple"]:
            ks += ["rtup"]
        n = self.r.randrange(0, 4)
        return "{%s}" % ", ".join("%s: %s" % (self.key(sc, 0), self.expr(self.pick(ks), sc, d - 1) if d > 0 else self.int_const()) for _ in range(n))

    def x_range(self, sc, d):
        v = self.var(sc, "range")
        if v and self.p(0.4):
            return v
        c = lambda: self.pick(["0", "1", "2", "3", "4", "5", "(-1)", "(-3)", "7"])
        n = self.r.randrange(1, 4)
        if n == 1:
            return "range(%s)" % c()
        if n == 2:
            return "range(%s, %s)" % (c(), c())
        return "range(%s, %s, %s)" % (c(), c(), self.pick(["1", "2", "(-1)", "(-2)", "3", "0" if self.p(0.3) else "1"]))

    def x_fun(self, sc, d):
        if self.funcs and self.p(0.5):
            return self.pick(self.funcs).name
        return "(lambda q: q)"

    def x_cls(self, sc, d):
        return self.pick(self.classes).name if self.classes else "None"

    def x_bound(self, sc, d):
        v = self.var(sc, "lint")
        return (v or "[]") + ".append"

    def x_view(self, sc, d):
        return "%s.%s()" % (self.x_dict(sc, d), self.pick(["keys", "values", "items"]))

    def x_inst(self, sc, d):
        if not self.classes:
            return self.x_int(sc, d)
        return self.inst(self.pick(self.classes), sc, d)

    def inst(self, c, sc, d):
        v = self.var(sc, ("inst", c))
        if v and (d <= 0 or self.p(0.65)):
            return v
        if c.add and d > 1 and self.p(0.3):
            o = self.pick(sorted(c.add))
            if o == "neg":
                return "(-%s)" % self.inst(c, sc, d - 1)
            right = self.expr("int", sc, d - 1) if self.p(0.6) else self.inst(c, sc, d - 1)
            return "(%s %s %s)" % (self.inst(c, sc, d - 1), o, right)
        return "%s(%s)" % (c.name, ", ".join(self.expr(k, sc, d - 1) for k in c.params))

    # ---- statements
    def out(self, ind, s):
        self.lines.append("    " * ind + s)

    def fresh(self, base="v"):
        self.uniq += 1
        return "%s%d" % (base, self.uniq)

    def block(self, sc, ind, n, d):
        if n <= 0:
            self.out(ind, "pass")
        for _ in range(n):
            self.stmt(sc, ind, d)

    def stmt(self, sc, ind, d):
        if self.p(self.w_trick):
            if sc is self.g and ind == 0 and self.p(0.3):
                return self.trick(sc, ind)
            return self.wrapped(sc, ind, lambda i: self.trick(sc, i))
        x = self.r.random()
        if x < 0.35:
            return self.risky(sc, ind, d)
        if d > 0 and x < 0.6:
            return self.compound(sc, ind, d)
        if x < 0.85:
            return self.show(sc, ind)
        return self.risky(sc, ind, d)

    def show(self, sc, ind):
        n = self.pick([1, 1, 2, 3, 0]) if self.p(0.9) else 0
        s = "print(%s)" % ", ".join(self.expr("printable", sc, 2) for _ in range(n))
        self.wrapped(sc, ind, lambda i: self.out(i, s))

    def wrapped(self, sc, ind, f):
        """The statement, mostly inside a try whose handlers tell the class."""
        if self.p(0.15 if self.tries or sc.function else 0.01):
            return f(ind)
        self.out(ind, "try:")
        self.tries += 1
        f(ind + 1)
        self.tries -= 1
        self.handlers(sc, ind)

    def handlers(self, sc, ind, n=None):
        r = self.r
        x = r.random()
        if x < 0.55:
            self.out(ind, "except Exception:")
            self.out(ind + 1, 'print("raised")')
            return
        x = r.random()
        sure = not self.tries and not sc.function
        if x < 0.2:
            self.out(ind, "except:")
            self.out(ind + 1, 'print("any")')
            return
        if x < 0.75:
            cut = LADDER if self.p(0.5) else r.sample(LADDER, r.randrange(2, 6))
            for c in cut:
                self.one_handler(sc, ind, [c])
            if sure or self.p(0.85):
                self.out(ind, "except Exception:")
                self.out(ind + 1, 'print("other")')
            return
        for _ in range(r.randrange(1, 3)):
            self.one_handler(sc, ind, r.sample(EXC, r.randrange(1, 4)))
        if sure or self.p(0.8):
            self.out(ind, "except Exception:")
            self.out(ind + 1, 'print("last")')

    def one_handler(self, sc, ind, cs):
        safe = all(c in SAFE and c != "OverflowError" for c in cs)
        names = cs[0] if len(cs) == 1 and self.p(0.9) else "(%s)" % ", ".join(cs)
        if self.p(0.3):
            self.handler += 1
            e = "e%d" % (self.handler if self.p(0.7) else 0)
            self.out(ind, "except %s as %s:" % (names, e))
            if safe:
                self.out(ind + 1, self.pick(['print("c", str(%s))', 'print("r", repr(%s))', 'print("a", %s.args)', 'print(len(%s.args), "n")']) % e)
            else:
                self.out(ind + 1, 'print("as %s")' % cs[0])
            if self.p(0.12 if self.tries else 0.01):
                self.out(ind + 1, self.pick(["raise", "raise %s" % e]))
            return
        self.out(ind, "except %s:" % names)
        self.out(ind + 1, 'print("%s")' % cs[0])
        if self.p(0.1 if self.tries else 0.01):
            self.out(ind + 1, self.pick(["raise", "raise", "raise KeyError(1)", 'raise RuntimeError("again", 2)']))

    def raise_stmt(self, sc):
        c = self.pick(EXC)
        if c == "StopIteration":
            return "raise StopIteration"
        if self.p(0.3):
            return "raise %s" % c
        args = [self.expr(self.pick(["int", "text", "tup", "none", "bool"]), sc, 1) for _ in range(self.r.randrange(0, 3))]
        return "raise %s(%s)" % (c, ", ".join(args))

    def writable(self, sc, kind):
        ns = [n for n, k in sc.vars.items() if k == kind]
        return self.pick(ns) if ns else None

    def some_kind(self):
        k = self.any_kind()
        return k

    def assign(self, sc, ind):
        kinds = sorted(set(str(k) for k in sc.vars.values()))
        names = [n for n in sc.vars]
        if not names:
            return self.out(ind, "pass")
        n = self.pick(names)
        k = sc.vars[n]
        if self.p(self.w_type * 0.3):
            self.out(ind, "%s = %s" % (n, self.of(self.any_kind(), sc, 1)))
            return
        d = self.pick([1, 2, 2, 3])
        self.out(ind, "%s = %s" % (n, self.of(k, sc, d)))
        self.tame(n, k, ind)

    def tame(self, n, k, ind):
        """Keeps values small."""
        if k == "text":
            self.out(ind, "if len(%s) > 24:" % n)
            self.out(ind + 1, "%s = \"t\"" % n)
        elif k in ("lint", "ltext", "lany", "tup", "rtup") and self.p(0.8):
            self.out(ind, "if len(%s) > 7:" % n)
            self.out(ind + 1, "%s = %s" % (n, "()" if k in ("tup", "rtup") else "[]"))
        elif k == "int" and self.p(0.8):
            self.out(ind, "%s %%= 1009" % n)

    def risky(self, sc, ind, d):
        """One small statement, mostly inside a try."""
        self.wrapped(sc, ind, lambda i: self.small(sc, i, d))

    def small(self, sc, ind, d):
        r = self.r
        o = lambda s: self.out(ind, s)
        e = lambda k, n=1: self.expr(k, sc, n)
        x = r.random()
        if x < self.w_oops:
            return self.oops(sc, ind)
        x = r.random()
        if x < 0.22:
            return self.assign(sc, ind)
        if x < 0.30:
            n = self.writable(sc, "int")
            if n:
                o("%s %s %s" % (n, self.pick(["+=", "-=", "*=", "//=", "%=", "&=", "|=", "^=", "+="]), e("int", 2)))
                o("%s %%= 997" % n)
                return
        if x < 0.34:
            n = self.writable(sc, self.pick(["lint", "lany", "text", "tup", "rtup", "ltext"]))
            if n:
                k = sc.vars[n]
                right = {"lint": self.pick(["lint", "tup_of_ints"]), "lany": self.pick(["lany", "rtup", "text", "lint", "dict" if self.feature["dict"] else "lint"]),
                         "text": "text", "tup": "tup", "rtup": "pair", "ltext": "text"}[k]
                o("%s += %s" % (n, e(right)))
                return self.tame(n, k, ind)
        if x < 0.40:
            names = [n for n in sc.vars if sc.vars[n] in ("int", "text", "bool", "none")]
            if len(names) >= 2:
                ns = r.sample(names, self.pick([2, 2, 3]) if len(names) > 2 else 2)
                same = [m for m in ns]
                if self.p(0.4):
                    return o("%s = %s" % (", ".join(ns), ", ".join(self.of(sc.vars[n], sc, 1) for n in same)))
                if self.p(0.3):
                    m = self.pick(["lint", "rtup", "text", "tup", "ltext"])
                    t = [self.fresh("u") for _ in range(self.pick([1, 2, 2, 3]))]
                    o("%s%s = %s" % (", ".join(t), "," if len(t) == 1 else "", e(m)))
                    return o("print(%s)" % ", ".join(t))
                src = self.pick(["[%s]", "(%s)"]) % ", ".join(self.of(sc.vars[n], sc, 1) for n in ns)
                return o("%s = %s" % (", ".join(ns), src))
        if x < 0.56:
            return self.list_op(sc, ind)
        if x < 0.68 and self.feature["dict"]:
            return self.dict_op(sc, ind)
        if x < 0.86 and self.classes:
            return self.inst_op(sc, ind)
        if x < 0.88 and self.feature["exc"]:
            return o(self.raise_stmt(sc))
        if x < 0.92 and self.funcs:
            f = self.pick(self.funcs)
            return o("%s(%s)" % (f.name, ", ".join(e(k, 2) for k in f.params)))
        if x < 0.95:
            t = self.writable(sc, "tup") or self.writable(sc, "rtup")
            if t:
                return o(self.pick(["%s[0] = 1" % t, "print(%s[0])" % t, "print(%s[-1], %s[1])" % (t, t), "del %s[0]" % t,
                                    "print(%s[%s])" % (t, e("int")), "%s[0] += 1" % t]))
        if self.feature["classattr"] and self.classes and sc is self.g:
            c = self.pick(self.classes)
            return o(self.pick(["%s.extra = %s" % (c.name, e("int")), "del %s.extra" % c.name, "print(%s.extra)" % c.name,
                                "%s.hook = lambda q: 7" % c.name, "print(%s.hook(3))" % c.name]))
        o("print(%s)" % e("printable", 2))

    def oops(self, sc, ind):
        """A statement that raises in most cases, in Python as in the subset."""
        v = lambda k: self.var(sc, k) or self.constant(k)
        l, t, s, n = v("lint"), v("tup"), v("text"), v("int")
        m = v("lany")
        vis = self.visible(sc)
        o = self.pick(sc_names(vis) or [n])
        inst = [x for x, k in vis.items() if isinstance(k, tuple)]
        if inst and self.p(0.6):
            o = self.pick(inst)
        c = self.pick(self.classes).name if self.classes else "rec"
        f = self.pick(self.funcs).name if self.funcs else "say"
        d = self.var(sc, "dict") or "{1: 2}"
        r = self.var(sc, "range") or "range(3)"
        self.raised = self.pick([x for x in EXC if x != "StopIteration"])
        odd = self.pick(["None", '"a"', "(1,)", "[1]", "b\"a\"", l, s, t, o, "..."])
        st = self.pick([
            "print(5())", "print(None(1))", "print(%s(1, 2, 3, 4, 5, 6))" % f, "print(%s())" % f, "print(%s(1, 2, 3, 4, 5, 6))" % c, "print(%s[0]())" % m,
            "print(len(5))", "print(len(None))", "print(len(%s))" % o, "print(%s[%s])" % (l, odd), "print(%s[None])" % s, "print(%s[\"x\"])" % t,
            "print(5[0])", "%s[0] = 1" % n, "del %s[0]" % s, "None[0] = 1", "for q9 in 5:\n    pass", "for q9 in None:\n    pass", "for q9 in %s:\n    break" % o,
            "q8, q9 = 5", "q8, q9 = %s" % t, "q8, q9 = %s" % l, "q8, q9 = %s" % s, "q8, q9 = None", "q8, q9, q7 = 1, 2",
            "print(1 in 5)", "print(1 in %s)" % s, "print(None in %s)" % o, "print(%s in %s)" % (o, l), "print(%s in %s)" % (o, m), "print(%s in (%s, %s))" % (o, odd, n),
            "print(%s + %s)" % (l, odd), "print(%s + %s)" % (s, odd), "print(%s + %s)" % (n, odd), "print(%s + %s)" % (t, odd), "print(%s + %s)" % (o, odd), "print(%s - %s)" % (odd, o),
            "print(%s * %s)" % (odd, odd if odd != l else "1"), "print(%s * %s)" % (l, self.pick(['"a"', "None", "True", "(-1)", l])), "print(%s < %s)" % (n, odd), "print(%s < %s)" % (s, odd),
            "print(None < None)", "print(%s >= %s)" % (o, n), "print(%s > %s)" % (n, o), "print((1, \"a\") < (1, 2))", "print((1, None, 3) <= (1, None, %s))" % n, "print((%s,) < (%s, 1))" % (n, n),
            "print(-%s)" % odd, "print(~%s)" % odd, "print(+%s)" % odd, "print(-%s)" % o, "print({} + {})", "print(%s - %s)" % (l, l), "print(%s // %s)" % (l, n), "print(%s %% %s)" % (l, n),
            "print(%s ** %s)" % (n, odd), "print(%s & %s)" % (n, odd), "print(%s << %s)" % (l, n), "print(%s ** 2)" % o, "print(%s >> %s)" % (o, o),
            "print(%s[9])" % r, "print(%s[\"a\"])" % r, "print(%s[-1], %s[True])" % (r, r), "%s[0] = 1" % r, "print(range(1, 2, 0))",
            "print(\",\".join([1]))", "print(\",\".join(%s))" % l, "print(\"-\".join(%s))" % d, "print(\"\".join(5))", "print(b\"abc\"[%s])" % self.pick(["0", "-1", "7", "None"]),
            "print(b\"a\" + \"a\")", "print(b\"a\" == \"a\", b\"a\" < b\"b\")", "print(b\"a\" < \"a\")", "print(1 // 0)", "print(%s %% 0)" % n, "print(1 / 0)", "print(0 ** -1)", "print(1 << -1)", "print(0 << %s)" % n, "print(5 >> 200)",
            "print(int(\"%s\"))" % self.pick(["x", "", "--1", "1.5", "0x1f", " 12 ", "+0", "007", "- 1"]), "print(\"abc\".split(\"\"))", "print(chr(-1))", "print(min([]))", "print(max(()))", "print(min({}))", "print(sum(()), sum({}))",
            "print(nosuch)", "nosuch.x = 1", "nosuch[0] += 1", "nosuch9 += 1", "print(%s.nosuch)" % o, "print(%s.nosuch)" % c, "del %s.nosuch" % o, "del %s.nosuch" % c, "%s.nosuch += 1" % o,
            "del %s[99]" % l, "%s[99] = 0" % l, "%s[-99] += 1" % l, "del %s[\"zz\"]" % d, "print(%s[\"zz\"])" % d, "%s[\"zz\"] += 1" % d, "%s.pop(\"zz\")" % d, "[].pop()", "[1].pop(5)", "[].remove(1)", "[1].index(None)",
            "print(True + True, -True, ~False, True & False, True & 1, True ^ True, True << 3, True * \"ab\")", "print(True == 1, False < True < 2, {True: 1}, [True, 1] == [1, True])",
            "print(range(10 ** 12)[5], len(range(10 ** 12)), 7 in range(0, 10 ** 15, 7), range(5, 0, -2)[1])", "print(str(), int(), bool(), list(), tuple(), dict())",
            "print([%s] == [%s], (%s,) == (%s,), [%s] != (%s,))" % (o, o, o, o, o, o), "print(%s == %s, %s != %s, %s == None, None != %s)" % (o, o, o, o, o, o),
            "print((%s, 1) in [(%s, 1)], (%s,) in ((%s,), 2))" % (o, o, o, o), "print((%s, (%s, [%s])) == (%s, (%s, [%s])))" % (o, o, o, o, o, o),
            "print(not %s, %s and 1, %s or 2, 3 if %s else 4)" % (o, o, o, o), "print(str(%s), repr(%s), [%s], (%s,), {1: %s}, ((%s,),))" % (o, o, o, o, o, o),
            "print((%s, %s) == (%s, %s), (%s, 5) != (%s, 5))" % (o, n, n, o, o, n), "print((%s, [%s]) == (%s, (%s,)))" % (o, o, o, o), "print((%s,) == %s, %s != (%s,))" % (o, odd, odd, o),
            "print((%s,) + (1,), (%s,) * 2, 2 * (%s, 1), (%s, 2)[0], len((%s,)), 2 in (%s, 2))" % (o, o, o, o, o, o),
            "print((%s,) + [1])" % o, "print((%s,) * (1,))" % o, "print((%s,) - (1,))" % o, "print((%s,)[1])" % o, "print(-(%s,))" % o, "print((%s,)())" % o, "print((%s, 1) < 5)" % o, "print(not (%s,), bool((%s,)))" % (o, o),
            "for q9 in (%s, (%s, 1)):\n    print(q9)" % (o, o), "q8, q9 = (%s, %s)\nprint(q8, q9)" % (o, n), "print(tuple([%s, %s]), list((%s,)))" % (o, o, o), "%s.extend((%s, 1))" % (m, o), "%s += (%s,)" % (m, o),
            "print(min((1, 2), (1, 0)), max((True, 1), (1, True)), max(\"ab\", \"b\"), min(\"hello\"))", "print(sorted((True, 0, 1, False)), sorted(\"hello\"), sorted({2: 1, 1: 2}))",
            "print({(%s, \"k\"): %s})" % (n, o), "print({1: 0, True: %s, (1,): 2, (True,): 3}, {1: 2}.get(True))" % o, "print(%s.get(%s, %s))" % (d, n, o), "print(%s is None, None is None, %s is not None)" % (o, odd),
            "%s.extend(%s)\nprint(%s)\n%s.clear()" % (l, l, l, l) if l[0] != "[" else "print([1] + [2])", "print(%s.nosuch(say(1)))" % o, "5(say(1))", "print(nosuch(say(1)))", "%s[say(0)][say(1)] = say(2)" % m, "%s.nosuch.x = say(1)" % o,
            "say(%s)[say(9)] += say(1)" % l, "nosuch += say(1)", "print(%s(say(1), say(2), nosuch, say(3)))" % f, "print({say(1): say(2), nosuch: say(3)})", "print([say(1), 1 // 0, say(2)])", "print(say(1), 1 // 0, say(2))", "print(1 // 0 if say(0) else say(2))",
            "print(list(b\"ab\"), tuple(b\"\"), sum(b\"ab\"), min(b\"ba\"), sorted(b\"ba\"), len(b\"abc\"), b\"ab\" * 2, b\"a\" + b\"b\", b\"a\" < b\"b\", {b\"a\": 1})", "for q9 in b\"ab\":\n    print(q9)", "q8, q9 = b\"xy\"\nprint(q8, q9)",
            "q9 = %s.%s()\nprint(len(q9), list(q9), bool(q9))\n%s[\"new\"] = %s\nprint(len(q9), list(q9), \"new\" %s q9)\n%s.pop(\"new\")" % (d, "keys", d, n, self.pick(["in", "not in"]), d) if d[0] != "{" else "print({}.get(1))",
            "q9 = %s.values()\nprint(%s in q9, %s not in q9, len(q9))" % (d, o, n), "for q9 in %s.items():\n    print(q9, q9[0])" % d, "print(tuple(%s.items()), list(%s.values()))" % (d, d), "print(tuple(%s.values()), sorted(%s))" % (d, d),
            "for q9 in %s:\n    pass\nprint(q9)" % self.pick(["()", l, s, "range(2)"]), "print(q6)", "for q9 in range(3, -3, -2):\n    print(q9)", "for q9 in range(2):\n    q9 += 5\n    print(q9)",
            "print(%s == %s == %s, %s != %s != %s, 1 < 2 > %s)" % (o, o, n, o, odd, n, odd), "print(%s in [%s] in [[%s]])" % (o, o, o), "print(%s < %s < %s)" % (o, o, n), "print((%s, 1) == (%s, 1) != (1,))" % (o, o),
            "try:\n    raise %s(%s)\nexcept %s as k9:\n    print(str(k9), repr(k9), k9.args)" % ((self.raised,) + (self.pick(["", "1", "\"a\"", "\"a\", 2", "(1, 2)", "None", "()", "\"it's\"", "b\"x\", True", "\"\""]), self.raised)),
            "print(str(%s) == repr(%s), str(%s) + \"!\", len(repr((%s,))))" % (o, o, o, o), "print({1: (%s, [%s])}, [(%s,)], [[%s]])" % (o, o, o, o), "print(range(3), [range(1, 2)], (range(0, 4, 2),), str(range(-1)))",
            "print([(%s, i9) for_ in 3])" % o if False else "print(((%s, %s), %s) == ((%s, %s), %s))" % (o, n, o, o, n, o), "print((%s, (1, (2, (%s, ())))))" % (o, o), "print((%s, 1)[-1], (%s, 1)[True], (%s,)[0] == %s)" % (o, o, o, o),
            "print(tuple((%s, %s)), sum((1, True)), tuple({1: %s}), list((%s,)))" % (o, n, o, o), "print(\",\".join((\"a\", \"b\")), \",\".join({\"x\": 1}), \"-\".join(\"abc\"))", "print(%s.index(%s), %s.index(%s))" % (m, o, m, n), "%s.remove(%s)" % (m, o), "%s.insert(%s, (%s, %s))" % (m, self.pick(["0", "-1", "99"]), o, n),
            "print((%s,) %s (%s,))" % (o, self.pick(["==", "!="]), odd), "print((%s, %s) in [%s, (%s, %s), (%s, 0)])" % (o, n, n, n, o, o), "print([(%s, 1), 2].index((%s, %s)))" % (o, o, n), "print({1: (%s, 2)}.values() == 3, (%s, 2) in {1: (%s, 2), 2: (3, 3)}.values())" % (o, o, o),
            "print({F} == {F}, {F} != 5, {C} == {C}, [{F}] == [{F}], ({F}, 1) == ({F}, 1), {F} in (1, {F}), not {F}, bool({C}), {C} in [{F}, {C}], {F} == {C})", "print({F} < {F})", "print({F} + 1)", "print({F}[0])", "{C}[0] = 1", "del {F}[0]", "print(len({F}))",
            "for q9 in {C}:\n    pass", "print({C} < 1)", "print(-{C})", "print({F} in {F})", "print({O} in {C})", "print([say, {F}][0](1), (say, {F})[0](2), {{1: say}}[1](3), {{1: say}}.get(1)(4))", "print(list({F}))", "q9 = [].append\nprint(q9(1), q9 == 5, q9 in [q9], not q9)",
            "print({C} + {C})", "print({F} * 2)", "print(2 * {F})", "print({O} + {F})", "print([1] + {F})", "print(\"a\" + {F})", "print((1,) + {F})", "print(1 - {C})", "print({O}({O}))", "print({O}[{O}])", "print({O} {S} {O})", "print({O} {S} {N})", "print({N} {S} {O})",
            "{O} {S}= {N}\nprint({N})", "print(({O}, 1) {S} 2)", "print([{O}] {S} {N})", "print({O} in {O})", "print({O} not in {N})", "print({N} in {O})", "print(len({O}), bool({O}), [{O}][0] == {O})", "for q9 in {O}:\n    print(q9)\n    break", "print([{O}, {O}] == [{O}, {N}], [{O}] != [{N}])",
            "print({O} == {N} != {O}, {N} != {O})", "print(({O}, {N}) != ({N}, {O}), (({O},),) == (({N},),))", "print({O} in ({N}, {O}), {N} in ({O}, {N}), {O} in [{N}], {N} in [{O}, {O}])", "{M}.append({O})\nprint({M}, {M}.index({O}), {N} in {M})\n{M}.remove({O})",
            "print({O} < {N}, {O} < {N} < {O})", "print({N} >= {O})", "print({O} <= {O})", "print((-{O}, 1))", "print({O}.v == {O}.v, {O}.v)", "{O}.v = ({O}.v, 1)[0]\nprint({O})", "{O}.w = [{O}.v]\n{O}.w += (1, 2)\nprint({O}.w)", "{O}.w = 5\n{O}.w -= True\nprint({O}.w)\ndel {O}.w\nprint({O}.w)",
            "{O}[0] = say(1)", "{O}[say(\"k\")] += 1", "del {O}[say(0)]", "print({O}[-1], {O}[0])", "print({O}(1))", "q9 = {O}\nq9.z = q9\nprint(q9.z.z.z == q9)\ndel q9.z",
            "print(...)", "print(... == ..., NotImplemented == 1, (NotImplemented, ...))", "print(\"%s\".find(\"\"), \"\" in \"\", \"b\" in \"abc\")" % "abc", "print(\" a  b \".split(), \"a  b\".split(\" \"), \"\".split(), \"\".split(\",\"))",
            "print(\"aaa\".replace(\"aa\", \"b\"), \"abab\".replace(\"ab\", \"\"), \"x\" * 0, \"\" * 5)", "print([1, 2] * 2, [1] * -1, [[]] * 2)", "print(%s(%s(1)))" % (f, f), "print(lambda_free)",
            "print((lambda: 5)(), (lambda q: (q, q))(%s), (lambda q, w: q)(1))" % o, "print((5).hook)" if self.wild else "print((lambda: nosuch)())",
        ])
        if not self.classes:
            st = st.replace("rec", "say")
        n2 = self.pick([n, odd, self.pick(inst) if inst else o, o, "None", "(%s,)" % o, "[%s]" % o])
        st = (st.replace("{F}", f).replace("{C}", c if self.classes else "say").replace("{O}", o).replace("{N}", n2).replace("{M}", m if m[0] != "[" else "[1, 2].reverse" if False else (self.var(sc, "lany") or "m0"))
              .replace("{S}", self.pick(["+", "-", "*", "//", "%", "+", "-", "*", "**", "&", "|", "^", "<<", ">>", "/"])).replace("{{", "{").replace("}}", "}"))
        for line in st.split("\n"):
            self.out(ind, line)

    def trick(self, sc, ind):
        """A few lines on one fine point."""
        o = lambda s: [self.out(ind, x) for x in s.strip("\n").split("\n")]
        n = self.fresh("")
        r = self.r
        k = r.randrange(31)
        if k >= 27:
            ex = lambda: self.pick(["KeyError(1)", "ValueError(\"v\", 2)", "RuntimeError", "TypeError(\"t\")", "NotImplementedError(3)", "1 // 0", "pass", "print(5)", "[][1]"])
            st = lambda: (lambda x: x if x.startswith(("1", "[", "pass", "print")) else "raise " + x)(ex())
            cl = lambda: self.pick(["KeyError", "ValueError", "RuntimeError", "LookupError", "Exception", "TypeError", "ArithmeticError"])
            text = self.pick(["""def f@():
    for q in (1, 2, 3):
        try:
            print("q", q)
            if q == N:
                S
            A
        except C as ea@:
            print("a")
            try:
                S
            except C as eb@:
                print("b")
                S
            finally:
                print("c")
                R
            print("d")
            R
        finally:
            print("e")
    return "end"
try:
    print(f@())
except KeyError as ec@:
    print(str(ec@), ec@.args)
except (RuntimeError, C) as ec@:
    print("second")
except Exception:
    print("other")
""", """def g@(n):
    try:
        if n == 0:
            S
            return "zero"
        return (n, g@(n - 1))
    except C:
        print("in", n)
        try:
            g@(n - 2) if n > 2 else say(n)
            S
        except C as ed@:
            print("inner", n)
            raise ed@
        finally:
            print("fin", n)
        A
    finally:
        print("out", n)
try:
    print(g@(N))
except Exception:
    print("left")
""", """try:
    try:
        try:
            S
            print("one")
        except C:
            print("two")
            raise
        finally:
            print("three")
            try:
                S
            except C as ef@:
                print("four")
                try:
                    S
                except C as ef@:
                    print("five")
                try:
                    raise ef@
                except Exception:
                    print("six")
    except C as eg@:
        print("seven")
        R
    print("eight")
except Exception:
    print("nine")
""", """class X@:
    def __bool__(self):
        print("bool")
        S
        return N == 2
    def __eq__(self, other):
        try:
            print("eq")
            S
            return other == N
        except C:
            print("caught")
            R
        finally:
            print("eq end")
    def __repr__(self):
        try:
            S
            return "X"
        except C:
            return "C"
    def __len__(self):
        return N
x@ = X@()
try:
    print(x@ == 2, (x@, 1) == (N, 1), [1, x@] == [1, N], x@ in (3, N))
except Exception:
    print("first")
try:
    print(x@, [x@], (x@, N), {N: x@}, len(x@), not x@)
except Exception:
    print("second")
while not x@:
    print("turn")
    break
"""])
            if "class X@" in text and not (sc is self.g and ind == 0 and not self.tries):
                return o("print(1)")
            lines = []
            for line in text.strip("\n").split("\n"):
                w = line.strip()
                pad = line[:len(line) - len(line.lstrip())]
                if w == "S":
                    line = pad + st()
                elif w == "R":
                    line = pad + self.pick(["raise", "pass", "print(7)", "pass"])
                elif w == "A":
                    line = pad + (self.pick(["break", "continue", "return say(8)", "pass", "print(6)"]) if "for q" in text else self.pick(["return say(9)", "print(6)"]))
                else:
                    line = line.replace("N", str(r.randrange(0, 4))).replace("except C", "except " + cl()).replace(", C)", ", %s)" % cl()) if "NotImpl" not in line else line
                lines.append(line.replace("@", n))
            return o("\n".join(lines))
        if k >= 24:
            depth = r.choice([5, 8, 9, 10, 15, 25, 36])
            return o(self.pick(["print(%s)", "i1 = (%s) %% 50" if sc is self.g else "print(%s)", "print([%s])", "if %s:\n    print(\"yes\")", "for q" + n + " in [%s]:\n    print(q" + n + ")", "l1.append((%s) %% 9)\nl1.pop()"]).replace("%%", "%").replace("%s", self.deep(depth)))
        a, b = self.int_const(), self.int_const()
        x = self.expr("any", sc, 1)
        if k == 0:
            o("""try:
    raise KeyError(%s)
except KeyError as k%s:
    try:
        raise RuntimeError("in")
    except RuntimeError as k%s:
        print(repr(k%s))
    try:
        print(repr(k%s))
    except NameError:
        print("unbound")""" % (a, n, n, n, n))
        elif k == 1:
            o("""def f%s():
    y%s = "outer"
    def g%s():
        global s0
        def h%s():
            return s0
        return (h%s(), y%s)
    return g%s()
print(f%s())""" % (n, n, n, n, n, n, n, n))
        elif k == 2:
            o("""def f%s():
    try:
        return say(%s)
    finally:
        print("fin", %s)
print(f%s())
for q%s in (1, 2, 3):
    try:
        if q%s == 2:
            continue
        if q%s == 3:
            break
    finally:
        print("q", q%s)""" % (n, a, b, n, n, n, n, n))
        elif k == 3:
            o("""def f%s():
    for q in range(4):
        try:
            try:
                if q == %s:
                    return q
                raise IndexError("i", q)
            except IndexError as z%s:
                print(z%s.args)
                if q > 1:
                    raise
            finally:
                print("one")
        except LookupError as y%s:
            print(str(y%s), repr(y%s))
        finally:
            print("two")
    return -1
print(f%s())""" % (n, self.pick(["0", "1", "2", "5"]), n, n, n, n, n, n))
        elif k == 4:
            o("""fs%s = []
for q%s in range(3):
    fs%s.append(lambda w: (w, q%s))
print(fs%s[0](1), fs%s[2](2))""" % (n, n, n, n, n, n))
        elif k == 5:
            o("""def c%s(start):
    n = start
    def up(k):
        nonlocal n
        n += k
        return n
    def get():
        return n
    return [up, get]
p%s = c%s(%s)
w%s = c%s(100)
print(p%s[0](2), p%s[0](3), p%s[1](), w%s[1]())""" % (n, n, n, a, n, n, n, n, n, n))
        elif k == 6:
            o("""def u%s(c):
    if c:
        w = 1
    return w
print(u%s(True))
print(u%s(%s))""" % (n, n, n, self.pick(["False", "True", "0", "[]"])))
        elif k == 7:
            o("""def u%s():
    def inner():
        return w
    if %s:
        w = 1
    return inner()
print(u%s())""" % (n, self.test(sc, 1), n))
        elif k == 8:
            o("""q%s = [0, 1, 2, 3]
for w%s in q%s:
    if w%s == 1:
        q%s.remove(1)
    if len(q%s) < 6:
        q%s.append(w%s + 10)
    print(w%s, q%s)""" % ((n,) * 10))
        elif k == 9 and self.classes:
            c = self.pick(self.classes)
            v = self.inst(c, sc, 1)
            o("""%s.hook = lambda me: "hooked"
q%s = %s
print(q%s.hook())
q%s.hook = lambda: "own"
print(q%s.hook())
del q%s.hook
print(q%s.hook(), %s.hook(5))
del %s.hook""" % (c.name, n, v, n, n, n, n, n, c.name, c.name))
        elif k == 10 and self.classes:
            c = self.pick(self.classes)
            o("""%s.kept = %s
q%s = %s
print(q%s.kept, %s.kept)
q%s.kept = %s
print(q%s.kept, %s.kept)
%s.kept = say
try:
    print(q%s.kept, %s.kept(1))
    del q%s.kept
    print(q%s.kept())
finally:
    del %s.kept""" % (c.name, self.pick(["[1]", "5", "(1, [2])", "\"t\""]), n, self.inst(c, sc, 1), n, c.name, n, a, n, c.name, c.name, n, c.name, n, n, c.name))
        elif k == 11:
            o("""print(say(%s) %s say(%s) %s say(%s))""" % (a, self.pick(["<", "==", "!=", ">="]), b, self.pick(["<", "==", "in"]) , self.pick(["[1, 2]", "(1, 2)", "[]"])))
        elif k == 12:
            o("""q%s = [1, 2, 3]
q%s[say(0)], q%s[say(1)] = say(%s), say(%s)
q%s[say(-1)] += say(%s)
print(q%s)""" % (n, n, n, a, b, n, a, n))
        elif k == 13:
            o("""d%s = {say(1): say(2), say(True): say(3), "k": [say(%s)]}
d%s["k"][say(0)] -= say(%s)
print(d%s, d%s.pop(1), d%s)""" % (n, a, n, b, n, n, n))
        elif k == 14:
            o("""def f%s(n):
    if n == 0:
        raise ValueError("deep", %s)
    try:
        f%s(n - 1)
    finally:
        print("up", n)
try:
    f%s(3)
except ValueError as v%s:
    print(v%s.args)""" % (n, a, n, n, n, n))
        elif k == 15 and sc is self.g and not self.tries and self.feature["class"] and ind == 0:
            o("""class M%s:
    def __init__(self, v, xs):
        self.v = v
        self.xs = xs
    def __eq__(self, other):
        if len(self.xs) < 5:
            self.xs.append(9)
        return %s
    def __repr__(self):
        return "M" + str(len(self.xs))
z%s = [%s]
z%s.append(M%s(1, z%s))
z%s.append(4)
try:
    print(%s in z%s, z%s)
    print(z%s.index(%s))
    z%s.remove(%s)
    print(z%s, z%s == [%s, 2, 3], z%s[1] in (1, z%s, z%s[1]))
except Exception:
    print("raised")""" % (n, self.pick(["False", "True", "self.v == other", "[]", "None"]), n, a, n, n, n, n, self.pick([a, "9", "77"]), n, n, n, self.pick(["4", "9", "55"]), n, self.pick(["4", "9", "55"]), n, n, a, n, n, n))
        elif k == 16 and sc is self.g and not self.tries and self.feature["class"] and ind == 0:
            o("""class A%s:
    shared = []
    count = 0
    def __init__(self, v):
        self.v = v
        A%s.count += 1
        self.shared.append(v)
    def who(self):
        return "A" + str(self.v)
    def call(self):
        return self.who() + "!"
class B%s(A%s):
    def who(self):
        return "B" + A%s.who(self)
    def __len__(self):
        return self.v
class D%s(B%s):
    shared = [0]
    def __init__(self, v, w):
        self.v = v
        self.w = w
for q%s in (A%s(%s), B%s(%s), D%s(%s, 5)):
    print(q%s.call(), q%s.shared, q%s.count, not q%s)
print(A%s.shared, D%s.shared, A%s.count, B%s.count)""" % (n, n, n, n, n, n, n, n, n, a, n, a, n, b, n, n, n, n, n, n, n, n))
        elif k == 17:
            o("""def f%s():
    raise StopIteration
try:
    for q%s in (1, 2):
        print(q%s)
        if q%s == 2:
            f%s()
except StopIteration as sx%s:
    print("stop", sx%s.args, str(sx%s) == "")""" % ((n,) * 8))
        elif k == 18:
            o("""try:
    try:
        raise %s
    finally:
        print(%s)
except Exception:
    print("over")""" % (self.pick(["KeyError(1)", "ValueError", "RuntimeError(\"x\")"]), x))
        elif k == 19:
            o("""t%s = (%s, [%s])
t%s[1].append(t%s[0])
try:
    t%s[1] += [3]
except TypeError:
    print("item", t%s)
u%s = t%s
t%s += (%s,)
print(t%s, u%s)""" % (n, a, b, n, n, n, n, n, n, n, a, n, n))
        elif k == 20:
            o("""def say2(x, y):
    return (x, y)
print(say2(say(%s), say(%s)), [say(1), say(2)][say(0)], (say(3), say(4)), {say(5): say(6)})""" % (a, b))
        elif k == 21:
            o("""g%s = 0
def bump%s():
    global g%s
    g%s += 1
    return g%s
print(bump%s() + bump%s() * bump%s(), g%s)
print([bump%s(), bump%s()] == [bump%s(), bump%s()], bump%s() and bump%s() or bump%s())
while bump%s() < 15:
    if g%s %% 2:
        continue
    if g%s > 13:
        break
print(g%s)""" % ((n,) * 20))
        elif k == 22:
            o("""def f%s(xs):
    if len(xs) < 2:
        return xs
    left, right = [], []
    p = xs[0]
    i = 1
    while i < len(xs):
        if xs[i] < p:
            left.append(xs[i])
        else:
            right.append(xs[i])
        i += 1
    return f%s(left) + [p] + f%s(right)
print(f%s([3, %s, %s, 1]), f%s(["b", "a"]), f%s([(1, 2), (0, "x")]))""" % (n, n, n, n, a, b, n, n))
        else:
            o("""q%s = {}
q%s["self"] = [1, q%s.get("x")]
for k%s, v%s in [("a", 1), ["b", 2], "cd"]:
    q%s[k%s] = v%s
for k%s in q%s:
    print(k%s, q%s[k%s])
for v%s in q%s.values():
    print(v%s)
print("a" in q%s, 2 in q%s.values(), "d" in q%s.keys(), len(q%s.items()), bool(q%s.keys()), list(q%s.items()))""" % ((n,) * 22))

    def deep(self, n):
        """An expression nested so deep, with something that may ask or raise at its bottom."""
        if n <= 0:
            return self.pick(["3", "say(2)", "nosuch", "1 // 0", "len(l0)", "i0", "True", "i1", "sum(l1)", "[1, 2][5]"] if self.p(0.4) else ["3", "i0", "i1", "say(4)", "len(l1)", "7", "True"])
        w = self.pick(["(%s + 1)", "(2 * %s %% 97)", "(-%s)", "[%s][0]", "(%s, 1)[0]", "(%s if i0 else 0)", "(0 or %s)", "(%s and 5)", "(lambda: %s)()", "len([%s])", "abs(%s)", "int(str(%s))",
                       "min(%s, 50)", "{1: %s}[1]", "(%s < 5)", "(not %s)", "max([%s])", "(1 < %s < 90)", "say(%s)", "(lambda q: q)(%s)", "(i0 + %s) % 89", "ord(chr(%s % 100 + 60))", "(%s - l1.index(l1[0]))",
                       "(%s == (3, [2]))", "[2, 3, 4][%s % 3]", "int(bool(%s))", "(%s in [1, 2, 3])", "list((%s,))[-1]", "(5 - %s)", "(~%s)", "(%s | 8)", "(1 if not %s else 2)", "len((%s, 2) * 2)"])
        return w.replace("%%", "%").replace("%s", self.deep(n - 1), 1)

    def list_op(self, sc, ind):
        k = self.pick(["lint", "lany", "ltext"])
        n = self.var(sc, k)
        if not n:
            return self.out(ind, "pass")
        o = lambda s: self.out(ind, s)
        item = {"lint": "int", "ltext": "text", "lany": self.pick(["int", "inst" if self.classes else "text", "text", "lint", "rtup", "none"])}[k]
        e = lambda kk, dd=1: self.expr(kk, sc, dd)
        pos = lambda: self.pick(["0", "-1", "1", "2", "-2", "9", "-9", "True"]) if self.p(0.8) else e("int")
        w = self.r.randrange(14)
        if w <= 2:
            o("%s.append(%s)" % (n, e(item)))
        elif w == 3:
            o("%s.insert(%s, %s)" % (n, pos(), e(item)))
        elif w == 4:
            o("print(%s.pop(%s))" % (n, self.pick(["", pos()])))
        elif w == 5:
            o("%s.remove(%s)" % (n, e(item)))
        elif w == 6:
            o("print(%s.index(%s))" % (n, e(item)))
        elif w == 7:
            o("%s.reverse()" % n)
        elif w == 8:
            o("%s.extend(%s)" % (n, e(self.pick([k, k, "range" if self.feature["range"] and k != "ltext" else k, "text" if k != "lint" else k]))))
        elif w == 9:
            o("%s[%s] = %s" % (n, pos(), e(item)))
        elif w == 10:
            o("del %s[%s]" % (n, pos()))
        elif w == 11 and k == "lint":
            o("%s[%s] += %s" % (n, pos(), e("int")))
        elif w == 12 and self.p(0.3):
            o("%s.clear()" % n)
        else:
            o("print(%s, len(%s), %s[%s])" % (n, n, n, pos()))
        if len(self.lines) and self.p(0.5):
            o("if len(%s) > 7:" % n)
            self.out(ind + 1, "%s.clear()" % n)

    def dict_op(self, sc, ind):
        n = self.var(sc, "dict")
        if not n:
            return self.out(ind, "pass")
        o = lambda s: self.out(ind, s)
        e = lambda kk, dd=1: self.expr(kk, sc, dd)
        v = lambda: e(self.pick(["int", "text", "lint", "inst" if self.classes else "int", "rtup", "none"]))
        k = lambda: self.key(sc, 1)
        w = self.r.randrange(14)
        if w <= 2:
            o("%s[%s] = %s" % (n, k(), v()))
        elif w == 3:
            o("print(%s[%s])" % (n, k()))
        elif w == 4:
            o("del %s[%s]" % (n, k()))
        elif w == 5:
            o("print(%s.pop(%s))" % (n, k() + self.pick(["", ", " + v()])))
        elif w == 6:
            o("print(%s.setdefault(%s, %s))" % (n, k(), v()))
        elif w == 7:
            o("print(%s.get(%s))" % (n, k() + self.pick(["", ", " + v()])))
        elif w == 8:
            o("print(list(%s%s))" % (n, self.pick(["", ".keys()", ".values()", ".items()"])))
        elif w == 9:
            o("print(tuple(%s%s))" % (n, self.pick(["", ".keys()", ".values()", ".items()"])))
        elif w == 10:
            o("%s[%s] %s %s" % (n, k(), self.pick(["+=", "-=", "*="]), e("int")))
        elif w == 11 and self.p(0.4):
            o("%s.clear()" % n)
        elif w == 12:
            o("print(%s in %s, %s not in %s.values())" % (k(), n, v(), n))
        else:
            o("print(%s, len(%s))" % (n, n))
        if self.p(0.5):
            o("if len(%s) > 6:" % n)
            self.out(ind + 1, "%s.clear()" % n)

    def inst_op(self, sc, ind):
        c = self.pick(self.classes)
        o = lambda s: self.out(ind, s)
        e = lambda kk, dd=1: self.expr(kk, sc, dd)
        v = self.var(sc, ("inst", c)) or self.inst(c, sc, 1)
        acts = ["attr", "set", "print", "del"]
        if c.methods:
            acts += ["method"] * 3
        if "__len__" in c.special:
            acts.append("len")
        if "__getitem__" in c.special:
            acts += ["getitem", "getitem"]
        if "__setitem__" in c.special:
            acts += ["setitem", "augitem"]
        if "__delitem__" in c.special:
            acts.append("delitem")
        if "__contains__" in c.special:
            acts.append("contains")
        if c.eq:
            acts += ["eq", "eq", "eq_in"]
        if c.lt:
            acts += ["lt", "lt"]
        if c.add:
            acts += ["aug", "aug", "bin"]
        if self.feature["bound"]:
            acts.append("bound")
        a = self.pick(acts)
        attr = self.pick(sorted(c.attrs)) if c.attrs else "v"
        kind = c.attrs.get(attr, "int")
        key = lambda: self.expr(c.item_kind or "int", sc, 1)
        if a == "attr":
            o("print(%s.%s)" % (v, attr if self.p(0.9) else self.pick(["missing", "extra", "hook"])))
        elif a == "set":
            x = self.r.random()
            if x < 0.5:
                o("%s.%s = %s" % (v, attr, e(kind)))
            elif x < 0.7 and kind == "int":
                o("%s.%s %s %s" % (v, attr, self.pick(["+=", "-=", "*="]), e("int")))
                o("%s.%s %%= 101" % (v, attr))
            elif x < 0.8:
                o("%s.extra = %s" % (v, e("any")))
            else:
                o("%s.own = %s" % (v, e("int")))
        elif a == "del":
            o("del %s.%s" % (v, self.pick(["own", "extra", "hook"])))
        elif a == "print":
            o("print(%s, [%s], (%s, 1))" % (v, v, v))
        elif a == "method":
            m = self.pick(sorted(c.methods))
            ks, ret = c.methods[m]
            o("print(%s.%s(%s))" % (v, m, ", ".join(e(k) for k in ks)))
        elif a == "len":
            o("print(len(%s), bool(%s))" % (v, v))
        elif a == "getitem":
            o("print(%s[%s])" % (v, key()))
        elif a == "setitem":
            o("%s[%s] = %s" % (v, key(), e("int")))
        elif a == "augitem":
            o("%s[%s] += %s" % (v, key(), e("int")))
        elif a == "delitem":
            o("del %s[%s]" % (v, key()))
        elif a == "contains":
            o("print(%s in %s, %s not in %s)" % (key(), v, e("int"), v))
        elif a == "eq":
            o("print(%s %s %s, %s %s %s)" % (v, self.pick(["==", "!="]), self.inst(c, sc, 1), v, self.pick(["==", "!="]), e("any_eq")))
        elif a == "eq_in":
            w = self.inst(c, sc, 1)
            o(self.pick(["print(%s in (%s, %s, %s))" % (v, e("int"), w, v), "print(%s in [%s, %s])" % (w, v, e("any_eq")),
                         "print([%s, %s].index(%s))" % (w, v, v), "print((%s, 1) == (%s, 1), (%s, 1) != (%s, 2))" % (v, w, w, v),
                         "print([%s] == [%s], [%s, 2] != [%s, 2])" % (v, w, w, v), "print(((%s, 1), %s) == ((%s, 1), %s))" % (v, w, w, v)]))
        elif a == "lt":
            o("print(%s %s %s)" % (v, self.pick(["<", "<=", ">", ">="]), self.inst(c, sc, 1) if self.p(0.7) else e("int")))
        elif a == "aug":
            n = self.writable(sc, ("inst", c))
            op = self.pick([x for x in sorted(c.add) if x not in ("neg", "/")] or ["+"])
            if n:
                o("%s %s= %s" % (n, op, e("int") if self.p(0.7) else self.inst(c, sc, 1)))
            o("print(%s)" % v)
        elif a == "bin":
            op = self.pick(["+", "-", "*", "//", "%", "&", "<<", "/"] if self.p(0.2) else [x for x in sorted(c.add) if x != "neg"] or ["+"])
            l, rr = v, e(self.pick(["int", "text", "lint", "inst"]))
            if self.p(0.2):
                l, rr = rr, l
            o("print(%s %s %s)" % (l, op, rr))
        elif a == "bound" and c.methods:
            m = self.pick(sorted(c.methods))
            ks, ret = c.methods[m]
            n = self.fresh("b")
            o("%s = %s.%s" % (n, v, m))
            o("print(%s(%s))" % (n, ", ".join(e(k) for k in ks)))
        else:
            o("print(%s)" % v)

    def compound(self, sc, ind, d):
        if sc is self.g and not self.tries and self.p(0.97):
            return self.wrapped(sc, ind, lambda i: self.compound(sc, i, d))
        r = self.r
        o = lambda s: self.out(ind, s)
        e = lambda k, n=2: self.expr(k, sc, n)
        x = r.random()
        if x < 0.22:
            o("if %s:" % self.test(sc, 2))
            self.block(sc, ind + 1, r.randrange(1, 3), d - 1)
            while self.p(0.25):
                o("elif %s:" % self.test(sc, 2))
                self.block(sc, ind + 1, 1, d - 1)
            if self.p(0.5):
                o("else:")
                self.block(sc, ind + 1, r.randrange(1, 3), d - 1)
            return
        if x < 0.34:
            self.guard += 1
            g = "w%d" % self.guard
            o("%s = 0" % g)
            c = "%s < %d" % (g, r.randrange(1, 4))
            o("while %s:" % (c if self.p(0.6) else "%s and %s" % (c, self.test(sc, 1)) if self.p(0.7) else "%s < %d > %s" % (g, r.randrange(1, 4), g)))
            self.out(ind + 1, "%s += 1" % g)
            return self.loop_body(sc, ind + 1, d - 1)
        if x < 0.62:
            return self.for_loop(sc, ind, d)
        if x < 0.85:
            o("try:")
            self.tries += 1
            self.block(sc, ind + 1, r.randrange(1, 4), d - 1)
            if self.feature["exc"] and self.p(0.3):
                self.out(ind + 1, self.raise_stmt(sc))
            self.tries -= 1
            fin = self.p(0.45)
            if not fin or self.p(0.6):
                self.handlers(sc, ind)
                if self.p(0.2):
                    self.out(ind + 1, "print(\"in handler\")")
                    save = sc.loop
                    self.block(sc, ind + 1, 1, d - 1)
            if fin:
                o("finally:")
                self.out(ind + 1, 'print("finally")')
                save = (sc.loop, sc.fin)
                sc.loop, sc.fin = 0, True
                self.block(sc, ind + 1, r.randrange(0, 2), d - 1)
                sc.loop, sc.fin = save
            return
        if x < 0.93 and self.feature["closure"]:
            return self.closure(sc, ind, d)
        if self.feature["lambda"]:
            n = self.fresh("h")
            o("%s = lambda q: %s" % (n, self.pick(["q + %s" % e("int", 1), "(q, %s)" % e("any", 1), "q if q else %s" % e("int", 1), "[q, q]"])))
            return self.wrapped(sc, ind, lambda i: self.out(i, "print(%s(%s))" % (n, e(self.pick(["int", "int", "text"]), 1))))
        o("pass")

    def loop_body(self, sc, ind, d):
        sc.loop += 1
        save = sc.fin
        self.block(sc, ind, self.r.randrange(1, 3), d)
        if self.p(0.25):
            self.out(ind, "if %s:" % self.test(sc, 1))
            self.out(ind + 1, self.pick(["break", "continue"]))
            if self.p(0.5):
                self.block(sc, ind, 1, d)
        elif self.p(0.15):
            self.out(ind, "try:")
            self.out(ind + 1, self.pick(["break", "continue"]) if self.p(0.5) else "print(%s)" % self.expr("int", sc, 1))
            self.out(ind, "finally:")
            self.out(ind + 1, 'print("f")')
        sc.loop -= 1

    def for_loop(self, sc, ind, d):
        o = lambda s: self.out(ind, s)
        e = lambda k, n=1: self.expr(k, sc, n)
        x = self.r.random()
        guard = True
        n = self.fresh("x")
        kinds = None
        if x < 0.25 and self.feature["range"]:
            o("for %s in range(%d):" % (n, self.r.randrange(0, 4)))
            guard = False
            kinds = {n: "int"}
        elif x < 0.4:
            o("for %s in %s:" % (n, e("lint")))
            kinds = {n: "int"}
        elif x < 0.5:
            o("for %s in %s:" % (n, e("text")))
            kinds = {n: "text"}
        elif x < 0.6:
            m = self.fresh("y")
            ks = [self.pick(["int", "text", "int"]) for _ in range(2)]
            rows = ", ".join(self.pick(["(%s)", "[%s]"]) % ", ".join(self.of(k, sc, 1) for k in ks) for _ in range(self.r.randrange(1, 4)))
            o("for %s, %s in [%s]:" % (n, m, rows))
            guard = False
            kinds = {n: ks[0], m: ks[1]}
        elif x < 0.7 and self.feature["dict"]:
            dd = self.var(sc, "dict") or self.x_dict(sc, 1)
            if self.p(0.5):
                m = self.fresh("y")
                o("for %s, %s in %s.items():" % (n, m, dd))
                self.out(ind + 1, "print(%s, %s)" % (n, m))
            else:
                o("for %s in %s%s:" % (n, dd, self.pick(["", ".keys()", ".values()"])))
                self.out(ind + 1, "print(%s)" % n)
            kinds = {}
        elif x < 0.8:
            o("for %s in %s:" % (n, e(self.pick(["rtup", "lany", "tup"]))))
            self.out(ind + 1, "print(%s)" % n)
            kinds = {}
        elif x < 0.86:
            l = self.writable(sc, "lint")
            if l:
                o("for %s[0] in %s:" % (l, self.pick(["(4, 5)", "[7]", "range(2)"])))
                self.out(ind + 1, "print(%s)" % l)
            else:
                o("for %s in ():" % n)
                self.out(ind + 1, "pass")
            kinds = {}
        else:
            cs = [c for c in self.classes if "__iter__" in c.special]
            if cs:
                o("for %s in %s:" % (n, self.inst(self.pick(cs), sc, 1)))
                kinds = {n: "int"}
            else:
                o("for %s in [1, 2]:" % n)
                kinds = {n: "int"}
        if guard:
            self.guard += 1
            g = "w%d" % self.guard
            line = self.lines.pop() if self.lines[-1].startswith("    " * (ind + 1)) else None
            head = self.lines.pop()
            o("%s = 0" % g)
            self.lines.append(head)
            self.out(ind + 1, "%s += 1" % g)
            self.out(ind + 1, "if %s > %d:" % (g, self.r.randrange(2, 6)))
            self.out(ind + 2, "break")
            if line:
                self.lines.append(line)
        # the loop's variables are read in the body alone
        saved = dict(sc.vars)
        sc.vars.update(kinds)
        self.loop_body(sc, ind + 1, d - 1)
        sc.vars = {k: v for k, v in sc.vars.items() if k in saved}

    def closure(self, sc, ind, d):
        """A function inside, which reads and binds names of the function around it (or global names)."""
        name = self.fresh("c")
        inner = Scope(name, outer=sc, function=True)
        ps = [self.fresh("a") for _ in range(self.r.randrange(0, 3))]
        self.out(ind, "def %s(%s):" % (name, ", ".join(ps)))
        self.in_function(inner, ps, [self.pick(["int", "int", "text"]) for _ in ps], ind + 1, sc, self.r.randrange(1, 3), d - 1, self.pick(["int", "any"]))
        ks = [inner.vars[p] for p in ps]
        for _ in range(self.r.randrange(1, 3)):
            self.wrapped(sc, ind, lambda i: self.out(i, "print(%s(%s))" % (name, ", ".join(self.expr(k, sc, 1) for k in ks))))

    def in_function(self, inner, ps, ks, ind, sc, n, d, ret):
        """The body of a function."""
        r = self.r
        bindable = [(v, k) for v, k in self.visible(sc).items() if v not in ps and k in ("int", "text", "lint", "bool") and not v.startswith(("x", "y"))]
        names = r.sample(bindable, min(len(bindable), r.randrange(0, 3)))
        scopes = {}
        s = sc
        while s is not None:
            for v in s.vars:
                scopes.setdefault(v, s)
            s = s.outer
        for v, k in names:
            if scopes[v] is self.g:
                self.out(ind, "global %s" % v)
            elif scopes[v].function and v in getattr(scopes[v], "own", ()):
                self.out(ind, "nonlocal %s" % v)
            else:
                continue
            inner.vars[v] = k
        inner.own = set(ps)
        for p, k in zip(ps, ks):
            inner.vars[p] = k
        for _ in range(r.randrange(0, 3)):
            k = self.pick(["int", "int", "text", "lint", "bool", "rtup", "lany"])
            v = self.fresh("v")
            self.calm = self.p(0.7)
            self.out(ind, "%s = %s" % (v, self.of(k, inner, 1)))
            self.calm = False
            inner.vars[v] = k
            inner.own.add(v)
        if self.p(0.06):
            v = self.fresh("z")
            self.out(ind, "if %s:" % self.test(inner, 1))
            self.out(ind + 1, "%s = %s" % (v, self.of("int", inner, 1)))
            inner.vars[v] = "int"
            inner.own.add(v)
        inner.ret = ret
        self.block(inner, ind, n, d)
        if self.p(0.2):
            self.out(ind, "for %s in range(3):" % self.fresh("x"))
            self.out(ind + 1, "try:")
            self.out(ind + 2, self.pick(["return %s" % self.expr(ret, inner, 1), "break", "continue", "print(1 // 0)"]))
            self.out(ind + 1, "finally:")
            self.out(ind + 2, 'print("leave")')
        elif self.p(0.25):
            self.out(ind, "if %s:" % self.test(inner, 1))
            self.out(ind + 1, "return %s" % self.expr(ret, inner, 2))
        if self.p(0.93):
            self.out(ind, "return %s" % self.expr(ret, inner, 2))

    # ---- classes
    def small_value(self, base):
        return self.pick(["%s", "%s % 7", "%s + 1"]).replace("%s", base)

    def make_class(self, i):
        r = self.r
        name = "C%d" % i
        c = Cls(name, [])
        o = self.out
        bases = [b for b in self.classes if not b.eq and not b.lt and not b.add and "__iter__" not in b.special]
        style = self.weighted([(4, "value"), (2, "box"), (1.5 if self.feature["iter"] else 0, "iter"), (1.5, "plain"), (2 if bases else 0, "sub"), (1, "odd")])
        head = "class %s:" % name
        if style == "sub":
            c.base = self.pick(bases)
            head = "class %s(%s):" % (name, c.base.name)
        o(0, head)
        if self.p(0.1):
            o(1, '"text of the class"')
        if self.p(0.3):
            c.attrs["k"] = "int"
            o(1, "k = %s" % self.int_const())
        if style == "sub":
            b = c.base
            c.params = list(b.params)
            c.attrs = dict(b.attrs, **c.attrs)
            c.methods = dict(b.methods)
            c.special = set(b.special)
            c.item_kind = b.item_kind
            if self.p(0.4):
                o(1, "def get(self):")
                o(2, "return 100 + %s.get(self)" % b.name if "get" in b.methods else "return 100")
                c.methods["get"] = ([], "int")
            if self.p(0.3):
                o(1, "def __str__(self):")
                o(2, "return \"str of %s\"" % name)
            if self.p(0.3):
                o(1, "def __init__(self, v):")
                o(2, "self.v = (v, %s)" % self.int_const() if self.p(0.3) else "self.v = v")
                c.params = ["int"]
                if "items" in c.attrs:
                    o(2, "self.items = [v]")
                if "n" in c.attrs:
                    o(2, "self.n = v")
            if self.p(0.3):
                self.m_len(c)
            if self.lines[-1] == head:
                o(1, "pass")
            return self.add_class(c)
        if style == "value":
            k = self.pick(["int", "int", "int", "text", "pair", "lint", "any"])
            c.params = [k]
            c.attrs["v"] = k
            o(1, "def __init__(self, v):")
            if self.p(0.1):
                o(2, 'print("init", v)')
            if self.p(0.08):
                o(2, "if v == 3:")
                o(3, self.pick(['raise ValueError("three")', "return 5", "return"]))
            o(2, "self.v = v")
            self.m_texts(c)
            if self.p(0.75):
                self.m_eq(c)
            if self.p(0.4):
                self.m_order(c)
            if self.p(0.5) and k in ("int", "text", "any"):
                self.m_arith(c)
            if self.p(0.3):
                self.m_bool(c)
            self.m_plain(c)
        elif style == "box":
            self.m_box(c)
            self.m_texts(c)
            if self.p(0.4):
                self.m_eq(c)
        elif style == "iter":
            self.m_iter(c)
            self.m_texts(c)
            if self.p(0.3):
                self.m_len(c)
        elif style == "odd":
            c.params = ["int"]
            c.attrs["v"] = "int"
            o(1, "def __init__(self, v):")
            o(2, "self.v = v")
            self.m_texts(c)
            self.m_odd(c)
        else:
            c.params = []
            if self.p(0.7):
                c.attrs["n"] = "int"
                o(1, "def __init__(self):")
                o(2, "self.n = %s" % self.int_const())
            else:
                c.attrs["n"] = "int"
                o(1, "n = %s" % self.int_const())
            self.m_texts(c)
            self.m_plain(c)
        self.add_class(c)

    def add_class(self, c):
        self.classes.append(c)
        for i in range(self.r.randrange(1, 3)):
            n = "o%s_%d" % (c.name[1:], i)
            self.pending.append((n, c))

    def field(self, c):
        return "self.v" if "v" in c.attrs else "self.n" if "n" in c.attrs else "self.items"

    def m_texts(self, c):
        o = self.out
        f = self.field(c)
        if self.p(0.93) or not self.wild:
            o(1, "def __repr__(self):")
            x = self.r.random()
            if x < 0.5:
                o(2, "return \"%s(\" + repr(%s) + \")\"" % (c.name, f))
            elif x < 0.85:
                o(2, "return \"%s\" + str(%s)" % (c.name.lower(), f))
            elif x < 0.9:
                o(2, 'print("repr")')
                o(2, "return \"%s!\"" % c.name)
            elif x < 0.95:
                o(2, "if %s == 4:" % f)
                o(3, self.pick(["return 4", 'raise KeyError("four")', "return None"]))
                o(2, "return \"four\"")
            else:
                o(2, "return str([%s, (%s, %s)])" % (f, f, f))
        if self.p(0.3):
            o(1, "def __str__(self):")
            x = self.r.random()
            if x < 0.8:
                o(2, "return \"<\" + str(%s) + \">\"" % f)
            elif x < 0.9:
                o(2, "return %s" % f)
            else:
                o(2, 'raise RuntimeError("str")')

    def m_eq(self, c):
        o = self.out
        c.eq = True
        c.special.add("__eq__")
        f = self.field(c)
        o(1, "def __eq__(self, other):")
        if self.p(0.2):
            o(2, 'print("eq", %s)' % f)
        if self.p(0.12):
            o(2, "if %s == %s:" % (f, self.int_const()))
            o(3, self.pick(["return NotImplemented", 'raise ValueError("eq", %s)' % ("1"), "return None", "return []", "return (self, 1)", "return self", '"fall"', "return 0"]))
        x = self.r.random()
        if x < 0.5:
            o(2, "return other == %s" % f)
        elif x < 0.75:
            o(2, "return repr(self) == repr(other)")
        elif x < 0.85 and self.wild:
            o(2, "return %s == other.%s" % (f, f[5:]))
        elif x < 0.9:
            o(2, "return NotImplemented")
        elif x < 0.95:
            o(2, self.pick(["return True", "return False", "return \"\"", "return [0]", "return ()", "return (self,)"]))
        else:
            o(2, "return (%s, 1) == (other, 1)" % f)

    def m_order(self, c):
        o = self.out
        c.lt = True
        f = self.field(c)
        for m, op, sw in self.r.sample([("__lt__", "<", ">"), ("__le__", "<=", ">="), ("__gt__", ">", "<"), ("__ge__", ">=", "<=")], self.r.randrange(1, 5)):
            o(1, "def %s(self, other):" % m)
            x = self.r.random()
            if x < 0.15:
                o(2, 'print("%s", %s)' % (m[2:4], f))
            if x < 0.6:
                o(2, "return other %s %s" % (sw, f))
            elif x < 0.8:
                o(2, "return str(%s) %s str(other)" % (f, op))
            elif x < 0.88:
                o(2, "return NotImplemented")
            else:
                o(2, self.pick(["return 1", "return []", "return \"yes\"", "return self", "return (self, 2)", 'raise TypeError("order")']))

    def m_arith(self, c):
        o = self.out
        f = self.field(c)
        c.add = set()
        for m, op in self.r.sample([("__add__", "+"), ("__sub__", "-"), ("__mul__", "*"), ("__floordiv__", "//"), ("__mod__", "%")], self.r.randrange(1, 4)):
            c.add.add(op)
            o(1, "def %s(self, other):" % m)
            x = self.r.random()
            if x < 0.15:
                o(2, "if %s:" % self.pick(["other is None", "other == 0", "%s == 2" % f]))
                o(3, self.pick(["return NotImplemented", 'raise ArithmeticError("op")']))
            if x < 0.2:
                o(2, 'print("%s", %s, other)' % (m[2:5], f))
            if x < 0.5:
                o(2, "return %s(%s %s other)" % (c.name, f, op))
            elif x < 0.7:
                o(2, "self.v = %s" % f)
                o(2, "return self")
            elif x < 0.9:
                o(2, "return %s" % self.pick(["%s %s 1" % (f, op), "(self, other)", "[%s, other]" % f, "%s" % f]))
            else:
                o(2, "return NotImplemented")
        if self.p(0.4):
            c.add.add("neg")
            o(1, "def __neg__(self):")
            o(2, self.pick(["return %s(-%s)" % (c.name, f), "return self", "return (self,)", "return -%s" % f]))

    def m_bool(self, c):
        o = self.out
        f = self.field(c)
        o(1, "def __bool__(self):")
        if self.p(0.2):
            o(2, 'print("bool")')
        o(2, self.pick(["return %s == 1" % f, "return True", "return False", "return not %s" % f, "return %s" % f if self.p(0.5) else "return bool(%s)" % f]))

    def m_len(self, c):
        o = self.out
        c.special.add("__len__")
        o(1, "def __len__(self):")
        o(2, self.pick(["return 3", "return 0", "return len(str(%s))" % self.field(c), "return True", "return -1" if self.p(0.3) else "return 2", "return \"x\"" if self.p(0.2) else "return 1"]))

    def m_plain(self, c):
        o = self.out
        f = self.field(c)
        if self.p(0.6):
            o(1, "def get(self):")
            o(2, "return %s" % f)
            c.methods["get"] = ([], c.attrs.get(f[5:], "any"))
        if self.p(0.4):
            o(1, "def put(self, x):")
            if self.p(0.3):
                o(2, "old = %s" % f)
            o(2, "%s = x" % f)
            o(2, "return %s" % self.pick(["self", "x", "(self, x)", "[x]"]))
            c.methods["put"] = ([c.attrs.get(f[5:], "int")], "any")
        if self.p(0.25):
            o(1, "def twice(self, f):")
            o(2, "return f(f(%s))" % f)
        if self.p(0.2) and self.feature["closure"]:
            o(1, "def maker(self):")
            o(2, "def inner(x):")
            o(3, "return (%s, x)" % f)
            o(2, "return inner(1)")
            c.methods["maker"] = ([], "any")

    def m_box(self, c):
        o = self.out
        kind = self.pick(["list", "list", "dict"])
        c.item_kind = "int"
        if kind == "list":
            c.params = [self.pick(["lint", "lint", "lany"])]
            c.attrs["items"] = c.params[0]
            o(1, "def __init__(self, items):")
            o(2, "self.items = %s" % self.pick(["items", "list(items)"]))
        else:
            c.params = []
            c.attrs["items"] = "dict"
            o(1, "def __init__(self):")
            o(2, "self.items = {%s}" % self.pick(["", "1: 2", "\"a\": 1, 0: 5"]))
        for m in ["__getitem__", "__setitem__", "__delitem__", "__len__", "__contains__", "__bool__"]:
            if not self.p(0.65):
                continue
            c.special.add(m)
            if m == "__getitem__":
                o(1, "def __getitem__(self, k):")
                if self.p(0.2):
                    o(2, 'print("get", k)')
                o(2, "return self.items[k]")
            elif m == "__setitem__":
                o(1, "def __setitem__(self, k, v):")
                o(2, "self.items[k] = v")
                if self.p(0.2):
                    o(2, "return 5")
            elif m == "__delitem__":
                o(1, "def __delitem__(self, k):")
                o(2, "del self.items[k]")
            elif m == "__len__":
                o(1, "def __len__(self):")
                o(2, self.pick(["return len(self.items)", "return len(self.items)", "return len(self.items) - 1"]))
            elif m == "__contains__":
                o(1, "def __contains__(self, x):")
                o(2, self.pick(["return x in self.items", "return x in self.items", "return self.items", "return x", "return None"]))
            else:
                o(1, "def __bool__(self):")
                o(2, self.pick(["return len(self.items) > 1", "return bool(self.items)"]))
        if self.p(0.5):
            o(1, "def grow(self, x):")
            if kind == "list":
                o(2, "if len(self.items) < 6:")
                o(3, "self.items.append(x)")
            else:
                o(2, "if len(self.items) < 6:")
                o(3, "self.items[x] = len(self.items)")
            o(2, "return self.items")
            c.methods["grow"] = (["int"], "any")

    def m_iter(self, c):
        o = self.out
        c.special.add("__iter__")
        c.params = ["int"]
        c.attrs["n"] = "int"
        c.attrs["v"] = "int"
        o(1, "def __init__(self, n):")
        o(2, "self.n = n % 4")
        o(2, "self.v = 0")
        o(1, "def __iter__(self):")
        if self.p(0.5):
            o(2, "self.v = 0")
        if self.p(0.1):
            o(2, 'print("iter")')
        o(2, "return self" if self.p(0.92) else self.pick(["return 5", "return None", "return [1]", "raise StopIteration"]))
        o(1, "def __next__(self):")
        o(2, "if self.v >= self.n:")
        o(3, self.pick(["raise StopIteration", "raise StopIteration", "raise StopIteration", 'raise IndexError("end")']))
        o(2, "self.v += 1")
        o(2, "return %s" % self.pick(["self.v", "self.v * 10", "self.n - self.v"]))

    def m_odd(self, c):
        o = self.out
        for m, ps in self.r.sample([("__len__", ""), ("__bool__", ""), ("__getitem__", ", k"), ("__setitem__", ", k, v"), ("__contains__", ", x"), ("__eq__", ", other"), ("__add__", ", other"), ("__neg__", ""), ("__lt__", ", other"), ("__iter__", "")], 4):
            o(1, "def %s(self%s):" % (m, ps))
            c.special.add(m)
            if m == "__eq__":
                c.eq = True
            if m == "__lt__":
                c.lt = True
            if m == "__add__":
                c.add = set(c.add or ()) | {"+"}
            if m == "__neg__":
                c.add = set(c.add or ()) | {"neg", "+"}
            o(2, self.pick(["return self.v", "return None", "return NotImplemented" if m in ("__eq__", "__add__", "__lt__") else "return 1", "return \"t\"", "return []", "return self",
                            'raise TypeError("odd")', "return True", "return (self, self.v)", "return lambda q: q"]))
        if c.add == {"neg"}:
            c.add = {"neg", "+"}
        if "__iter__" in c.special:
            c.special.discard("__iter__")

    # ---- the script
    def function(self, i):
        name = "f%d" % i
        n = self.r.randrange(0, 3)
        ks = [self.pick(["int", "int", "text", "lint", "any", "rtup"]) for _ in range(n)]
        ps = ["p%d_%d" % (i, j) for j in range(n)]
        ret = self.pick(["int", "int", "text", "lint", "bool", "any"])
        self.out(0, "def %s(%s):" % (name, ", ".join(ps)))
        inner = Scope(name, outer=self.g, function=True)
        self.in_function(inner, ps, ks, 1, self.g, self.r.randrange(1, 4), 2, ret)
        self.funcs.append(Fn(name, ks, ret))

    def recursive(self):
        self.out(0, "def rec(n):")
        self.out(1, "if n <= 0:")
        self.out(2, "return %s" % self.of("int", self.g, 1))
        self.out(1, self.pick(["return n + rec(n - 1)", "return rec(n - 1) + rec(n - 2)", "return rec(n - 1) % 5 * 3"]))

    def script(self):
        r = self.r
        self.pending = []
        g = self.g
        self.lines += ["def say(x):", '    print("say", x)', "    return x"]
        for n, k in [("i0", "int"), ("i1", "int"), ("i2", "int"), ("s0", "text"), ("s1", "text"), ("b0", "bool"), ("n0", "none"),
                     ("t0", "tup"), ("l0", "lint"), ("l1", "lint"), ("k0", "ltext"), ("m0", "lany")]:
            if k == "tup" and not self.feature["tuple"]:
                continue
            self.out(0, "%s = %s" % (n, self.constant(k)))
            g.vars[n] = k
        if self.feature["dict"]:
            for n in ["d0", "d1"]:
                self.out(0, "%s = %s" % (n, self.constant("dict")))
                g.vars[n] = "dict"
        if self.feature["range"]:
            self.out(0, "r0 = range(%d, %d)" % (r.randrange(0, 3), r.randrange(2, 6)))
            g.vars["r0"] = "range"
        if self.feature["class"]:
            for i in range(r.randrange(1, 5)):
                self.make_class(i)
        for n, c in self.pending:
            self.out(0, "%s = %s" % (n, self.start(c, g)))
            g.vars[n] = ("inst", c)
        if self.feature["ref_tuple"]:
            self.out(0, "u0 = %s" % self.constant("pair"))
            g.vars["u0"] = "rtup"
        for i in range(r.randrange(0, 4)):
            self.function(i)
        if self.p(0.15):
            self.recursive()
            self.wrapped(g, 0, lambda i: self.out(i, "print(rec(%d))" % r.randrange(1, 8)))
        self.block(g, 0, self.size, 3)
        for n in list(g.vars):
            if self.p(0.5):
                self.wrapped(g, 0, lambda i: self.out(i, "print(%s)" % n))
        return self.formed()

    def formed(self):
        """The text with another width of indentation, comments, blank lines, or CRLF."""
        r = random.Random(self.seed + 1)
        width = r.choice([4, 4, 1, 2, 3, 8])
        noise = r.choice([0, 0, 0, 0.1])
        out = []
        lines = []
        compound = ("if ", "elif ", "else", "for ", "while ", "def ", "class ", "try", "except", "finally")
        depth_of = lambda l: len(l) - len(l.lstrip(" "))
        joins = r.choice([0, 0, 0.1, 0.4])
        src, i = self.lines, 0
        while i < len(src):
            line = src[i]
            if (joins and r.random() < joins and line.endswith(":") and not line.lstrip().startswith("class ") and i + 1 < len(src)
                    and not src[i + 1].lstrip().startswith(compound) and depth_of(src[i + 1]) > depth_of(line) and (i + 2 >= len(src) or depth_of(src[i + 2]) <= depth_of(line))):
                lines.append(line + r.choice([" ", "", "\t"]) + src[i + 1].lstrip())
                i += 2
                continue
            lines.append(line)
            i += 1
        for line in lines:
            inner = line.lstrip(" ")
            out.append(" " * ((len(line) - len(inner)) // 4 * width) + inner)
            if noise and r.random() < noise:
                k = r.randrange(4)
                if k == 0:
                    out[-1] += r.choice(["  # note", "#'", "   ", "\t# \u00e9"])
                elif k == 1:
                    out.append(r.choice(["", "      ", "   # x", "\t"]))
        end = "\r\n" if r.random() < 0.03 else "\n"
        return end.join(out) + (end if r.random() < 0.9 else "")

    def start(self, c, g):
        args = []
        for k in c.params:
            args.append({"int": str(self.r.randrange(0, 6)), "text": self.pick(TEXTS)}.get(k) or self.constant(k))
        return "%s(%s)" % (c.name, ", ".join(args))


if __name__ == "__main__":
    sys.stdout.buffer.write(Gen(int(sys.argv[1])).script().encode())
