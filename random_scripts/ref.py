"""Runs a script in CPython in a child process, with the documented differences taken out:
a search (`in` of a list, tuple or dict's values, `index`, `remove`) asks `x == item`, where CPython asks `item == x`.
Answers (end, output): end is ('done',), ('raised', class, repr), ('skip', why)."""
import ast
import io
import os
import pickle
import resource
import select
import signal
import sys
import time
import warnings

PRELUDE_NAMES = ("_r_in", "_r_attr", "_r_chk")


class Shift(ast.NodeTransformer):
    def visit_Compare(self, n):
        self.generic_visit(n)
        if len(n.ops) == 1 and isinstance(n.ops[0], (ast.In, ast.NotIn)):
            call = ast.Call(ast.Name("_r_in", ast.Load()), [n.left, n.comparators[0]], [])
            new = call if isinstance(n.ops[0], ast.In) else ast.UnaryOp(ast.Not(), call)
            return ast.copy_location(new, n)
        return n

    def visit_Attribute(self, n):
        self.generic_visit(n)
        if isinstance(n.ctx, ast.Load) and n.attr in ("index", "remove"):
            return ast.copy_location(ast.Call(ast.Name("_r_attr", ast.Load()), [n.value, ast.Constant(n.attr)], []), n)
        return n

    def visit_ExceptHandler(self, n):
        self.generic_visit(n)
        n.body.insert(0, ast.copy_location(ast.Expr(ast.Call(ast.Name("_r_chk", ast.Load()), [], [])), n.body[0]))
        return n

    def visit_Try(self, n):
        self.generic_visit(n)
        if n.finalbody:
            n.finalbody.insert(0, ast.copy_location(ast.Expr(ast.Call(ast.Name("_r_chk", ast.Load()), [], [])), n.finalbody[0]))
        return n


VALUES = type({}.values())


class Skip(BaseException):
    pass


def found_at(xs, x):
    i = 0
    while i < len(xs):
        e = xs[i]
        if x is e or x == e:
            return i
        i += 1
    return -1


def r_in(x, c):
    t = type(c)
    if t is list or t is tuple:
        return found_at(c, x) >= 0
    if t is VALUES:
        for e in c:
            if x is e or x == e:
                return True
        return False
    return x in c


def r_attr(o, name):
    if type(o) is list:
        def index(x):
            i = found_at(o, x)
            if i < 0:
                raise ValueError("not in list")
            return i

        def remove(x):
            i = found_at(o, x)
            if i < 0:
                raise ValueError("not in list")
            if i < len(o):
                del o[i]
        return index if name == "index" else remove
    return getattr(o, name)


def r_chk():
    e = sys.exc_info()[1]
    if isinstance(e, (RecursionError, MemoryError)):
        raise Skip(type(e).__name__)


def child(src, w):
    resource.setrlimit(resource.RLIMIT_AS, (1 << 30, 1 << 30))
    resource.setrlimit(resource.RLIMIT_CPU, (6, 6))
    # deep texts are read with room; the script then runs with CPython's usual depth
    sys.setrecursionlimit(20000)
    out = io.StringIO()
    warnings.simplefilter("ignore")
    devnull = os.open(os.devnull, os.O_WRONLY)
    os.dup2(devnull, 2)
    try:
        tree = ast.parse(src, "s.py")
        tree = ast.fix_missing_locations(Shift().visit(tree))
        code = compile(tree, "s.py", "exec")
    except SyntaxError as e:
        end = ("syntax", str(e), e.lineno)
    else:
        g = {"__name__": "__main__", "_r_in": r_in, "_r_attr": r_attr, "_r_chk": r_chk}
        sys.setrecursionlimit(900)
        sys.stdout = out
        try:
            exec(code, g)
            end = ("done",)
        except Skip as e:
            end = ("skip", str(e))
        except RecursionError:
            end = ("skip", "RecursionError")
        except MemoryError:
            end = ("skip", "MemoryError")
        except Exception as e:
            try:
                t = repr(e)
            except Exception:
                t = "?"
            end = ("raised", type(e).__name__, t)
    sys.stdout = sys.__stdout__
    data = pickle.dumps((end, out.getvalue().encode("utf-8", "surrogatepass")))
    with os.fdopen(w, "wb") as f:
        f.write(data)
    os._exit(0)


def reference(src, limit=8):
    r, w = os.pipe()
    pid = os.fork()
    if pid == 0:
        try:
            os.close(r)
            child(src, w)
        finally:
            os._exit(3)
    os.close(w)
    parts = []
    stop = time.time() + limit
    while True:
        left = stop - time.time()
        ready = select.select([r], [], [], max(left, 0))[0]
        if not ready:
            os.kill(pid, signal.SIGKILL)
            break
        b = os.read(r, 1 << 16)
        if not b:
            break
        parts.append(b)
    os.close(r)
    os.waitpid(pid, 0)
    try:
        return pickle.loads(b"".join(parts))
    except Exception:
        return ("skip", "no answer from CPython"), b""


if __name__ == "__main__":
    end, out = reference(open(sys.argv[1]).read())
    sys.stdout.write(out.decode("utf-8", "replace"))
    print(end)
