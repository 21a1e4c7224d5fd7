"""Each function of the views says what it takes and gives, and what it is for."""

import ast
import glob
import os
import unittest

from common import VIEWS, Case

FUNCTIONS = (ast.FunctionDef, ast.AsyncFunctionDef)


def functions(tree):
    """The functions of a module, each with whether it is a method, which has its own object before its arguments."""
    found = []
    for node in ast.walk(tree):
        for child in ast.iter_child_nodes(node):
            if isinstance(child, FUNCTIONS):
                is_static = any(getattr(it, "id", "") == "staticmethod" for it in child.decorator_list)
                found.append((child, isinstance(node, ast.ClassDef) and not is_static))
    return found


def untyped(function, is_method):
    """The arguments without a type, and `return` if the result has none."""
    of = function.args
    arguments = [*of.posonlyargs, *of.args][is_method:] + [*of.kwonlyargs, *filter(None, (of.vararg, of.kwarg))]
    return [it.arg for it in arguments if it.annotation is None] + ["return"] * (function.returns is None)


def is_vague(annotation):
    """Whether a type says nothing of what is in it: a bare container or function, or `Any`."""
    names = {node.id for node in ast.walk(annotation) if isinstance(node, ast.Name)}
    within = {id(node.value) for node in ast.walk(annotation) if isinstance(node, ast.Subscript)}
    bare = [node.id for node in ast.walk(annotation) if isinstance(node, ast.Name) and id(node) not in within]
    return "Any" in names or any(it in ("list", "dict", "tuple", "set", "Callable", "Sequence", "Iterator", "Iterable") for it in bare)


def annotations(tree):
    """All types that are said in a module: those of arguments, results, fields and variables."""
    for node in ast.walk(tree):
        if isinstance(node, (ast.arg, ast.AnnAssign)) and node.annotation is not None:
            yield node.annotation
        elif isinstance(node, FUNCTIONS) and node.returns is not None:
            yield node.returns


def faults(text):
    """What a module lacks, each with its line."""
    tree, found = ast.parse(text), []
    for function, is_method in functions(tree):
        found += [(function.lineno, f"{function.name}: {it} has no type") for it in untyped(function, is_method)]
        if not ast.get_docstring(function):
            found.append((function.lineno, f"{function.name} doesn't say what it is for"))
    found += [(it.lineno, "the type says nothing of what is in it") for it in annotations(tree) if is_vague(it)]
    return found


BAD = '''
def one(a, *, b: int, **c: int) -> None:
    """Has an argument without a type."""


class Two:
    """Has methods."""

    def three(self, d):
        """Has neither type."""

    @staticmethod
    def four(e) -> list:
        pass


def five(f: "dict[str, int]") -> Any:
    """Has a vague result."""
    g: dict = {}
'''


class Types(Case):
    def test_each_function_has_its_types_and_says_what_it_is_for(self):
        modules = glob.glob(os.path.join(VIEWS, "*.py"))
        self.assertGreater(len(modules), 50)
        for path in modules:
            with open(path, encoding="utf-8") as file:
                self.assertEqual(faults(file.read()), [], path)

    def test_what_is_lacking_is_found(self):
        wanted = ["one: a has no type", "three: d has no type", "three: return has no type", "four: e has no type", "four doesn't say what it is for"]
        vague = "the type says nothing of what is in it"
        self.assertEqual([it for _, it in faults(BAD)], [*wanted, vague, vague, vague])

    def test_no_fault_of_a_type_is_passed_over(self):
        for path in glob.glob(os.path.join(VIEWS, "*.py")):
            with open(path, encoding="utf-8") as file:
                self.assertNotIn("type" + ": ignore", file.read(), path)


if __name__ == "__main__":
    unittest.main()
