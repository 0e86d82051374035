"""Which names a Python text uses that nothing defines, by the standard library alone.

A name is defined by the text, by Python, or by the module of this repository that it is taken from. Of such a module also the
attributes are looked at: `pcep.report` has to be a name of pcep. A name that only some path of a program defines counts as defined.
"""
import ast
import builtins
import functools
import os
import symtable

from harness.cases import ROOT

KNOWN = set(dir(builtins)) | {"__file__", "__name__", "__doc__", "__package__", "__spec__"}


def bound_at_top(tree):
    """The names that a module has once it is imported."""
    bound = set()
    for node in ast.walk(tree):
        if isinstance(node, ast.Global):
            bound.update(node.names)
    waiting = list(tree.body)
    while waiting:
        node = waiting.pop()
        if isinstance(node, (ast.FunctionDef, ast.AsyncFunctionDef, ast.ClassDef)):
            bound.add(node.name)
            continue
        if isinstance(node, (ast.Import, ast.ImportFrom)):
            bound.update((alias.asname or alias.name).split(".")[0] for alias in node.names)
        if isinstance(node, ast.Name) and isinstance(node.ctx, ast.Store):
            bound.add(node.id)
        if isinstance(node, ast.ExceptHandler) and node.name:
            bound.add(node.name)
        if not isinstance(node, (ast.Lambda, ast.ListComp, ast.SetComp, ast.DictComp, ast.GeneratorExp)):
            waiting += ast.iter_child_nodes(node)
    return bound


@functools.cache
def parsed(path):
    with open(path, encoding="utf-8") as file:
        return ast.parse(file.read(), path)


def module_at(folder, name):
    """The file or the folder of a module that stands in a folder of this repository; None if there is none."""
    path = os.path.join(folder, *name.split("."))
    return next((found for found in (f"{path}.py", path) if os.path.isfile(found) or os.path.isdir(found) and found == path), None)


@functools.cache
def names_of_module(path):
    """The names of a module, with the modules below a package."""
    if not os.path.isdir(path):
        return bound_at_top(parsed(path))
    below = {name.removesuffix(".py") for name in os.listdir(path) if name.endswith(".py") or os.path.isdir(f"{path}/{name}")}
    init = f"{path}/__init__.py"
    return below | (bound_at_top(parsed(init)) if os.path.exists(init) else set())


class Imports:
    """The modules of this repository that a text imports, by the names that it gives them, and what is wrong with the imports."""

    def __init__(self, tree, folder):
        self.places, self.modules, self.wrong = [folder, f"{ROOT}/tests"], {}, []
        for node in ast.walk(tree):
            if isinstance(node, ast.Import):
                for alias in node.names:
                    self.take_module(alias, self.found(alias.name))
            elif isinstance(node, ast.ImportFrom):
                self.take_names(node, folder)

    def found(self, name):
        return next((path for path in (module_at(place, name) for place in self.places) if path), None)

    def take_module(self, alias, path):
        if path and "." not in alias.name:
            self.modules[alias.asname or alias.name] = path

    def take_names(self, node, folder):
        for alias in node.names:
            if alias.name == "*":
                self.wrong.append((node.lineno, f"* from {node.module}, of which nobody can say what it brings"))
        above = os.path.normpath(os.path.join(folder, *[".."] * (node.level - 1))) if node.level else None
        if node.level:
            path = module_at(above, node.module) if node.module else above
        else:
            path = self.found(node.module)
        if path is None:
            return
        for alias in node.names:
            if alias.name not in names_of_module(path):
                self.wrong.append((node.lineno, f"{alias.name}, which {os.path.relpath(path, ROOT)} doesn't have"))
            elif os.path.isdir(path) and module_at(path, alias.name):
                self.modules[alias.asname or alias.name] = module_at(path, alias.name)


def undefined_in(table, bound):
    """The names in a scope, and in those within it, that are global and that nothing binds."""
    for symbol in table.get_symbols():
        is_global = symbol.is_global() or table.get_type() == "module"
        if is_global and symbol.is_referenced() and symbol.get_name() not in bound and symbol.get_name() not in KNOWN:
            yield symbol.get_name()
    for child in table.get_children():
        yield from undefined_in(child, bound)


def wrong_attributes(tree, modules):
    """The attributes of modules of this repository that these don't have."""
    local = {node.arg for node in ast.walk(tree) if isinstance(node, ast.arg)}
    local |= {node.id for node in ast.walk(tree) if isinstance(node, ast.Name) and isinstance(node.ctx, ast.Store)}
    for node in ast.walk(tree):
        if isinstance(node, ast.Attribute) and isinstance(node.value, ast.Name) and node.value.id in modules and node.value.id not in local:
            path = modules[node.value.id]
            if node.attr not in names_of_module(path) and not node.attr.startswith("__"):
                yield node.lineno, f"{node.value.id}.{node.attr}, which {os.path.relpath(path, ROOT)} doesn't have"


def undefined_names(text, folder):
    """The number of a line and what stands there that nothing defines."""
    tree = ast.parse(text)
    names = set(undefined_in(symtable.symtable(text, "text", "exec"), bound_at_top(tree)))
    found = [(node.lineno, node.id) for node in ast.walk(tree) if isinstance(node, ast.Name) and node.id in names and not isinstance(node.ctx, ast.Store)]
    imports = Imports(tree, folder)
    return sorted({*found, *imports.wrong, *wrong_attributes(tree, imports.modules)})
