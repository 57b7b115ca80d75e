#!/usr/bin/env python3
"""Tests that each name which a script here takes from another one is there. It takes a second, and so comes before the gate: a script that
runs an hour later would tell of it too.

By hand: python3 tests/names.py."""
from __future__ import annotations

import ast
import sys
from collections.abc import Iterator
from pathlib import Path

FOLDER = Path(__file__).resolve().parent
# The library redis-py, in whose place redis.py would be taken.
LIBRARIES = {("redis_client", "redis")}
TREES = {path.stem: ast.parse(path.read_text(), str(path)) for path in sorted(FOLDER.glob("*.py"))}


def bound(statement: ast.stmt) -> Iterator[str]:
    """The names that a statement gives a meaning to."""
    if isinstance(statement, (ast.FunctionDef, ast.ClassDef)):
        yield statement.name
    elif isinstance(statement, (ast.Import, ast.ImportFrom)):
        yield from ((name.asname or name.name).split(".")[0] for name in statement.names)
    else:
        yield from (node.id for node in ast.walk(statement) if isinstance(node, ast.Name) and isinstance(node.ctx, ast.Store))


def taken(tree: ast.Module) -> Iterator[tuple[int, str, str]]:
    """The names that a script takes from others: the line, the other script and the name."""
    modules: dict[str, str] = {}
    for node in ast.walk(tree):
        if isinstance(node, ast.Import):
            modules |= {name.asname or name.name: name.name for name in node.names if name.name in TREES}
        elif isinstance(node, ast.ImportFrom) and node.module in TREES:
            yield from ((node.lineno, node.module, name.name) for name in node.names)
    for node in ast.walk(tree):
        if isinstance(node, ast.Attribute) and isinstance(node.value, ast.Name) and node.value.id in modules:
            yield node.lineno, modules[node.value.id], node.attr


def main() -> None:
    """Tells of each name that is not there."""
    there = {module: {name for statement in tree.body for name in bound(statement)} for module, tree in TREES.items()}
    wrong = [f"tests/{script}.py:{line}: {module}.py has no {name}"
             for script, tree in TREES.items() for line, module, name in taken(tree)
             if name not in there[module] and (script, module) not in LIBRARIES]
    print("\n".join(wrong) if wrong else f"names: {len(TREES)} scripts take no name that is not there")
    sys.exit(bool(wrong))


if __name__ == "__main__":
    main()
