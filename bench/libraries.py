"""The libraries packaging and resolvelib, as python3 has them; where it lacks one, the copy within pip. The variable
BENCH_LIBRARIES of the environment asks for one of the two alone: `own` or `pip`."""
import importlib
import os

WANTED = os.environ.get("BENCH_LIBRARIES")


def library(name):
    if WANTED != "pip":
        try:
            return importlib.import_module(name)
        except ModuleNotFoundError:
            if WANTED == "own":
                raise
    return importlib.import_module(f"pip._vendor.{name}")


def module(name):
    return importlib.import_module(f"{packaging.__name__}.{name}")


packaging, resolvelib = library("packaging"), library("resolvelib")
Requirement = module("requirements").Requirement
SpecifierSet = module("specifiers").SpecifierSet
Version = module("version").Version
canonicalize_name = module("utils").canonicalize_name

__all__ = ["Requirement", "SpecifierSet", "Version", "canonicalize_name", "packaging", "resolvelib"]
