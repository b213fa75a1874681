"""Prints what isn't typed in the installed package, one line each: methods and functions without a type or with a type that says
nothing, a missing py.typed, a wrong version."""

import importlib.metadata
import inspect
import os
import typing

import serf_agent


def callables():
    """What users may call, by its name: functions, and the methods of classes."""
    for name in serf_agent.__all__:
        found = getattr(serf_agent, name)
        if inspect.isfunction(found):
            yield name, found
        elif inspect.isclass(found) and found.__module__.startswith("serf_agent"):
            own = {
                key: value for key, value in vars(found).items() if inspect.isfunction(value) and value.__module__.startswith("serf_agent")
            }
            # (a dataclass's own methods have their types from the fields)
            yield from (
                (f"{name}.{key}", value)
                for key, value in own.items()
                if not hasattr(found, "__dataclass_fields__") or not key.startswith("__")
            )


for name, found in callables():
    typing.get_type_hints(found)
    signature = inspect.signature(found)
    missing = [one for one, about in signature.parameters.items() if about.annotation is about.empty and one != "self"]
    if signature.return_annotation is signature.empty:
        missing.append("the result")
    if missing:
        print(f"{name}: {', '.join(missing)} without a type")
    if not name.rpartition(".")[2].startswith("_") and not inspect.getdoc(found):
        print(f"{name}: no docstring")
if not os.path.isfile(os.path.join(os.path.dirname(serf_agent.__file__), "py.typed")):
    print("there is no py.typed")
if serf_agent.__version__ != importlib.metadata.version("serf_agent"):
    print(f"the version is {serf_agent.__version__}")
