"""Adding a new tree to an old one."""

import unittest

from importer.merge import merged

V = {"id": "v", "short": "v"}
# An option with a value, and what may be said of its values.
O = {"id": "o", "long": "out"}
AB, URL = {"possible_values": [{"name": "a"}, {"name": "b"}]}, {"value_hint": "Url"}
# What the old command says, what the new one says, and both together.
ROWS = (
    ({"name": "a"}, {"name": "b"}, {"name": "a"}),
    ({"name": "a"}, {"name": "b", "about": "B"}, {"name": "a", "about": "B"}),
    ({"about": "A", "name": "a"}, {"name": "b", "about": "B"}, {"about": "A", "name": "a"}),
    ({"args": []}, {"args": [V]}, {"args": [V]}),
    ({}, {"args": [V]}, {"args": [V]}),
    # The same id, long, short, or alias.
    ({"args": [{"id": "v", "help": "H"}]}, {"args": [V]}, {"args": [{"id": "v", "help": "H"}]}),
    ({"args": [{"id": "x", "short": "v"}]}, {"args": [V]}, {"args": [{"id": "x", "short": "v"}]}),
    ({"args": [{"id": "x", "visible_short_aliases": ["v"]}]}, {"args": [V]},
     {"args": [{"id": "x", "visible_short_aliases": ["v"]}]}),
    ({"args": [{"id": "x", "long": "out"}]}, {"args": [{"id": "y", "long": "to", "aliases": ["out"]}]},
     {"args": [{"id": "x", "long": "out"}]}),
    # A long is no short, and no id.
    ({"args": [{"id": "x", "long": "v"}]}, {"args": [V]}, {"args": [{"id": "x", "long": "v"}, V]}),
    ({"args": [{"id": "x", "long": "y"}]}, {"args": [{"id": "y"}]}, {"args": [{"id": "x", "long": "y"}, {"id": "y"}]}),
    # Global, unless the old one says whether it is.
    ({"args": [V]}, {"args": [{**V, "global": True}]}, {"args": [{**V, "global": True}]}),
    ({"args": [{**V, "global": False}]}, {"args": [{**V, "global": True}]}, {"args": [{**V, "global": False}]}),
    ({"args": [V]}, {"args": [{**V, "global": "yes"}]}, {"args": [V]}),
    # Values and hints, for an old argument that has none and takes some.
    ({"args": [O]}, {"args": [{**O, **AB}]}, {"args": [{**O, **AB}]}),
    ({"args": [O]}, {"args": [{**O, **URL}]}, {"args": [{**O, **URL}]}),
    ({"args": [{**O, "value_hint": "Other"}]}, {"args": [{**O, **AB}]}, {"args": [{**O, "value_hint": "Other", **AB}]}),
    ({"args": [{**O, **URL}]}, {"args": [{**O, **AB}]}, {"args": [{**O, **URL}]}),
    ({"args": [{**O, "value_hint": "Other"}]}, {"args": [{**O, **URL}]}, {"args": [{**O, "value_hint": "Other"}]}),
    ({"args": [{**O, "values_from": ["x"]}]}, {"args": [{**O, **AB}]}, {"args": [{**O, "values_from": ["x"]}]}),
    ({"args": [{**O, "values_file": "x"}]}, {"args": [{**O, **URL}]}, {"args": [{**O, "values_file": "x"}]}),
    ({"args": [{**O, "possible_values": []}]}, {"args": [{**O, **AB}]}, {"args": [{**O, "possible_values": []}]}),
    ({"args": [{**O, "action": "SetTrue"}]}, {"args": [{**O, **AB}]}, {"args": [{**O, "action": "SetTrue"}]}),
    # Positionals by their id, or else by their place.
    ({"args": [{"id": "p"}]}, {"args": [{"id": "FILE", **URL}]}, {"args": [{"id": "p", **URL}]}),
    ({"args": [O, {"id": "p"}, {"id": "q"}]}, {"args": [{"id": "P", **AB}, O, {"id": "Q", **URL}]},
     {"args": [O, {"id": "p", **AB}, {"id": "q", **URL}]}),
    ({"args": [{"id": "p"}, {"id": "q"}]}, {"args": [{"id": "q", **URL}]}, {"args": [{"id": "p"}, {"id": "q", **URL}]}),
    ({"args": [{"id": "p"}]}, {"args": [{"id": "P"}, {"id": "Q"}]}, {"args": [{"id": "p"}, {"id": "Q"}]}),
    ({"args": [{"id": "p", "num_args": [0, None]}]}, {"args": [{"id": "P"}, {"id": "Q"}]},
     {"args": [{"id": "p", "num_args": [0, None]}]}),
    ({"args": [{"id": "o"}, O]}, {"args": [O, {"id": "P", **URL}]}, {"args": [{"id": "o", **URL}, O]}),
    # Options that are global in one of the trees, and are in each command of the other.
    ({"args": [O], "subcommands": [{"name": "s", "args": [O]}]},
     {"args": [{**O, **AB, "global": True}], "subcommands": [{"name": "s"}]},
     {"args": [{**O, **AB}], "subcommands": [{"name": "s", "args": [{**O, **AB}]}]}),
    ({"subcommands": [{"name": "s", "args": [O]}]}, {"args": [{**O, **AB, "global": True}], "subcommands": [{"name": "s"}]},
     {"subcommands": [{"name": "s", "args": [{**O, **AB}]}], "args": [{**O, **AB}]}),
    ({"args": [{**O, "global": True}], "subcommands": [{"name": "s"}]},
     {"args": [O], "subcommands": [{"name": "s", "args": [O, V]}, {"name": "t", "args": [O, V]}]},
     {"args": [{**O, "global": True}], "subcommands": [{"name": "s", "args": [V]}, {"name": "t", "args": [V]}]}),
    # Subcommands by name or alias, at any depth.
    ({"subcommands": [{"name": "x"}]}, {"subcommands": [{"name": "y"}]}, {"subcommands": [{"name": "x"}, {"name": "y"}]}),
    ({"subcommands": [{"name": "x", "aliases": ["y"]}]}, {"subcommands": [{"name": "y", "args": [V]}]},
     {"subcommands": [{"name": "x", "aliases": ["y"], "args": [V]}]}),
    ({"subcommands": [{"name": "x", "subcommands": [{"name": "z"}]}]},
     {"subcommands": [{"name": "x", "subcommands": [{"name": "z", "args": [V]}]}]},
     {"subcommands": [{"name": "x", "subcommands": [{"name": "z", "args": [V]}]}]}),
    ({"subcommands": [{"name": "x", "aliases": ["y"]}]}, {"subcommands": [{"name": "y", "about": "Y"}, {"name": "x", "about": "X"}]},
     {"subcommands": [{"name": "x", "aliases": ["y"], "about": "Y"}]}),
    # Old values of another kind stay as they are.
    ({"args": 3, "subcommands": {"name": "x"}}, {"args": [V], "subcommands": [V]}, {"args": 3, "subcommands": {"name": "x"}}),
    ({"args": [3, None, ["v"], {"id": 4}]}, {"args": [V]}, {"args": [3, None, ["v"], {"id": 4}, V]}),
    ({"args": [{"id": "x", "aliases": 5, "short": ["v"]}]}, {"args": [V]}, {"args": [{"id": "x", "aliases": 5, "short": ["v"]}]}),
    ([1], {"name": "b"}, [1]),
    ("a", {"name": "b"}, "a"),
)


class Merge(unittest.TestCase):
    def test_rows(self):
        for old, new, both in ROWS:
            with self.subTest(old=old, new=new):
                self.assertEqual(both, merged(old, new))
                self.assertEqual(both, merged(both, new))
                if isinstance(old, dict):
                    self.assertEqual(list(old), list(merged(old, new))[:len(old)])


if __name__ == "__main__":
    unittest.main()
