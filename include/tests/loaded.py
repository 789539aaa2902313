"""What a program by ctypes alone needs to call the shared library: the structs and the numbers, made from the JSON of the header,
as a language makes them that finds functions at run time."""
import ctypes
import json
import pathlib

INTS = {1: ctypes.c_uint8, 2: ctypes.c_uint16, 4: ctypes.c_uint32, 8: ctypes.c_uint64}
STRUCTS = ("yarrowdoor_address", "yarrowdoor_settings", "yarrowdoor_request", "yarrowdoor_answer", "yarrowdoor_message",
           "yarrowdoor_load")


class Numbers(dict):
    """The numbers by their names without YARROWDOOR_."""

    def __init__(self, said):
        numbers = [it for enum in said["enums"].values() for it in enum.items()]
        super().__init__({name.removeprefix("YARROWDOOR_"): value for name, value in numbers})

    __getattr__ = dict.__getitem__


def struct(said, name, made):
    """A struct of C: its fields are numbers, bytes, numbers side by side, or addresses, by what their names and sizes say."""
    fields = []
    for field, at in said["structs"][name]["fields"].items():
        if at["size"] == 28:
            kind = made["yarrowdoor_address"]
        elif field == "reserved_places":
            kind = ctypes.c_uint64 * 2
        else:
            kind = INTS.get(at["size"]) if field not in ("ip", "id") or at["size"] == 4 else ctypes.c_uint8 * at["size"]
            kind = kind if (field, at["size"]) != ("reserved", 8) else ctypes.c_uint8 * 8
        fields.append((field, kind))
    made[name] = type(name, (ctypes.Structure,), {"_fields_": fields})
    assert ctypes.sizeof(made[name]) == said["structs"][name]["size"], name
    for field, at in said["structs"][name]["fields"].items():
        assert getattr(made[name], field).offset == at["offset"], (name, field)


def load(library, layout):
    """The library, what the JSON says, its numbers, and its structs by their names."""
    said = json.loads(pathlib.Path(layout).read_text(encoding="utf-8"))
    loaded, made = ctypes.CDLL(library), {}
    for each in STRUCTS:
        struct(said, each, made)
    loaded.yarrowdoor_settings_of.restype = made["yarrowdoor_settings"]
    loaded.yarrowdoor_ipv4.restype = made["yarrowdoor_address"]
    loaded.yarrowdoor_kept_grants.restype = loaded.yarrowdoor_longest_cadence.restype = ctypes.c_uint64
    loaded.yarrowdoor_kind_name.restype = loaded.yarrowdoor_error_name.restype = ctypes.c_char_p
    return loaded, said, Numbers(said), made
