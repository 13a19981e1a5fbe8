"""What the judges of the examples with layers share: plans, request lines, and expected lines.

An expected line is a reply's end and its packets, as reply lines spell them."""

import pathlib
import tomllib


def layers_of(folder):
    """The layers of the folder's plan by name, and the layer of each function."""
    plan = tomllib.loads((folder / "plan.toml").read_text())
    layers = {layer["name"]: layer for layer in plan["layer"]}
    return layers, {function["name"]: function["layer"] for function in plan["function"]}


def packets_of(layers, name):
    """The packets of a layer and of all below it, the lowest first."""
    layer = layers[name]
    below = packets_of(layers, layer["below"]) if "below" in layer else []
    return below + [bytes.fromhex(packet) for packet in layer.get("packets", [])]


def judge(file, function_of):
    """Prints the expected line of each request line beside the file of the judge. `function_of` makes
    of a layer's packets what answers packets, one after another."""
    folder = pathlib.Path(file).resolve().parent
    layers, functions = layers_of(folder)
    answer = {name: function_of(packets_of(layers, layer)) for name, layer in functions.items()}
    for line in (folder / "requests.txt").read_text().splitlines():
        name, digits = line.split(" ")
        reply = answer[name](bytes.fromhex(digits) if digits != "-" else b"")
        print("ok", reply.hex() or "-")
