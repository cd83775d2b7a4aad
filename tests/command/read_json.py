"""Parses what the command prints with --json, and holds it to what it prints without.

Arguments: the command, the sample sheet, and the sample sheet rewritten.
"""
import json
import struct
import subprocess
import sys

command, sample, rewritten = sys.argv[1:]
NO = 3


def lines(*words, status=0, given=b""):
    done = subprocess.run([command, *words], input=given, capture_output=True, check=False)
    assert done.returncode == status, (words, done)
    return done.stdout.decode().splitlines()


def parsed(*words, status=0):
    (line,) = lines(*words, "--json", status=status)
    return json.loads(line)


first, *rest = lines("rows", sample)
rows = parsed("rows", sample)
assert f"nodes {rows['nodes']}" == first
assert [" ".join(map(str, row.values())) for row in rows["rows"]] == rest

nodes = parsed("tree", sample)["nodes"]
assert [node["row"] for node in nodes] == rows["rows"]
assert [node["node"] for node in nodes] == list(range(rows["nodes"]))
for node, line in zip(nodes, lines("tree", sample)[1:]):
    assert bytes.fromhex(node["name_hex"]).decode() == node["name"]
    shown = [node[key] for key in ("name", "type", "annotation", "repetition")] + [node["role"] if node["node"] else None]
    assert all(word in line for word in shown if word), (shown, line)

assert parsed("compare", sample, sample) == {"count": 0, "differences": []}
compared = parsed("compare", sample, rewritten, status=NO)
*told, last = lines("compare", sample, rewritten, status=NO)
assert compared["count"] == len(compared["differences"]) == len(told)
assert last == f"{compared['count']} differences"
for difference, line in zip(compared["differences"], told):
    assert line.startswith(f"{difference['path']}: {difference['field']} "), (difference, line)
    assert difference["path"].split(".")[-1] == nodes[difference["node"]]["name"]
assert [list(difference.values()) for difference in compared["differences"]] == [
    [1, "parts", 3, "logical", 0, 3], [3, "parts.list.element", 3, "logical", 0, 1]]
refusal = parsed("compare", sample, "/dev/null", status=1)
assert (refusal["refused"], refusal["at"], refusal["sheet"], refusal["file"]) == (1, 0, "B", "/dev/null")
assert "sheet" not in parsed("compare", sample, sample, "--edition", "4", status=1)

for hexadecimal, value in (("0000c03f", 1.5), ("000080ff", None), ("00000080", -0.0)):
    words = ("value", "4", "0", "0", "0", "0", "--hex", hexadecimal)
    assert parsed(*words)["value"] == value
    assert bytes.fromhex(parsed(*words)["bits"])[::-1].hex() == hexadecimal
assert parsed("value", "0", "0", "0", "0", "0", "--hex", "01") == {"case": "truth", "value": True}
assert parsed("value", "2", "0", "10", "64", "0", "--hex", "ff" * 8) == {"case": "unsigned", "value": 2**64 - 1}
assert parsed("value", "6", "0", "0", "0", "0", sample) == {"case": "bytes", "start": 0, "length": 512}

decoded = parsed("timestamp", "decode", "nanos", str(-(2**63)))
assert decoded == parsed("timestamp", "encode", "nanos", "1677-09-21", "00:12:43.145224192")
assert (decoded["year"], decoded["fraction"], decoded["count"]) == (1677, 145224192, -(2**63))

noon = struct.pack("<QI", 43200 * 10**9, 2451545)
time = parsed("int96", "decode", noon.hex())
assert time == parsed("int96", "encode", str(time["count"]))
assert {**parsed("timestamp", "decode", "nanos", str(time["count"])), "int96": noon.hex()} == time
(line,) = lines("int96", "decode", noon.hex())
assert line == f"{time['count']} 2000-01-01 12:00:00.000000000"
assert parsed("value", "3", "0", "0", "0", "0", "--hex", noon.hex())["time"] == line.split(" ", 1)[1]
assert parsed("value", "3", "0", "0", "0", "0", "--hex", "ff" * 12)["time"] is None
times = noon + struct.pack("<QI", 86400 * 10**9, 0) + noon[:11]
told = lines("int96", "decode", "--file", "-", status=1, given=times)
objects = [json.loads(line) for line in lines("int96", "decode", "--file", "-", "--json", status=1, given=times)]
assert objects[0] == {"index": 0, **time} and told[0] == f"0 {line}"
for index, number in ((1, 16), (2, 15)):
    assert (objects[index]["index"], objects[index]["refused"], objects[index]["at"]) == (index, number, 0)
    assert bytes.fromhex(objects[index]["int96"]) == times[12 * index:12 * index + 12]
    assert told[index] == f"{index} refused {number} at 0, {objects[index]['meaning']}"

points = [(174.76, -36.85), (178.44, -18.14), (0.1, 5e-324), (float("nan"), 1e22)]
texts = "".join(f"{x!r} {y!r}\n" for x, y in points).encode()
doubles = b"".join(struct.pack("<2d", x, y) for x, y in points)
bounds = {"xmin": 0.1, "xmax": 178.44, "ymin": -36.85, "ymax": 1e22}
for words, given in ((("-",), texts), (("-", "--binary"), doubles)):
    (line,) = lines("box", "GEOMETRY", *words, "--json", given=given)
    assert json.loads(line) == {"box": bounds}, line
    (line,) = lines("box", "GEOMETRY", *words, given=given)
    assert {name: float(bound) for name, bound in zip(line.split()[::2], line.split()[1::2])} == bounds, line
    (line,) = lines("box", "GEOGRAPHY", *words, "--json", given=given, status=1)
    assert (json.loads(line)["refused"], json.loads(line)["at"]) == (16, 0)
(line,) = lines("box", "17", "-", "--json", given=b"inf 1\n-inf nan\n")
assert json.loads(line) == {"box": {"xmin": "-inf", "xmax": "inf", "ymin": 1, "ymax": 1}}
assert parsed("box", "17", "/dev/null") == {"box": None}
assert parsed("inside", "18", "177,-178,-21,-12", "178.44,-18.14") == {"inside": True}
assert parsed("inside", "18", "177,-178,-21,-12", "174.76,-18.14", status=NO) == {"inside": False}
refusal = parsed("inside", "16", "0,1,0,1", "0,0", status=1)
assert (refusal["refused"], refusal["at"], refusal["place"]) == (20, 0, None)

refusal = parsed("rows", "/dev/null", status=1)
assert (refusal["refused"], refusal["at"], refusal["place"]) == (1, 0, None)
refusal = parsed("rows", sample, "--edition", "4", status=1)
assert (refusal["refused"], refusal["at"], refusal["meaning"], refusal["place"]) == (21, 0, "edition unknown", None)
assert parsed("rows", sample, "--edition", "2") == parsed("rows", sample, "--edition", "3") == rows
refusal = parsed("value", "6", "0", "4", "0", "0", "--hex", "6162ff", status=1)
assert (refusal["refused"], refusal["at"]) == (16, 2)
refusal = parsed("timestamp", "decode", "9", "0", status=1)
assert (refusal["refused"], refusal["at"]) == (20, 0)
