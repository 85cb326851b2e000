"""Unpacks the data of a page of rvlook: the steps in the form of `trace --json`, and the rest in the form of the page."""
import base64
import json
import re
import struct
import sys
import zlib
from array import array

DATA = re.compile(r'<script type="text/plain" id="data">(.*?)</script>', re.S)
TYPES = {1: "B", 2: "H", 4: "I"}  # of a column, by the width of its numbers


def data_of(text):
    """Returns the data of a page. A column has its bytes in place of where they are."""
    packed = zlib.decompress(base64.b64decode(DATA.search(text)[1]))
    end = 4 + struct.unpack_from("<I", packed)[0]
    data = json.loads(packed[4:end])
    for columns in (data, data["touch"]):
        for name, it in columns.items():
            if isinstance(it, dict) and "width" in it and "at" in it:
                columns[name] = {"width": it["width"], "bytes": packed[end + it["at"]:end + it["at"] + it["count"] * it["width"]]}
    return data


def column(packed):
    """Returns the numbers of a column."""
    numbers = array(TYPES[packed["width"]], packed["bytes"])
    if sys.byteorder == "big":
        numbers.byteswap()
    return numbers


def points_of(steps):
    """Returns the number of points in the chart of a trace: one for each fetch, load or store."""
    fetched = [it for it in steps if not (it["trap"] and it["trap"]["cause"].startswith("8"))]
    return len(fetched) + sum(it["touch"] is not None for it in steps)


class Steps:
    """The steps in the data of a page, which must be read in order."""

    def __init__(self, data):
        self.data, self.at = data, 0
        self.site, self.place, self.trap = (column(data[it]) for it in ("site", "place", "trap"))
        self.changes, self.registers, self.values = (column(data[it]) for it in ("changes", "registers", "values"))
        self.columns = {name: column(packed) for name, packed in data["touch"].items()}
        self.touch = {step: at for at, step in enumerate(self.columns["step"])}

    def step(self, number):
        """Returns a step in the form of `trace --json`, with the members that the page stores."""
        data, place = self.data, number - 1
        end = self.at + self.changes[place]
        changed = {"x%d" % self.registers[at]: "%08x" % self.values[at] for at in range(self.at, end)}
        self.at = end
        trap = data["traps"][self.trap[place] - 1] if self.trap[place] else None
        site = {name: value for name, value in data["sites"][self.site[place]].items() if name != "shown"}
        return {**site, **data["places"][self.place[place]], "registers": changed, "trap": trap, "touch": self.touched(number)}

    def touched(self, number):
        """Returns the load or store of a step, or None."""
        at = self.touch.get(number)
        if at is None:
            return None
        kind, width = self.columns["kind"][at], self.columns["width"][at]
        return {"kind": "rw"[kind & 1], "address": "%08x" % self.columns["address"][at], "width": width,
                "value": None if kind & 4 else "%0*x" % (2 * width, self.columns["value"][at]),
                "symbol": self.data["names"][self.columns["name"][at]], "done": not kind & 2}
