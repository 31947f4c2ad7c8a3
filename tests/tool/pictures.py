#!/usr/bin/env python3
"""trace --svg: pictures of 1, 2 and 32 threads and of generated sites, free of overlap, and of the run that the lines tell.

Everything lies inside the view box. No two texts overlap; no two lanes and no two segments; each segment lies in its thread's lane and
its texts inside of it; no line crosses a segment. The segments are those of trace --text in the cycles that the picture says it shows,
the early ones marked; each hearing has its arrow, and each segment a mark that notifies what nobody hears.
"""
import itertools
import re
import sys
import tempfile
import xml.etree.ElementTree as xml

from tool import MODELS, ROOT, generated, printed, ran
from traces import Lines

SVG = "{http://www.w3.org/2000/svg}"
LETTER, ABOVE, BELOW = 0.61, 0.78, 0.24
SAID = re.compile(r"\((\d+), (\d+)\) to \((\d+), (\d+)\): .*")
TOLD = re.compile(r"(\w+) (\w+) at \((\d+), (\d+)\); grant (\d+)(, early)?(;.*)?", re.S)
MOST = 400


class Box:
    def __init__(self, x, y, width, height, node):
        self.x, self.y, self.right, self.low, self.node = x, y, x + width, y + height, node
        self.classes = node.get("class", "").split()

    def meets(self, other):
        return self.x < other.right and other.x < self.right and self.y < other.low and other.y < self.low

    def holds(self, other):
        return self.x <= other.x and other.right <= self.right and self.y <= other.y and other.low <= self.low


def numbers(node, *names):
    return [float(node.get(name)) for name in names]


def box_of(node):
    """What a rectangle, a circle, a text or a line takes; none for other nodes."""
    kind = node.tag.removeprefix(SVG)
    if kind == "rect":
        return Box(*numbers(node, "x", "y", "width", "height"), node)
    if kind == "circle":
        x, y, r = numbers(node, "cx", "cy", "r")
        return Box(x - r, y - r, 2 * r, 2 * r, node)
    if kind == "line":
        x1, y1, x2, y2 = numbers(node, "x1", "y1", "x2", "y2")
        return Box(min(x1, x2), min(y1, y2), abs(x1 - x2), abs(y1 - y2), node)
    if kind == "path":
        x, y = (float(part) for part in re.match(r"M(\S+) (\S+)", node.get("d")).groups())
        return Box(x - 5, y - 3, 6, 6, node)
    if kind == "text":
        x, y, size = numbers(node, "x", "y", "font-size")
        width = len(node.text) * size * LETTER
        left = {"start": 0, "middle": width / 2, "end": width}[node.get("text-anchor")]
        return Box(x - left, y - size * ABOVE, width, size * (ABOVE + BELOW), node)
    return None


class Picture:
    def __init__(self, text):
        root = xml.fromstring(text)
        self.view = Box(*(float(x) for x in root.get("viewBox").split()), root)
        boxes = [box for box in (box_of(node) for node in root.iter()) if box]
        of = lambda tag, name: [box for box in boxes if box.node.tag == SVG + tag and (not name or name in box.classes)]
        legend = min(box.y for box in of("text", "legend"))
        above = lambda found: [box for box in found if box.low < legend]
        self.all, self.texts, self.lanes = boxes, of("text", ""), of("rect", "lane")
        self.segments, self.heads = above(of("rect", "segment")), above(of("path", "head"))
        self.lines = above(of("line", "wait") + of("line", "event") + of("line", "bus") + of("line", "nobody"))
        self.lost = above(of("circle", "lost"))
        self.names, self.inside = of("text", "name"), of("text", "what") + of("text", "grant")
        self.bars, self.said = above(of("rect", "bar")), [box.node.text for box in of("text", "said")]

    def check(self):
        for box in self.all:
            assert self.view.holds(box), f"outside of the view: {xml.tostring(box.node)}"
        for kind in (self.texts, self.lanes, self.segments, self.bars):
            for a, b in itertools.combinations(kind, 2):
                assert not a.meets(b), f"overlap: {xml.tostring(a.node)} {xml.tostring(b.node)}"
        for text in self.inside:
            assert sum(segment.holds(text) for segment in self.segments) == 1, f"outside of its segment: {text.node.text}"
        for bar in self.bars:
            assert not any(bar.meets(lane) for lane in self.lanes), "a bar of the log in a lane"
        for line, segment in itertools.product(self.lines, self.segments):
            assert not line.meets(segment), f"a line crosses a segment: {xml.tostring(line.node)} {xml.tostring(segment.node)}"
        for lane, name in zip(self.lanes, self.names):
            assert lane.holds(name), f"outside of its lane: {name.node.text}"

    def told(self):
        """The segments of the picture: thread, segment, cycle, grant, early; each in its thread's lane."""
        out = set()
        for box in self.segments:
            thread, segment, time, delta, grant, early, _ = TOLD.fullmatch(box.node.find(SVG + "title").text).groups()
            lane = [name.node.text for lane, name in zip(self.lanes, self.names) if lane.holds(box)]
            assert len(lane) == 1 and (lane[0] == thread or thread.startswith(lane[0].removesuffix(".."))), f"{thread} in the lane of {lane}"
            assert ("early" in box.classes) == bool(early)
            out.add((thread, segment, (int(time), int(delta)), int(grant), bool(early)))
        assert len(out) == len(self.segments)
        return out


def check(path, options, window=()):
    """How many segments the picture shows."""
    with tempfile.NamedTemporaryFile(suffix=".svg") as out:
        text = printed("trace", path, *options, *window, "--most", MOST, "--text", "--svg", out.name)
        picture = Picture(open(out.name).read())
    picture.check()
    lines, said = Lines(text), SAID.fullmatch(picture.said[0])
    if not said:
        assert "no segment ran in this window" in picture.said[0] and not picture.segments
        return 0
    first, last = (int(said[1]), int(said[2])), (int(said[3]), int(said[4]))
    expected = {(stamp[2], lines.steps[stamp].segment, stamp[:2], i + 1, lines.steps[stamp].early)
                for i, (stamp, _, _) in enumerate(lines.order) if first <= stamp[:2] <= last}
    assert picture.told() == expected, f"{path}: the picture shows another run"
    assert len(picture.heads) == sum(first <= heard[:2] <= last for heard in lines.heard), f"{path}: arrows"
    known = {(*heard[:2], event) for heard, event in lines.heard.items()}
    lost = sum(any((*stamp[:2], event) not in known for event in step.notified) for stamp, step in lines.steps.items() if first <= stamp[:2] <= last)
    assert len(picture.lost) == lost, f"{path}: what nobody hears"
    limits = dict(zip(window[::2], window[1::2]))
    assert first[0] >= limits.get("--from", 0) and last[0] <= limits.get("--to", last[0])
    return len(expected)


LONG = """horizon 1000000000
variables {0}_a
events {0}_e
segment {0}_s
    {0}_a += 1
    notify {0}_e
    wait 99999999 then {0}_s
segment l
    wait for {0}_e then l
thread {0}_t starts at {0}_s
thread {0}_u starts at l
"""


def main(count):
    shown = pictures = 0
    with tempfile.TemporaryDirectory() as place:
        texts = {"school": ROOT / "docs/pictures/school.txt", "long": f"{place}/long.txt"}
        open(texts["long"], "w").write(LONG.format("a_name_that_is_longer_than_any_box"))
        files = {path: [] for path in MODELS if path.stem != "refused7"}
        for name, text in texts.items():
            assert ran("build", text, "-o", f"{place}/{name}")[0] == 0
            files[f"{place}/{name}"] = ["--names", text]
        for i, file in enumerate(generated(count, 77000)):
            open(f"{place}/{i}", "wb").write(file)
            files[f"{place}/{i}"] = []
        for i, (path, named) in enumerate(files.items()):
            for options in ([], ["--order", "most-ahead"], ["--order", "random", "--seed", i]):
                for window in ((), ("--from", 4, "--to", 24)):
                    shown, pictures = shown + check(path, [*named, *options], window), pictures + 1
        check(f"{place}/school", ["--order", "random"], ("--from", 0))
        assert check(f"{place}/school", [], ("--from", 61, "--to", 70)) == 0
    print(f"{pictures} pictures free of overlap, {shown} segments as the lines tell them")


if __name__ == "__main__":
    main(int(sys.argv[1]) if sys.argv[1:] else 12)
