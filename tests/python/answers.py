"""What the Python module answers of each netlist FILE, of the same text spoiled, and of its words spoiled: one answer a line, which
tests/tests/called.rs holds to the Rust package. What is no word, no value and no count is refused here."""

import sys
from pathlib import Path

import unloop


def told(question):
    try:
        return question()
    except unloop.Refusal as refusal:
        return f"refused {refusal.number} {refusal.detail}"


def listed(numbers):
    return " ".join(map(str, numbers))


def shown(values):
    return "".join("u" if value is None else str(int(value)) for value in values)


def masks(assignments):
    return listed(f"{one.fixed}:{one.ones}" for one in assignments)


def lowest(found):
    return "accepted" if found is None else f"{found.setting}:{found.output}"


def settings(block):
    last = (1 << block.inputs) - 1
    for number in sorted({0, last // 2, last}):
        yield [bool(number >> node & 1) for node in range(block.inputs)]
    yield [None] * block.inputs
    yield [True] * (block.inputs + 1)


def valued(block, setting):
    settled = block.settle(setting)
    return f"{settled.rounds} {shown(settled.values)}"


def sheet(block):
    asked = [unloop.Assignment(0, 0)]
    asked += [unloop.Assignment(1 << node, value << node) for node in range(block.inputs + 1) for value in (0, 1)]
    asked += [unloop.Assignment(0, 1)]
    return listed("refused" if row is None else "/" + shown(row) for row in block.sheet(asked))


def same_gathered(block):
    gathered = block.gather()
    assert gathered.block.scatter(gathered.order) == block
    return f"{listed(gathered.order)} : {listed(gathered.block.words)}"


def of_straight(block, straight):
    cells = straight.cells()
    yield "cells", listed(cells.words)
    yield "compare", lowest(block.compare(straight))
    yield "compare_cells", lowest(block.compare_cells(cells, straight.nodes_shown))
    yield "compare_cells", told(lambda: lowest(block.compare_cells(cells, [0] * block.outputs)))
    yield "compare_cells", told(lambda: lowest(block.compare_cells(cells, [])))
    yield "compare_cells", told(lambda: lowest(block.compare_cells(unloop.Cells(block.inputs + 1, []), straight.nodes_shown)))
    for setting in settings(block):
        yield "run", told(lambda: shown(cells.run(setting)))


def of_block(block):
    yield "words", listed(block.words)
    yield "write", str(block).replace("\n", "/")
    yield "names", f"{listed(block.input_names)} : {listed(block.output_names)} : {masks(block.never_lines)}"
    yield "counts", listed([block.inputs, block.gates, block.outputs])
    verdict = block.verdict()
    yield "verdict", f"{verdict.settled} {verdict.lowest_unsettled}"
    yield "cover", masks(block.cover())
    groups = block.groups()
    yield "groups", f"{groups.count} : {listed(groups.of_gates)}"
    yield "sheet", sheet(block)
    yield "gather", same_gathered(block)
    yield "scatter", told(lambda: listed(block.scatter([0] * (block.gates + 1)).words))
    yield "bring", told(lambda: listed(unloop.Block.bring(block.words).words))
    yield "cells", told(lambda: listed(block.cells().words))
    yield "compare", told(lambda: lowest(block.compare(block)))
    for setting in settings(block):
        yield "settle", told(lambda: valued(block, setting))
        yield "pass", told(lambda: shown(block.sweep(setting)))
    rendered = told(block.render)
    yield "render", rendered if isinstance(rendered, str) else listed(rendered.words)
    if isinstance(rendered, unloop.Block):
        yield from of_straight(block, rendered)


def of_text(text):
    block = told(lambda: unloop.Block.read(text))
    if isinstance(block, str):
        yield "read", block
        return
    yield from of_block(block)
    for place in range(0, len(block.words), 5):
        words = list(block.words)
        words[place] ^= 1
        yield "torn", told(lambda: str(unloop.Block(words)).replace("\n", "/"))


def spoiled(text):
    yield text
    yield text[: len(text) // 2]
    for place in range(0, len(text), 9):
        yield text[:place] + bytes([text[place] ^ 8]) + text[place + 1 :]


def refuses(question):
    try:
        question()
    except ValueError as error:
        assert not isinstance(error, unloop.Refusal), error
        return
    raise AssertionError("not refused")


for path in sys.argv[1:]:
    for text in spoiled(Path(path).read_bytes()):
        print("line", listed(unloop.line(text, len(text) // 2)))
        for name, answer in of_text(text):
            print(name, answer)

for words in ([-1], [65536], [1 << 70]):
    refuses(lambda: unloop.Block(words))
refuses(lambda: unloop.Block.read("(in a)\n").settle([2]))
refuses(lambda: unloop.Cells(-1, []))
refuses(lambda: unloop.Cells(1 << 64, []))
