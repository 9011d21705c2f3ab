"""Raw blocks: checks them, so that no BadProgram is left, and turns them into those of the format."""
from .faults import Fault
from .kinds import check_name
from .registers import ENDS

MOST = {"registers": 32, "blocks": 64, "instructions": 512}


def check_limits(program, at):
    """Fails where a program is larger than the format allows."""
    counts = {"registers": program["registers"], "blocks": len(program["blocks"]),
              "instructions": sum(len(it["code"]) for it in program["blocks"])}
    for what, most in MOST.items():
        if counts[what] > most:
            raise Fault(at, f"this program needs {counts[what]} {what}, and {most} are the most: divide it, or let one program emit a signal for another")


class Raw:
    """The blocks of one program that is written in raw blocks."""

    def __init__(self, kinds, program):
        self.kinds, self.program = kinds, program

    def whole(self):
        """The blocks, and where each of their instructions is in the source."""
        program, blocks = self.program, self.program["raw"]
        if "registers" not in program:
            raise Fault(program["name"].at, f"raw blocks need the number of registers: `program {program['name']}(..) registers 4 blocks {{`")
        if not blocks:
            raise Fault(program["name"].at, "a program has one block at least")
        self.check_entry(program["params"], program["name"].at)
        found, places = [], {}
        for number, block in enumerate(blocks):
            made = {"in": [self.kinds.kind(it, "entry") for it in block["in"]]} if "in" in block else {}
            if made and number == 0:
                raise Fault(block.at, "the first block begins with the parameters of the program: it has no `(..)`")
            self.check_entry(made.get("in", []), block.at)
            if "repeat" in block:
                made["repeat"] = block["repeat"]
            made["code"] = [self.instruction(it, number) for it in block["code"]]
            self.check_end(block)
            found.append(made)
            places[number] = [block.at, *[it.at for it in block["code"]]]
        return found, places

    def check_entry(self, kinds, at):
        """Fails where more registers are given a kind than there are."""
        if len(kinds) > self.program["registers"]:
            raise Fault(at, f"{len(kinds)} registers are given a kind, and the program has {self.program['registers']}")

    def check_end(self, block):
        """Fails where a block does not end as it should."""
        words = [it["word"] for it in block["code"]]
        for it in block["code"][:-1]:
            if it["word"] in ENDS:
                raise Fault(it.at, f"`{it['word']}` ends a block, so nothing comes behind it")
        if not words or words[-1] not in ENDS:
            raise Fault(block["code"][-1].at if words else block.at, "a block ends in `jump`, `if`, `ifnull` or `return`")
        if "repeat" in block and words[-1] != "jump":
            raise Fault(block["code"][-1].at, "a block with `repeat` ends in `jump`")

    def instruction(self, it, number):
        """The instruction in JSON. Fails where an operand is not what it should be."""
        made = [it["word"]]
        for sort, at, value in it["operands"]:
            if sort == "k":
                value = self.kinds.kind(value, "property")
            elif sort == "v":
                value = self.kinds.value(value, made[-1])
            elif sort == "b":
                self.check_block(value, number)
            elif sort == "D" and value is not None:
                check_name(value, "a detail")
            elif sort in "rza":
                self.check_registers(value)
            made.append(value)
        return made

    def check_block(self, value, number):
        """Fails where a block leads back or to no block."""
        if value <= number:
            raise Fault(value.at, f"a block leads to a later one, and this is block {number}")
        if value >= len(self.program["raw"]):
            raise Fault(value.at, f"there is no block {value}: the last is {len(self.program['raw']) - 1}")

    def check_registers(self, value):
        """Fails where the program does not have a register."""
        for register in value if isinstance(value, list) else [value]:
            if register is not None and register >= self.program["registers"]:
                raise Fault(register.at, f"the program has {self.program['registers']} registers, so the last is %{self.program['registers'] - 1}")
