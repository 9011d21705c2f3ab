"""What is wrong with a program that was refused while it was read."""
import json

from json_places import at_path
from wording import counted, listed, nearest, sentence, shortened

LIMITS = {"types": "256 types, including the two that are predeclared", "depth": "16 classes deep, including GObject",
          "properties": "64 properties of a class, including inherited ones", "signals": "64 signals of a class, including inherited ones",
          "programs": "256 programs", "places": "512 objects and prototypes", "objects": "as many objects as limits.objects says, 1 to 4096",
          "handlers": "0 to 16 handlers", "registers": "32 registers", "blocks": "64 blocks", "instructions": "512 instructions"}
SORTS = {"string": (str, "a string"), "array": (list, "a list")}
ENDS = ("jump", "if", "ifnull", "return")


def program_hint(tree, schema, path, cause, fields):
    """Where in a program the fault is, and what is wrong there."""
    if cause == "Limit":
        return path, f"the limit is {LIMITS[fields[0]]}"
    block = f"{path}/blocks/{fields[0]}"
    if cause == "BackwardJump":
        return backward_hint(tree, block, int(fields[0]))
    if cause == "BadRepeat":
        return repeat_hint(tree, block)
    if cause == "NoReturn":
        code = at_path(tree, block)["code"]
        at = f"{block}/code/{len(code) - 1}" if code else block
        return at, f"each block ends in {listed(ENDS)}, and {'this is none of them' if code else 'this block has no instructions'}"
    at = f"{block}/code/{fields[1]}"
    code, rows = at_path(tree, at), schema["$defs"]["instruction"]["oneOf"]
    words = [row["prefixItems"][0]["const"] for row in rows]
    word = code[0] if isinstance(code, list) and code else None
    if word not in words:
        near = nearest(word, words)
        return at, f"{json.dumps(word)} is not an instruction{near or '. The instructions are ' + ', '.join(words)}"
    row = rows[words.index(word)]
    return at, f"{sentence(instruction_hint(at_path(tree, path), int(fields[0]), int(fields[1]), code, row))} `{word}`: {row['description']}"


def repeat_hint(tree, block):
    """Why a block may not be repeated as it says."""
    times = at_path(tree, block).get("repeat")
    if isinstance(times, int) and 1 <= times <= 65535:
        return block, "a block with `repeat` ends in `jump`"
    return f"{block}/repeat", f"a block is repeated 1 to 65535 times, and not {times} times"


def backward_hint(tree, block, number):
    """The instruction that leads back, and where it leads to."""
    code = at_path(tree, block)["code"]
    last = code[-1]
    targets = last[1:2] if last[0] == "jump" else last[2:]
    back = next((it for it in targets if isinstance(it, int) and it <= number), None)
    at = f"{block}/code/{len(code) - 1}"
    if back == number:
        return at, f"block {number} leads to itself, and it may lead only to a later block; to repeat a block, use `repeat` in format 2"
    return at, f"block {number} leads back to block {back}, and it may lead only to a later block: put block {back} after block {number}"


def instruction_hint(program, block, at, code, row):
    """What is wrong with an instruction whose word is known."""
    operands, wanted = code[1:], row["prefixItems"][1:]
    if len(operands) != len(wanted):
        return f"{json.dumps(code)} has {counted(len(operands), 'operand')}, and it needs {len(wanted)}"
    for number, (operand, of) in enumerate(zip(operands, wanted), 1):
        hint = operand_hint(program, number, operand, of)
        if hint:
            return hint
    ends = [isinstance(it, list) and bool(it) and it[0] in ENDS for it in program["blocks"][block]["code"]]
    if ends[at] and at < len(ends) - 1 or any(ends[:at]):
        return f"only the last instruction of a block may be {' or '.join(f'`{it}`' for it in ENDS)}"
    if code[0] == "const":
        return f"{shortened(json.dumps(code[3]))} is not a constant of the kind `{code[2]}`, or there is no such kind"
    return f"an operand of {json.dumps(code)} is of the wrong sort"


def operand_hint(program, number, operand, of):
    """What is wrong with one operand, as far as the schema and the sizes of the program say; None where it is right."""
    registers, blocks = program["registers"], program["blocks"]
    is_number = isinstance(operand, int) and not isinstance(operand, bool)
    if of == {"$ref": "#/$defs/register"} and not is_number:
        return f"operand {number} has to be the number of a register"
    if "register" in str(of.get("$ref")) and is_number and not 0 <= operand < registers:
        return f"there is no register {operand}: the program has {registers}, numbered from 0"
    if of.get("maximum") == 63 and not (is_number and 0 <= operand < len(blocks)):
        return f"operand {number} has to be the number of a block, and the program has {len(blocks)}, numbered from 0"
    if of.get("type") == "integer" and not (is_number and of.get("minimum", operand) <= operand <= of.get("maximum", operand)):
        return f"operand {number} has to be a whole number from {of.get('minimum')} to {of.get('maximum')}"
    sort, form = SORTS.get(str(of.get("type")), (object, ""))
    if not isinstance(operand, sort):
        return f"operand {number} has to be {form}"
    if "enum" in of and operand not in of["enum"]:
        return f"operand {number} is not one of {listed(of['enum'])}{nearest(operand, of['enum'])}"
    return None
