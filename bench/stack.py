"""The deepest stack of each function that compiled code offers: frame sizes along its calls, read from the machine code.

    stack.py OBJDUMP [all] [FUNCTION=TURNS ..] FILE..

OBJDUMP disassembles: llvm-objdump, or a compiler that is it under that name. FILE is an archive or an object file for x86-64, with a section for each
function. A line for each global function (`all`: for each): the bytes below its caller's stack pointer, return address included, and the calls on the
deepest way. Every instruction that can be reached counts with the depth that it is reached with; a place below the pointer that is read by an index does not, since it was written before. Of a function that calls itself the
most turns must be told. A function of another library (memcpy) counts with its return address alone. A jump through a table of the function's own places goes to each of them. Code that cannot be followed (any other jump through a register,
a computed stack pointer) ends the reading: no figure is better than a wrong one.
"""

import re
import subprocess
import sys
from collections import namedtuple

WORD = 8  # a return address, a pushed register

Instruction = namedtuple("Instruction", "at name operands")

HEAD = re.compile(r"^([0-9a-f]+) <(.+)>:$")
LINE = re.compile(r"^ *([0-9a-f]+):\s+([a-z][a-z0-9]*)\s*([^#<]*?)\s*(?:[#<].*)?$")
RELOCATED = re.compile(r"^\s+[0-9a-f]+:\s+R_X86_64_(?:PLT|PC)32\s+(?:\.text\.)?(.+)-0x4$")
GLOBAL = re.compile(r"^[0-9a-f]+ g +F \S+\s+[0-9a-f]+ (?:\.hidden )?(\S+)$")
TABLE = re.compile(r"^RELOCATION RECORDS FOR \[(?:\.rodata\.)?(.+)\]:$")
ENTRY = re.compile(r"^([0-9a-f]+) R_X86_64_PC32\s+\.text\.(.+)\+(0x[0-9a-f]+)$")
BASE = re.compile(r"^\(%rip\), (%\w+)$")
STEP = re.compile(r"^\$(-?0x[0-9a-f]+), %rsp$")
MARK = re.compile(r"^%rsp, (%\w+)$")
MARK_STEP = re.compile(r"^\$(0x[0-9a-f]+), (%\w+)$")
COMPARED = re.compile(r"^(?:(%\w+), %rsp|%rsp, (%\w+))$")
TO_MARK = re.compile(r"^(%\w+), %rsp$")
NEAR_MARK = re.compile(r"^(-?)(0x[0-9a-f]+)\((%\w+)\), %rsp$")
BELOW = re.compile(r"-(0x[0-9a-f]+)\((%\w+)[,)]")
INDEXED_SOURCE = re.compile(r"-0x[0-9a-f]+\(%rsp,[^)]*\), ")
PLACE = re.compile(r"^0x[0-9a-f]+$")
WRITES_POINTER = re.compile(r"(?:^|, )%[er]?spl?$")
KEEPS_OPERANDS = {"cmpq", "testq"}
# instructions that write nothing but their last operand, and the registers that a call leaves as they were
PLAIN = re.compile(r"^(?:mov(?!s[bwlq]$)\w*|lea[lq]|(?:add|sub|cmp|test|xor|and|or|inc|dec|neg|not|push|pop)[bwlq]|set\w+|cmov\w+|j\w+|nop\w?)$")
KEPT_BY_CALLS = {"%rbx", "%rbp", "%r12", "%r13", "%r14", "%r15"}
LAST = re.compile(r"(?:^|, )%(\w+)$")
PART = re.compile(r"^[er]?([abcd])[xlh]$|^[er]?(si|di|bp|sp)l?$|^r(\d+)[dwb]?$")


class NotFollowed(Exception):
    """Code that this reading does not follow."""


def whole(part):
    """The register of 64 bits that this name is a part of, or the name itself."""
    found = PART.match(part)
    letter, word, number = found.groups() if found else (None, None, None)
    return "%" + ("r%sx" % letter if letter else "r" + (word or number) if found else part)


def compared(operands):
    """The register that is compared with the stack pointer, if one is."""
    found = COMPARED.match(operands)
    return found and (found[1] or found[2])


def marked(name, operands, depth, marks):
    """The marks after an instruction: registers that hold a place of the stack, each with its depth."""
    mark, mark_step, last = MARK.match(operands), MARK_STEP.match(operands), LAST.search(operands)
    if name == "callq":
        return {register: at for register, at in marks.items() if register in KEPT_BY_CALLS}
    if not PLAIN.match(name):
        return {}
    if name in KEEPS_OPERANDS:
        return marks
    if name == "movq" and mark:
        return {**marks, mark[1]: depth}
    if name == "subq" and mark_step and mark_step[2] in marks:
        return {**marks, mark_step[2]: marks[mark_step[2]] + int(mark_step[1], 16)}
    return {register: at for register, at in marks.items() if not last or register != whole(last[1])}


class Function:
    """One function: its instructions in order; for each call or jump out of it, by its index, the function that it names; its table of places to jump to, and
    the indices at which that is taken up."""

    def __init__(self, name):
        self.name, self.code, self.leads_to, self.table, self.takes_table = name, [], {}, None, set()

    def depths(self):
        """For the index of each instruction that is reached how far the stack pointer stands below the return address, and the marks."""
        index_of = {one.at: index for index, one in enumerate(self.code)}
        found, ways = {}, [(0, 0, {})]
        while ways:
            index, depth, marks = ways.pop()
            while True:
                if index == len(self.code):
                    raise NotFollowed("%s runs past its end" % self.name)
                if index in found:
                    known_depth, known = found[index]
                    if known_depth != depth:
                        raise NotFollowed("%s reaches %x with two depths" % (self.name, self.code[index].at))
                    # where two ways meet, a mark stays that both have
                    marks = {register: at for register, at in known.items() if marks.get(register) == at}
                    if marks == known:
                        break
                found[index] = depth, marks
                _, name, operands = self.code[index]
                depth, marks = self.moved(name, operands, depth, marks), marked(name, operands, depth, marks)
                if name in ("retq", "ud2") or (name == "jmp" and index in self.leads_to):
                    break
                if name == "jmpq" and self.goes_by_table(index):
                    if not self.table <= index_of.keys():
                        raise NotFollowed("%s has a table that leads out of it" % self.name)
                    ways += [(index_of[place], depth, marks) for place in self.table]
                    break
                if name.startswith("j"):
                    if not PLACE.match(operands) or int(operands, 16) not in index_of:
                        raise NotFollowed("%s jumps to %s" % (self.name, operands))
                    to = index_of[int(operands, 16)]
                    if not self.takes_more(index, to, marks):
                        ways.append((to, depth, marks))
                    if name == "jmp":
                        break
                index += 1
        return found

    def moved(self, name, operands, depth, marks):
        """The depth after an instruction. Where the pointer is compared with a mark, it is taken on, step by step, until it meets or passes it."""
        step, to_mark, near_mark = STEP.match(operands), TO_MARK.match(operands), NEAR_MARK.match(operands)
        if name == "pushq":
            return depth + WORD
        if name == "popq":
            return depth - WORD
        if name in ("subq", "addq") and step:
            return depth + int(step[1], 16) * (1 if name == "subq" else -1)
        if name == "cmpq" and compared(operands) in marks:
            return marks[compared(operands)]
        if name == "movq" and to_mark and to_mark[1] in marks:
            return marks[to_mark[1]]
        if name == "leaq" and near_mark and near_mark[3] in marks:
            return marks[near_mark[3]] + int(near_mark[2], 16) * (1 if near_mark[1] else -1)
        if name not in KEEPS_OPERANDS and WRITES_POINTER.search(operands):
            raise NotFollowed("%s computes its stack pointer: %s %s" % (self.name, name, operands))
        return depth

    def goes_by_table(self, index):
        """Whether a jump goes to a place of the function's table: the three instructions before it take up the table, an entry, and their sum, and nobody jumps in between."""
        if not self.table or index - 3 not in self.takes_table:
            return False
        take, read, add, jump = self.code[index - 3 : index + 1]
        base, to = BASE.match(take.operands)[1], jump.operands.removeprefix("*")
        sums = read[1:] == ("movslq", "(%s,%s,4), %s" % (base, to, to)) and add[1:] == ("addq", "%s, %s" % (base, to))
        jumps = {int(one.operands, 16) for one in self.code if one.name.startswith("j") and PLACE.match(one.operands)} | self.table
        return sums and base != to and jumps.isdisjoint({read.at, add.at, jump.at})

    def takes_more(self, index, to, marks):
        """Whether a jump goes back to take the next step of a large frame: the pointer was compared with a mark just before."""
        before = self.code[index - 1]
        return to <= index and before.name == "cmpq" and compared(before.operands) in marks


def functions_in(listing):
    """The functions of a listing by name, and the names of those that are global."""
    functions, offered, one = {}, [], None
    for line in listing.splitlines():
        head, relocated, instruction, global_one = HEAD.match(line), RELOCATED.match(line), LINE.match(line), GLOBAL.match(line)
        if global_one:
            offered.append(global_one[1])
        elif head:
            if int(head[1], 16) != 0:
                raise NotFollowed("%s shares a section with another function" % head[2])
            one = functions[head[2]] = Function(head[2])
        elif relocated and one.code[-1].name in ("callq", "jmp"):
            one.leads_to[len(one.code) - 1] = relocated[1]
        elif relocated and relocated[1] == ".rodata." + one.name and one.code[-1].name == "leaq" and BASE.match(one.code[-1].operands):
            one.takes_table.add(len(one.code) - 1)
        elif instruction and one is not None:
            at, name, operands = int(instruction[1], 16), instruction[2], instruction[3]
            if name == "callq" and operands == "0x0":
                one.leads_to[len(one.code)] = one.name
            one.code.append(Instruction(at, name, operands))
    return functions, sorted(offered)


def tables_in(listing):
    """For each function with tables of places to jump to the places. One whose data hold anything else that is known only to the linker has none."""
    tables, name = {}, None
    for line in listing.splitlines():
        head, entry = TABLE.match(line), ENTRY.match(line)
        if head:
            name = head[1]
            tables[name] = set()
        elif entry and entry[2] == name and tables[name] is not None:
            tables[name].add(int(entry[3], 16) - int(entry[1], 16))
        elif " R_X86_64_" in line:
            tables[name] = None
    return tables


def listed(objdump, path, *words):
    """What a file's listing says; the words choose what of it."""
    ran = subprocess.run(["llvm-objdump", *words, str(path)], executable=objdump, stdout=subprocess.PIPE, text=True)
    if ran.returncode != 0:
        raise NotFollowed("%s cannot be listed" % path)
    return ran.stdout


class Stacks:
    """How deep calls of some functions go, and by which calls."""

    def __init__(self, functions, turns):
        self.functions, self.turns, self.known = functions, turns, {}

    def deepest(self, name, above=()):
        if name not in self.functions:
            return WORD, (name,)
        if name in above:
            raise NotFollowed("%s comes back to itself" % name)
        if name not in self.known:
            self.known[name] = self.looked_at(self.functions[name], above + (name,))
        return self.known[name]

    def looked_at(self, one, above):
        most, way, again = 0, (), None
        for index, (depth, marks) in one.depths().items():
            _, operation, operands = one.code[index]
            reach, calls, leads_to = depth, (), one.leads_to.get(index)
            if leads_to == one.name:
                again = max(depth, again or 0)
            elif leads_to:
                inner, calls = self.deepest(leads_to, above)
                reach += inner - (WORD if operation == "jmp" else 0)
            elif operation == "callq":
                raise NotFollowed("%s calls %s" % (one.name, operands))
            elif operation.startswith("lea") or not INDEXED_SOURCE.search(operands):  # a function that calls nothing may use places below its stack pointer
                places = {"%rsp": depth, **marks}
                reach = max([depth, *(places[near] + int(below, 16) for below, near in BELOW.findall(operands) if near in places)])
            if (reach, len(calls)) > (most, len(way)):
                most, way = reach, calls
        most = -(-most // WORD) * WORD
        if again is not None:
            if one.name not in self.turns:
                raise NotFollowed("%s calls itself, and nobody said how often" % one.name)
            for _ in range(self.turns[one.name] - 1):
                most = max(most, again + WORD + most)
            way = (one.name, "..", *way)
        return WORD + most, (one.name, *way)


def figures(objdump, path, turns=None, every=False):
    """The functions that a file offers, or every one of its functions, each with its stack and the calls on its deepest way."""
    functions, offered = functions_in(listed(objdump, path, "-d", "-r", "-t", "--no-show-raw-insn"))
    if not offered or not functions.keys() >= set(offered):
        raise NotFollowed("%s offers no function, or one without code" % path)
    for name, table in tables_in(listed(objdump, path, "-r")).items():
        if name in functions:
            functions[name].table = table
    stacks = Stacks(functions, turns or {})
    return [(name, *stacks.deepest(name)) for name in (functions if every else offered)]


def main(objdump, *words):
    every = "all" in words
    turns = dict(word.split("=") for word in words if "=" in word)
    turns = {name: int(most) for name, most in turns.items()}
    for path in (word for word in words if "=" not in word and word != "all"):
        for name, size, way in figures(objdump, path, turns, every):
            print(("%-24s%6d   %s" % (name, size, " > ".join(way[1:]))).rstrip())


if __name__ == "__main__":
    try:
        main(*sys.argv[1:])
    except NotFollowed as reason:
        sys.exit("not followed: %s" % reason)
