"""bench/stack.py on functions in assembly whose stack was counted by hand, and on code that it must refuse to follow."""

import pathlib
import subprocess
import sys
import tempfile

TOP = pathlib.Path(__file__).resolve().parents[2]
sys.dont_write_bytecode = True
sys.path[:0] = [str(TOP / "bench"), str(TOP / "tools")]

import stack  # noqa: E402
from program import kit  # noqa: E402

# a function, its instructions, and its bytes: the return address and what stands below it
FOLLOWED = [
    ("returns", "retq", 8),
    ("below_its_pointer", "movq %rax, -16(%rsp); movq -16(%rsp), %rax; retq", 8 + 16),
    ("one_odd_byte_below", "movb $0, -17(%rsp); retq", 8 + 24),
    ("reads_by_index", "movq %rax, -16(%rsp); movq -40(%rsp,%rdi,8), %rax; retq", 8 + 16),
    ("writes_by_index", "movq %rax, -40(%rsp,%rdi,8); retq", 8 + 40),
    ("hands_out_a_place_by_index", "leaq -40(%rsp,%rdi,8), %rax; retq", 8 + 40),
    ("saves_and_calls", "pushq %rbx; subq $32, %rsp; callq returns; addq $32, %rsp; popq %rbx; retq", 8 + 8 + 32 + 8),
    ("deeper_in_a_leaf", "pushq %rbx; callq below_its_pointer; popq %rbx; retq", 8 + 8 + 24),
    ("calls_on_one_way_only", "testq %rdi, %rdi; je 1f; pushq %rbx; callq saves_and_calls; popq %rbx; 1: retq", 8 + 8 + 56),
    ("calls_behind_a_return", "testq %rdi, %rdi; jne 1f; retq; 1: subq $40, %rsp; callq returns; addq $40, %rsp; retq", 8 + 40 + 8),
    ("calls_in_a_loop", "pushq %rbx; 1: callq returns; decq %rbx; jne 1b; popq %rbx; retq", 8 + 8 + 8),
    ("jumps_to_another", "subq $16, %rsp; addq $16, %rsp; jmp below_its_pointer", 8 + 24 - 8),
    ("jumps_below_to_another", "pushq %rbx; jmp below_its_pointer", 8 + 8 + 24 - 8),
    ("passes_on_the_stack", "subq $8, %rsp; pushq %rdi; pushq %rsi; callq returns; addq $24, %rsp; retq", 8 + 24 + 8),
    ("calls_another_library", "pushq %rbx; callq memcpy; popq %rbx; retq", 8 + 8 + 8),
    ("page_by_page", "movq %rsp, %r11; subq $0x3000, %r11; 1: subq $0x1000, %rsp; movq $0, (%rsp); cmpq %r11, %rsp; jne 1b; subq $24, %rsp; addq $0x3018, %rsp; retq", 8 + 0x3018),
    ("large_on_one_way", "pushq %rbp; movq %rsp, %rbp; pushq %rbx; testq %rdi, %rdi; jne 3f; leaq -8(%rbp), %rsp; popq %rbx; popq %rbp; retq; 3: movq %rsp, %rsi; subq $0x90, %rsi; cmpq %rsp, %rsi; jge 2f; 1: xorq $0, (%rsp); "
     "subq $0xc00, %rsp; cmpq %rsp, %rsi; jl 1b; 2: movq %rsi, %rsp; callq returns; leaq -8(%rbp), %rsp; popq %rbx; popq %rbp; retq", 8 + 16 + 0x90 + 0xc00),
    ("back_to_its_frame", "pushq %rbp; movq %rsp, %rbp; testq %rdi, %rdi; je 1f; pushq %rbx; callq saves_and_calls; subq $64, %rsp; movq %rbp, %rsp; 1: popq %rbp; retq", 8 + 16 + 64),
    ("below_its_frame", "pushq %rbp; movq %rsp, %rbp; pushq %rbx; movq %rax, -48(%rbp); popq %rbx; popq %rbp; retq", 8 + 8 + 48),
    ("calls_itself", "pushq %rbx; testq %rdi, %rdi; je 1f; callq calls_itself; 1: popq %rbx; retq", 3 * 16),
    ("calls_one_that_does", "subq $24, %rsp; callq calls_itself; addq $24, %rsp; retq", 8 + 24 + 48),
    ("goes_by_a_table", "movl %edi, %eax; leaq .Ltable(%rip), %rsi; movslq (%rsi,%rax,4), %rax; addq %rsi, %rax; jmpq *%rax; .Lfirst: retq; .Lsecond: pushq %rbx; callq saves_and_calls; popq %rbx; retq; "
     ".section .rodata.goes_by_a_table,\"a\",@progbits; .Ltable: .long .Lfirst-.Ltable; .long .Lsecond-.Ltable", 8 + 8 + 56),
    ("never_reached", "retq; pushq %rbx; pushq %rbx; callq saves_and_calls", 8),
]
TURNS = {"calls_itself": 3}

BY_TABLE = "leaq .Ltable(%rip), %rsi; movslq (%rsi,%rax,4), %rax; addq %rsi, %rax; jmpq *%rax"
ENTRIES = ".section .rodata.one,\"a\",@progbits; .Ltable: .long .Lfirst-.Ltable; .long .Lsecond-.Ltable"

# code and the words of its refusal
REFUSED = [
    ("callq *%rax; retq", "calls *%rax"),
    ("jmpq *%rax", "jumps to *%rax"),
    (BY_TABLE + "; .Lfirst: pushq %rbx; .Lsecond: retq; " + ENTRIES, "with two depths"),
    (BY_TABLE + "; .Lfirst: retq; .Lsecond: nop; " + ENTRIES, "runs past its end"),
    (BY_TABLE + "; .Lfirst: movl $0, %eax; .Lsecond = .Lfirst + 2; retq; " + ENTRIES, "leads out of it"),
    (BY_TABLE + "; .Lfirst: retq; .Lsecond: retq; " + ENTRIES + "; .quad two", "jumps to *%rax"),
    (BY_TABLE.replace("addq", "subq") + "; .Lfirst: retq; .Lsecond: retq; " + ENTRIES, "jumps to *%rax"),
    (BY_TABLE.replace(",4)", ",8)") + "; .Lfirst: retq; .Lsecond: retq; " + ENTRIES, "jumps to *%rax"),
    (BY_TABLE.replace("addq", "1: addq") + "; .Lfirst: jmp 1b; .Lsecond: retq; " + ENTRIES, "jumps to *%rax"),
    ("leaq .Lother(%rip), %rsi; movslq (%rsi,%rax,4), %rax; addq %rsi, %rax; jmpq *%rax; .Lfirst: retq; .Lsecond: retq; " + ENTRIES + "; .section .rodata.two,\"a\",@progbits; .Lother: .long 0", "jumps to *%rax"),
    ("andq $-32, %rsp; retq", "computes its stack pointer"),
    ("leaq -8(%rsp), %rsp; retq", "computes its stack pointer"),
    ("movq %rbp, %rsp; retq", "computes its stack pointer"),
    ("movq %rsp, %rbp; movl $0, %ebp; movq %rbp, %rsp; retq", "computes its stack pointer"),
    ("movq %rsp, %rcx; xchgq %rcx, %rax; movq %rcx, %rsp; retq", "computes its stack pointer"),
    ("movq %rsp, %rsi; callq memcpy; movq %rsi, %rsp; retq", "computes its stack pointer"),
    ("movq %rsp, %rbx; testq %rdi, %rdi; je 1f; movl $0, %ebx; 1: movq %rbx, %rsp; retq", "computes its stack pointer"),
    ("1: subq $8, %rsp; cmpq %rsi, %rsp; jne 1b; retq", "with two depths"),
    ("testq %rdi, %rdi; je 1f; pushq %rbx; 1: retq", "with two depths"),
    ("1: pushq %rbx; jmp 1b", "with two depths"),
    ("nop", "runs past its end"),
    ("retq; .type two,@function; two: callq one; retq", "shares a section"),
    (".data; .quad 0", "one without code"),
    ("pushq %rbx; callq one; popq %rbx; retq", "calls itself"),
    ("callq two; retq; .size one, .-one; .section .text.two,\"ax\",@progbits; .type two,@function; two: callq one; retq", "comes back to itself"),
]


def source(name, code):
    lines = [".section .text.%s,\"ax\",@progbits" % name, ".globl %s" % name, ".type %s,@function" % name, "%s:" % name]
    return "\n".join(lines + ["    " + line.strip() for line in code.split(";")]) + "\n"


def assembled(text, folder):
    made = pathlib.Path(folder) / "code.o"
    clang = kit() / "toolchain" / "bin" / "clang"
    words = [str(clang), "--target=x86_64-linux-gnu", "-c", "-x", "assembler", "-", "-o", str(made)]
    subprocess.run(words, input=text, text=True, check=True)
    return clang, made


def main():
    faults = []
    with tempfile.TemporaryDirectory() as folder:
        objdump, made = assembled("".join(source(name, code) for name, code, _ in FOLLOWED), folder)
        found = {name: size for name, size, _ in stack.figures(objdump, made, TURNS)}
        for name, _, size in FOLLOWED:
            if found.get(name) != size:
                faults.append("%s: %s bytes, counted by hand %d" % (name, found.get(name), size))
        for code, words in REFUSED:
            objdump, made = assembled(source("one", code), folder)
            try:
                faults.append("followed: %s: %s" % (code, stack.figures(objdump, made)))
            except stack.NotFollowed as reason:
                if words not in str(reason):
                    faults.append("%s: refused with other words: %s" % (code, reason))
    print("\n".join(faults + ["bench/stack.py: %d functions counted by hand, %d refused, %d faults" % (len(FOLLOWED), len(REFUSED), len(faults))]))
    return 1 if faults else 0


if __name__ == "__main__":
    sys.exit(main())
