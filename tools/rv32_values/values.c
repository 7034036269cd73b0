/*
 * Prints what RV32I's instructions leave in their registers for edge operands, for the
 * tables in crates/worked_texts/src/machine.rt. It needs no C library. With Debian's packages
 * gcc-riscv64-unknown-elf and qemu-user:
 *
 *   riscv64-unknown-elf-gcc -O1 -march=rv32i -mabi=ilp32 -mno-relax -nostdlib -static \
 *     -ffreestanding -o values values.c
 *   qemu-riscv32 -cpu rv32,c=false values
 */
typedef unsigned int u32;

static long call(long number, long a, long b, long c)
{
    register long a0 asm("a0") = a;
    register long a1 asm("a1") = b;
    register long a2 asm("a2") = c;
    register long a7 asm("a7") = number;
    asm volatile("ecall" : "+r"(a0) : "r"(a1), "r"(a2), "r"(a7) : "memory");
    return a0;
}

static void put(const char *text)
{
    long length = 0;
    while (text[length])
        length++;
    call(64, 1, (long)text, length);
}

/* one digit as it is, and else 0x and eight digits */
static void number(u32 value)
{
    char text[11];
    int at = 0;
    if (value > 9) {
        text[at++] = '0';
        text[at++] = 'x';
        for (int shift = 28; shift >= 0; shift -= 4)
            text[at++] = "0123456789abcdef"[(value >> shift) & 15];
    } else {
        text[at++] = '0' + value;
    }
    text[at] = 0;
    put(text);
}

static void next_number(u32 value)
{
    put(", ");
    number(value);
}

#define RR(op, a, b) ({ u32 r; asm volatile(#op " %0, %1, %2" : "=r"(r) : "r"(a), "r"(b)); r; })
#define RI(op, a, i) ({ u32 r; asm volatile(#op " %0, %1, %2" : "=r"(r) : "r"(a), "i"(i)); r; })
#define TAKEN(op, a, b) ({ u32 r; asm volatile( \
    "li %0, 1\n" #op " %1, %2, 1f\nli %0, 0\n1:" : "=&r"(r) : "r"(a), "r"(b)); r; })
#define LOAD(op, p) ({ u32 r; asm volatile(#op " %0, 0(%1)" : "=r"(r) : "r"(p) : "memory"); r; })

static const u32 pairs[][2] = {
    {0, 0}, {0, 1}, {1, 0}, {1, -1}, {-1, 1}, {-1, -1}, {0x80000000, 1}, {0x80000000, -1},
    {0x80000000, 0x80000000}, {0x80000000, 0x7fffffff}, {0x7fffffff, 0x80000000},
    {0x7fffffff, 1}, {0x7fffffff, 31}, {0x80000000, 31}, {-1, 32}, {0x12345678, 33},
    {0xdeadbeef, 0x13}, {-2, -1},
};

static const u32 words[] = {
    0, 0x7f, 0x80, 0x7fff, 0x8000, 0x7fffffff, 0x80000000, 0xffffffff, 0x1234567f,
};

#define COUNT(list) (sizeof list / sizeof list[0])

/* each table: the instruction, and what it gives for each entry of the list in turn */
#define REGISTERS(op) do { \
    put(#op ": "); \
    for (unsigned i = 0; i < COUNT(pairs); i++) { \
        number(RR(op, pairs[i][0], pairs[i][1])); put(", "); \
    } \
    put("\n"); } while (0)

#define BRANCH(op) do { \
    put(#op ": "); \
    for (unsigned i = 0; i < COUNT(pairs); i++) \
        put(TAKEN(op, pairs[i][0], pairs[i][1]) ? "true, " : "false, "); \
    put("\n"); } while (0)

#define LOADS(op) do { \
    put(#op ": "); \
    for (unsigned i = 0; i < COUNT(words); i++) { \
        number(LOAD(op, &words[i])); put(", "); \
    } \
    put("\n"); } while (0)

#define IMMEDIATE(op, a, i) number(RI(op, a, i)); put(", ");
#define IMMEDIATES(op) do { \
    put(#op ": "); \
    IMMEDIATE(op, 0, -1) IMMEDIATE(op, 1, -2048) IMMEDIATE(op, 0xffffffff, -1) \
    IMMEDIATE(op, 0xffffffff, 1) IMMEDIATE(op, 0x80000000, -1) IMMEDIATE(op, 0x80000000, 0) \
    IMMEDIATE(op, 0x7fffffff, 1) IMMEDIATE(op, 0x7fffffff, 2047) \
    IMMEDIATE(op, 0xfffff800, -2048) IMMEDIATE(op, 0xfffff7ff, -2048) \
    IMMEDIATE(op, 0x12345678, -291) \
    put("\n"); } while (0)

/* each row: the register, the shift, and what slli, srli and srai give */
#define SHIFT(a, i) do { \
    put("("); number(a); put(", " #i ", ["); \
    number(RI(slli, a, i)); next_number(RI(srli, a, i)); next_number(RI(srai, a, i)); \
    put("]),\n"); } while (0)

/* each row: the register, and what sb, sh and sw make of a word of zeros */
static void stores(u32 word)
{
    volatile u32 memory;
    put("(");
    number(word);
    put(", [");
    memory = 0; asm volatile("sb %0, 0(%1)" : : "r"(word), "r"(&memory) : "memory");
    number(memory);
    memory = 0; asm volatile("sh %0, 0(%1)" : : "r"(word), "r"(&memory) : "memory");
    next_number(memory);
    memory = 0; asm volatile("sw %0, 0(%1)" : : "r"(word), "r"(&memory) : "memory");
    next_number(memory);
    put("]),\n");
}

/* each row: the pc, the immediate, and what lui and auipc give */
#define UPPER(i) do { \
    u32 pc, l, a; \
    asm volatile("lui %0, " #i : "=r"(l)); \
    asm volatile("la %0, 1f\n1: auipc %1, " #i : "=&r"(pc), "=&r"(a)); \
    put("("); number(pc); put(", " #i); next_number(l); next_number(a); put("),\n"); } while (0)

/* each row: the pc, the offset, the link, and the pc that was reached */
static void jumps(void)
{
    u32 pc, link, target;
    asm volatile("la %0, 1f\n1: jal %1, .+12\nnop\nnop\nauipc %2, 0"
        : "=&r"(pc), "=&r"(link), "=&r"(target));
    put("("); number(pc); put(", 12"); next_number(link); next_number(target); put("),\n");
    asm volatile("la %0, 1f\nj 1f\nauipc %2, 0\nj 2f\n1: jal %1, .-8\n2:"
        : "=&r"(pc), "=&r"(link), "=&r"(target));
    put("("); number(pc); put(", -8"); next_number(link); next_number(target); put("),\n");
}

/* each row: the pc, the register, the immediate, the link, and the pc that was reached; the
 * register is also the one that is written */
#define INDIRECT(skew, i) do { \
    u32 pc, base, link, target; \
    asm volatile("la %0, 1f\nla %1, 2f\naddi %1, %1, " #skew "\nmv %2, %1\n" \
        "1: jalr %1, " #i "(%1)\nnop\n2: auipc %3, 0" \
        : "=&r"(pc), "=&r"(link), "=&r"(base), "=&r"(target)); \
    put("("); number(pc); next_number(base); put(", " #i); next_number(link); \
    next_number(target); put("),\n"); } while (0)

static void run(void)
{
    REGISTERS(add); REGISTERS(sub); REGISTERS(sll); REGISTERS(slt); REGISTERS(sltu);
    REGISTERS(xor); REGISTERS(srl); REGISTERS(sra); REGISTERS(or); REGISTERS(and);
    BRANCH(beq); BRANCH(bne); BRANCH(blt); BRANCH(bge); BRANCH(bltu); BRANCH(bgeu);
    IMMEDIATES(addi); IMMEDIATES(slti); IMMEDIATES(sltiu);
    IMMEDIATES(xori); IMMEDIATES(ori); IMMEDIATES(andi);
    LOADS(lb); LOADS(lh); LOADS(lw); LOADS(lbu); LOADS(lhu);
    put("shifts\n");
    SHIFT(0x80000000, 0);
    SHIFT(0x80000000, 31);
    SHIFT(0x7fffffff, 31);
    SHIFT(0xffffffff, 1);
    SHIFT(1, 31);
    SHIFT(0xdeadbeef, 12);
    put("stores\n");
    stores(0xffffffff);
    stores(0x12345678);
    put("upper\n");
    UPPER(0);
    UPPER(1);
    UPPER(0x7ffff);
    UPPER(0x80000);
    UPPER(0xfffff);
    put("jumps\n");
    jumps();
    put("indirect\n");
    INDIRECT(0, 0);
    INDIRECT(1, 0);
    INDIRECT(-2047, 2047);
    INDIRECT(2047, -2046);
    INDIRECT(2040, -2040);
}

void _start(void)
{
    asm volatile(".option push\n.option norelax\nla gp, __global_pointer$\n.option pop");
    run();
    call(93, 0, 0, 0);
}
