// Loads an eBPF program of 1,024 instructions again and again: bpf LINE ROUNDS, where LINE is numbers, bytes or jumps. It prints how often it was accepted.
#include <stdint.h>
#include <stdio.h>
#include <stdlib.h>
#include <string.h>

#include <rte_bpf.h>
#include <rte_eal.h>
#include <rte_mbuf.h>

#define LENGTH 1024

// The line that a program has over and over: a sum, a store into the packet's mbuf, a jump to the end.
static struct ebpf_insn line_of(const char *name, int place) {
    if (!strcmp(name, "numbers")) return (struct ebpf_insn){.code = EBPF_ALU64 | BPF_ADD | BPF_K, .dst_reg = EBPF_REG_0, .imm = 3};
    if (!strcmp(name, "bytes")) return (struct ebpf_insn){.code = BPF_STX | BPF_MEM | BPF_W, .dst_reg = EBPF_REG_10, .src_reg = EBPF_REG_0, .off = -8};
    return (struct ebpf_insn){.code = BPF_JMP | BPF_JEQ | BPF_K, .dst_reg = EBPF_REG_0, .imm = 5, .off = LENGTH - 2 - place};
}

int main(int argc, char **argv) {
    char *words[] = {argv[0], "--no-huge", "--no-pci", "-m", "64", "--no-telemetry", "--log-level", "lib.eal:error", "--no-shconf", NULL};
    if (argc != 3 || rte_eal_init(9, words) < 0) return 2;
    static struct ebpf_insn program[LENGTH];
    program[0] = (struct ebpf_insn){.code = EBPF_ALU64 | EBPF_MOV | BPF_K, .dst_reg = EBPF_REG_0, .imm = 1};
    for (int place = 1; place < LENGTH - 1; place++) program[place] = line_of(argv[1], place);
    program[LENGTH - 1] = (struct ebpf_insn){.code = BPF_JMP | EBPF_EXIT};
    struct rte_bpf_prm prm = {.ins = program, .nb_ins = LENGTH, .prog_arg = {.type = RTE_BPF_ARG_RAW, .size = 0}};
    uint32_t accepted = 0, rounds = strtoul(argv[2], NULL, 10);
    for (uint32_t k = 0; k < rounds; k++) {
        struct rte_bpf *bpf = rte_bpf_load(&prm);
        if (bpf) {
            accepted++;
            rte_bpf_destroy(bpf);
        }
    }
    printf("%u\n", accepted);
    return accepted != rounds;
}
