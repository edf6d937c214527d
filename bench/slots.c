#include "slots.h"

#include <string.h>

/* Opcodes of RFC 9669. */
enum {
    ADD_IMMEDIATE = 0x07,
    ADD_REGISTER = 0x0f,
    SUB_REGISTER = 0x1f,
    OR_IMMEDIATE = 0x47,
    AND_IMMEDIATE = 0x57,
    XOR_IMMEDIATE = 0xa7,
    RSH_IMMEDIATE = 0x77,
    MOV_IMMEDIATE = 0xb7,
    MOV_REGISTER = 0xbf,
    ADD32_REGISTER = 0x0c,
    MUL32_IMMEDIATE = 0x24,
    JEQ_IMMEDIATE = 0x15,
    JGT_IMMEDIATE = 0x25,
    JGT_REGISTER = 0x2d,
    LOAD8 = 0x71,
    LOAD16 = 0x69,
    LOAD32 = 0x61,
    LOAD64 = 0x79,
    STORE64_REGISTER = 0x7b,
    EXIT = 0x95,
};

static void slot(Program *program, uint8_t opcode, int destination, int source, int offset, int32_t immediate) {
    uint8_t *at = program->bytes + 8 * program->slots++;
    uint16_t short_offset = (uint16_t)offset;
    at[0] = opcode;
    at[1] = (uint8_t)(destination | source << 4);
    memcpy(at + 2, &short_offset, 2);
    memcpy(at + 4, &immediate, 4);
}

static void start(Program *program) {
    memset(program, 0, sizeof *program);
}

void make_straight(Program *program, size_t slots) {
    start(program);
    slot(program, MOV_IMMEDIATE, 0, 0, 0, 1);
    slot(program, MOV_IMMEDIATE, 2, 0, 0, 7);
    slot(program, MOV_IMMEDIATE, 3, 0, 0, 9);
    for (int turn = 0; program->slots + 1 < slots; turn++) {
        switch (turn % 8) {
        case 0: slot(program, ADD_REGISTER, 0, 2, 0, 0); break;
        case 1: slot(program, XOR_IMMEDIATE, 0, 0, 0, 0x1234 + turn); break;
        case 2: slot(program, MUL32_IMMEDIATE, 2, 0, 0, 3); break;
        case 3: slot(program, RSH_IMMEDIATE, 0, 0, 0, 3); break;
        case 4: slot(program, OR_IMMEDIATE, 2, 0, 0, 5); break;
        case 5: slot(program, SUB_REGISTER, 2, 0, 0, 0); break;
        case 6: slot(program, MOV_REGISTER, 3, 0, 0, 0); break;
        case 7: slot(program, ADD32_REGISTER, 3, 2, 0, 0); break;
        }
    }
    slot(program, EXIT, 0, 0, 0, 0);
}

void make_moves(Program *program, size_t slots) {
    start(program);
    slot(program, MOV_IMMEDIATE, 0, 0, 0, 1);
    for (int turn = 0; program->slots + 1 < slots; turn++) {
        slot(program, MOV_REGISTER, 2 + turn % 4, turn % 4 == 0 ? 0 : 1 + turn % 4, 0, 0);
    }
    slot(program, EXIT, 0, 0, 0, 0);
}

void make_branches(Program *program, size_t slots, int offset) {
    start(program);
    slot(program, LOAD32, 0, 1, offset, 0);
    for (int turn = 0; program->slots + 1 < slots; turn++) {
        switch (turn % 4) {
        case 0: slot(program, JEQ_IMMEDIATE, 0, 0, 0, -1); break;
        case 2: slot(program, JGT_IMMEDIATE, 0, 0, 0, 0); break;
        default: slot(program, ADD_IMMEDIATE, 0, 0, 0, 1); break;
        }
    }
    slot(program, EXIT, 0, 0, 0, 0);
}

void make_stack(Program *program, size_t slots) {
    start(program);
    slot(program, MOV_IMMEDIATE, 0, 0, 0, 1);
    for (int turn = 0; program->slots + 1 < slots; turn++) {
        int offset = -8 * (1 + turn / 2 % 16);
        if (turn % 2 == 0) {
            slot(program, STORE64_REGISTER, 10, 0, offset, 0);
        } else {
            slot(program, LOAD64, 0, 10, offset, 0);
        }
    }
    slot(program, EXIT, 0, 0, 0, 0);
}

void make_text_loads(Program *program, size_t slots) {
    start(program);
    slot(program, MOV_IMMEDIATE, 0, 0, 0, 0);
    slot(program, LOAD64, 2, 1, 0, 0);
    slot(program, LOAD64, 3, 1, 8, 0);
    slot(program, MOV_REGISTER, 4, 2, 0, 0);
    slot(program, ADD_IMMEDIATE, 4, 0, 0, 64);
    slot(program, JGT_REGISTER, 4, 3, (int)(slots - program->slots - 2), 0);
    for (int turn = 0; program->slots + 1 < slots; turn++) {
        int offset = turn * 5 % 56;
        switch (turn % 4) {
        case 0: slot(program, LOAD8, 0, 2, offset, 0); break;
        case 1: slot(program, LOAD64, 5, 2, offset, 0); break;
        case 2: slot(program, LOAD16, 6, 2, offset, 0); break;
        case 3: slot(program, LOAD32, 7, 2, offset, 0); break;
        }
    }
    slot(program, EXIT, 0, 0, 0, 0);
}

void make_context_loads(Program *program, size_t slots) {
    start(program);
    slot(program, MOV_IMMEDIATE, 0, 0, 0, 0);
    for (int turn = 0; program->slots + 1 < slots; turn++) {
        slot(program, LOAD32, turn % 2 == 0 ? 0 : 5, 1, 16 + turn % 8 * 4, 0);
    }
    slot(program, EXIT, 0, 0, 0, 0);
}

void make_fan(Program *program, size_t slots, int offset) {
    start(program);
    slot(program, LOAD32, 0, 1, offset, 0);
    int half = (int)slots / 2;
    while (program->slots + 1 < slots) {
        if ((int)program->slots < half) {
            slot(program, JEQ_IMMEDIATE, 0, 0, half - 2, (int32_t)program->slots);
        } else {
            slot(program, ADD_IMMEDIATE, 0, 0, 0, 1);
        }
    }
    slot(program, EXIT, 0, 0, 0, 0);
}

void make_two(Program *program) {
    start(program);
    slot(program, MOV_IMMEDIATE, 0, 0, 0, 1);
    slot(program, EXIT, 0, 0, 0, 0);
}

void make_three(Program *program) {
    start(program);
    slot(program, LOAD32, 0, 1, 24, 0);
    slot(program, AND_IMMEDIATE, 0, 0, 0, 1);
    slot(program, EXIT, 0, 0, 0, 0);
}

void make_three_plain(Program *program) {
    start(program);
    slot(program, MOV_IMMEDIATE, 0, 0, 0, 3);
    slot(program, AND_IMMEDIATE, 0, 0, 0, 1);
    slot(program, EXIT, 0, 0, 0, 0);
}
