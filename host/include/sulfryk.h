/* The calls of the module bus for a host in C, by numbers: written by crates/host/declare. */
#ifndef SULFRYK_H
#define SULFRYK_H
#include <stdbool.h>
#include <stddef.h>
#include <stdint.h>

// The calls for hosts outside of Rattle. What crosses is numbers, by value: a host opens a call, makes the access that the
// block names, and hands the block's state back in with the answer, until the block names an end.
//
// The archive is ELF for x86-64, has the System V calling convention, and uses the red zone below the stack pointer: an
// interrupt handler that runs on the same stack must leave that alone.
//
// Arguments. family: 0 82599, 1 X540, 2 X550, 3 X552, 4 X553. device: the PCI device. lan: the port number, 0 or 1. address: of
// a device on the module bus, 8 bits, even. attempts: for each byte, at most 255. lock: take the bus's semaphore. mask: bits of
// SW_FW_SYNC; bit 30 is the X553's PHY token. take: ask for the token, or give it back. ten: 10G, or 1G. A pointer and a length
// are a block of 1 to 64 words, a script of 1 to 64 bytes or a buffer of at least 96, lent for the call; a step is lent the one
// that the opening was lent, which only the steps alter. The pointer is not null, even where the length is 0.
//
// A script's commands: 0x10 START; 0x20 and a byte, send it; 0x30 read a byte and acknowledge it; 0x31 read a byte and do not;
// 0x40 STOP.
//
// Refused (kind 5), by what is asked: 1 the family, 2 the port number, 3 the I2C device, 4 the attempts, 5 the length of the
// script, 6 its commands, 7 its grammar, 8 the length of the block, 9 of the buffer, 10 the state, and what is lent with it,
// 11 a call that is not over, 12 an answer of the awaited kind, 13 the sequence.
//
// Failed (kind 4): 20 an access failed; 21 the card was removed; 22 a lock did not come, second: the bits held; 23 the module
// bus, second: the address; 24 the firmware interface, second: HICR as last read; 25 the firmware did not grant, second: the
// command, third: its status; of a page 26 and 27, its first or second sum is wrong; of light 28 and 29, a coefficient or the
// result is not finite; of a level 30, the count is 0.
//
// Ended (kind 3), first to sixth. read_byte: the byte. read_combined: the word. command: the status. token: 1, or 0 where the
// firmware is busy. soft_rate_select: 1 where both bytes were written, else 0. identify, identify_qsfp: the kind (0 DaCu,
// 1 DaActiveLimiting, 2 SrLr, 3 Cu1g, 4 Sx1g, 5 Lx1g, 6 Bx10g, 7 Bx1g, 8 Unknown, 9 NotPresent), multispeed, identifier,
// comp_10g, comp_1g, cable. light: the voltage in 100 uV, the bias in 2 uA, the power sent in 0.1 uW, the reading's kind (0 by
// the module, 1 by its coefficients, 2 absent), and the power received in 0.1 uW, a count or the bits of a float; temperature:
// in 1/256 degree Celsius. Of the others nothing.

#if (defined(__GNUC__) || defined(__clang__)) && defined(__x86_64__)
#define SULFRYK_ABI __attribute__((sysv_abi))
#elif defined(_MSC_VER)
#error "this compiler cannot call functions that have the System V convention"
#else
#define SULFRYK_ABI
#endif

#ifdef __cplusplus
extern "C" {
#endif

// Any numbers are a state. call: which call it is of, by its number below; of another number it is none.
//
//  0 `i2c::TransferCall`
//  1 `i2c::SetupCall`
//  2 `identify::IdentifyCall`
//  3 `softrate::RateCall`
//  4 `light::LightCall`
//  5 `acquire::AcquireCall`
//  6 `acquire::ReleaseCall`
//  7 `hostif::TokenCall`
//  8 `hostif::CommandCall`
//  9 `transfer::ScriptCall`
// 10 `page::PageCall`
struct sulfryk_state {
    uint8_t call;
    uint8_t tag;
    uint8_t b1;
    uint8_t b2;
    uint8_t b3;
    uint8_t b4;
    uint8_t b5;
    uint8_t b6;
    uint8_t b7;
    uint8_t b8;
    uint8_t b9;
    uint8_t b10;
    uint8_t b11;
    uint8_t b12;
    uint8_t b13;
    uint8_t b14;
    uint8_t b15;
    uint8_t b16;
    uint8_t b17;
    uint8_t b18;
    uint8_t b19;
    uint8_t b20;
    uint8_t b21;
    uint8_t b22;
    uint8_t b23;
    uint16_t h0;
    uint16_t h1;
    uint16_t h2;
    uint16_t h3;
    uint16_t h4;
    uint16_t h5;
    uint16_t h6;
    uint32_t w0;
    uint32_t w1;
    uint32_t w2;
    uint32_t w3;
    uint32_t w4;
    uint32_t w5;
    uint32_t w6;
    uint32_t w7;
    uint32_t w8;
    size_t z0;
};

// What is next. kind 0: read the register `first`. 1: write `second` to the register `first`. 2: wait `first` microseconds.
// With these three `third` is 0, or, where a script has just read a byte, 256 and the byte. 3: the end; the result's values
// are `first` to `sixth` and, of light, `temperature`. 4: the call failed with the number `first`, whose values are `second`
// and `third`. 5: refused with the number `first`, the state as it was. transfers, slowest: at an end what was metered.
struct sulfryk_next {
    uint32_t kind;
    uint32_t first;
    uint32_t second;
    uint32_t third;
    uint32_t fourth;
    uint32_t fifth;
    uint32_t sixth;
    uint32_t transfers;
    uint32_t slowest;
    int16_t temperature;
};

struct sulfryk_block {
    struct sulfryk_next next;
    struct sulfryk_state state;
};

// tenths: the level in tenths of a dBm. number: 0, or 30 where the count is 0, which has no level.
struct sulfryk_decibels {
    uint32_t number;
    int16_t tenths;
};

// The openings. sequence: the clearing sequence after a failed attempt: 0 the default, 1 the original's pulses, 2 rounds; any other
// number is refused with 13, before every question.

struct sulfryk_block SULFRYK_ABI sulfryk_read_byte_open(uint32_t family, uint16_t device, uint32_t lan, uint8_t address, uint8_t offset, uint32_t attempts, bool lock, uint32_t sequence);
struct sulfryk_block SULFRYK_ABI sulfryk_write_byte_open(uint32_t family, uint16_t device, uint32_t lan, uint8_t address, uint8_t offset, uint8_t value, bool lock, uint32_t sequence);
struct sulfryk_block SULFRYK_ABI sulfryk_read_combined_open(uint32_t family, uint16_t device, uint32_t lan, uint8_t address, uint16_t reg, bool lock, uint32_t sequence);
struct sulfryk_block SULFRYK_ABI sulfryk_write_combined_open(uint32_t family, uint16_t device, uint32_t lan, uint8_t address, uint16_t reg, uint16_t value, bool lock, uint32_t sequence);
struct sulfryk_block SULFRYK_ABI sulfryk_qsfp_setup_open(void);
struct sulfryk_block SULFRYK_ABI sulfryk_identify_open(uint32_t family, uint16_t device, uint32_t lan, uint32_t sequence);
struct sulfryk_block SULFRYK_ABI sulfryk_identify_qsfp_open(uint32_t family, uint16_t device, uint32_t lan, uint32_t sequence);
struct sulfryk_block SULFRYK_ABI sulfryk_soft_rate_select_open(uint32_t family, uint16_t device, uint32_t lan, bool ten, uint32_t sequence);
struct sulfryk_block SULFRYK_ABI sulfryk_light_open(uint32_t family, uint16_t device, uint32_t lan, uint32_t attempts, uint32_t sequence);
struct sulfryk_block SULFRYK_ABI sulfryk_acquire_open(uint32_t family, uint16_t device, uint32_t lan, uint32_t mask);
struct sulfryk_block SULFRYK_ABI sulfryk_release_open(uint32_t family, uint16_t device, uint32_t lan, uint32_t mask);
struct sulfryk_block SULFRYK_ABI sulfryk_token_open(uint32_t family, uint16_t device, uint32_t lan, bool take);
struct sulfryk_block SULFRYK_ABI sulfryk_command_open(uint32_t family, uint16_t device, uint32_t lan, const uint32_t *block, size_t block_len);
struct sulfryk_block SULFRYK_ABI sulfryk_script_open(uint32_t family, uint16_t device, uint32_t lan, const uint8_t *script, size_t script_len);
struct sulfryk_block SULFRYK_ABI sulfryk_page_open(uint32_t family, uint16_t device, uint32_t lan, uint32_t attempts, const uint8_t *buffer, size_t buffer_len, uint32_t sequence);
struct sulfryk_block SULFRYK_ABI sulfryk_qsfp_page_open(uint32_t family, uint16_t device, uint32_t lan, uint32_t attempts, const uint8_t *buffer, size_t buffer_len, uint32_t sequence);

// The steps, one for each kind of loan: nothing, a block, a script, a buffer. kind and value are the answer: 0 the value that was
// read, 1 done, 2 failed; any other kind is refused with 12, before every question. A state of a call that is lent something
// else is refused with 10.

struct sulfryk_block SULFRYK_ABI sulfryk_step(struct sulfryk_state state, uint32_t kind, uint32_t value);
struct sulfryk_block SULFRYK_ABI sulfryk_command_step(struct sulfryk_state state, uint32_t *block, size_t block_len, uint32_t kind, uint32_t value);
struct sulfryk_block SULFRYK_ABI sulfryk_script_step(struct sulfryk_state state, const uint8_t *script, size_t script_len, uint32_t kind, uint32_t value);
struct sulfryk_block SULFRYK_ABI sulfryk_page_step(struct sulfryk_state state, uint8_t *buffer, size_t buffer_len, uint32_t kind, uint32_t value);

// Which of two failed accesses a result is by. A call's failure is that of the last access that failed, but where a command
// gives its lock back after its body failed: the body's failure goes first, as in the Rust's `locked`.

// Whether the failure of an access that failed before stays the result's, where the one that this state awaits fails too.
bool SULFRYK_ABI sulfryk_failure_kept(struct sulfryk_state state);

// The level of a power in dBm, for hosts.

// count: the power in 0.1 µW.
struct sulfryk_decibels SULFRYK_ABI sulfryk_level(uint16_t count);

#ifdef __cplusplus
}
#endif
#endif
