/* A host in C: identifies the bench module, which a reset stopped while it acknowledged a write, on port 0 of an 82599 whose
 * locks all come at once, and prints the record. bench.rs is the same in Rust. */
#include <stdio.h>
#include <string.h>

#include "sulfryk.h"

/* The bench module. taken: the bits of ADDRESS and RECEIVE, or the bit that SEND has on SDA, the highest first. */
enum stage { IDLE, ADDRESS, RECEIVE, ACK_READ, ACK_WRITE, SEND, LISTEN };

struct module {
    uint8_t pages[2][256], offsets[2];
    enum stage stage;
    int taken, page;
    uint8_t bits;
    bool offset_next, noted;
};

static uint8_t *at(struct module *m) { return &m->pages[m->page][m->offsets[m->page]]; }

static bool pulls(struct module *m) {
    switch (m->stage) {
    case ACK_READ:
    case ACK_WRITE: return true;
    case SEND: return (*at(m) >> (7 - m->taken) & 1) == 0;
    default: return false;
    }
}

static void enter(struct module *m, enum stage stage) {
    m->stage = stage;
    m->taken = 0;
}

static void rises(struct module *m, bool sda) {
    if ((m->stage == ADDRESS || m->stage == RECEIVE) && m->taken < 8) {
        m->bits = (uint8_t)(m->bits << 1 | sda);
        m->taken++;
    } else if (m->stage == LISTEN) {
        m->noted = sda;
    }
}

static void addressed(struct module *m) {
    if ((m->bits & 0xfc) != 0xa0) {
        enter(m, IDLE);
        return;
    }
    m->page = m->bits >> 1 & 1;
    m->offset_next = true;
    enter(m, m->bits & 1 ? ACK_READ : ACK_WRITE);
}

static void store(struct module *m) {
    if (m->offset_next) {
        m->offsets[m->page] = m->bits;
        m->offset_next = false;
    } else {
        *at(m) = m->bits;
        m->offsets[m->page]++;
    }
    enter(m, ACK_WRITE);
}

static void falls(struct module *m) {
    switch (m->stage) {
    case ADDRESS:
        if (m->taken == 8) addressed(m);
        break;
    case RECEIVE:
        if (m->taken == 8) store(m);
        break;
    case ACK_WRITE: enter(m, RECEIVE); break;
    case ACK_READ: enter(m, SEND); break;
    case SEND:
        if (m->taken < 7) {
            m->taken++;
        } else {
            m->offsets[m->page]++;
            enter(m, LISTEN);
        }
        break;
    case LISTEN: enter(m, m->noted ? IDLE : SEND); break;
    case IDLE: break;
    }
}

/* The registers of the port: I2CCTL has the module at its lines, SWSM grants (SMBI clear, SWESMBI set), others read 0. */
enum { I2CCTL = 0x00028, SWSM = 0x10140, SWESMBI = 1 << 1, SCL_IN = 1, SCL_OUT = 2, SDA_IN = 4, SDA_OUT = 8 };

struct host {
    struct module module;
    uint32_t word, accesses, waited;
};

static bool scl(struct host *h) { return h->word & SCL_OUT; }

static bool sda(struct host *h) { return (h->word & SDA_OUT) && !pulls(&h->module); }

static uint32_t read_register(struct host *h, uint32_t reg) {
    if (reg == SWSM) return SWESMBI;
    if (reg != I2CCTL) return 0;
    return (h->word & ~(uint32_t)(SCL_IN | SDA_IN)) | (scl(h) ? SCL_IN : 0) | (sda(h) ? SDA_IN : 0);
}

/* Where both lines move, SCL moves first and sees the old SDA. */
static void write_register(struct host *h, uint32_t reg, uint32_t value) {
    if (reg != I2CCTL) return;
    bool scl_before = scl(h), sda_before = sda(h);
    h->word = value;
    bool now = sda(h);
    if (scl(h) && !scl_before) rises(&h->module, sda_before);
    if (!scl(h) && scl_before) falls(&h->module);
    if (scl(h) && sda_before && !now) enter(&h->module, ADDRESS);
    if (scl(h) && !sda_before && now) enter(&h->module, IDLE);
}

/* The loop of a host: each access that a block names is made, and its answer handed in with the block's state. */
static struct sulfryk_next run(struct host *h, struct sulfryk_block block) {
    for (;; h->accesses++) {
        struct sulfryk_next next = block.next;
        switch (next.kind) {
        case 0: block = sulfryk_step(block.state, 0, read_register(h, next.first)); break;
        case 1:
            write_register(h, next.first, next.second);
            block = sulfryk_step(block.state, 1, 0);
            break;
        case 2:
            h->waited += next.first;
            block = sulfryk_step(block.state, 1, 0);
            break;
        default: return next;
        }
    }
}

/* 10GBASE-SR and 1000BASE-SX, acknowledging a byte that was written to it; the next one would go to byte 20. */
static struct module made(void) {
    struct module m = {.offsets = {0x20, 0}, .stage = ACK_WRITE, .noted = true};
    m.pages[0][0] = 0x03;
    m.pages[0][3] = 0x10;
    m.pages[0][6] = 0x01;
    return m;
}

static const char *const KINDS[] = {"DaCu", "DaActiveLimiting", "SrLr", "Cu1g", "Sx1g",
                                    "Lx1g", "Bx10g", "Bx1g", "Unknown", "NotPresent"};

int main(void) {
    struct module before = made();
    struct host h = {.module = before, .word = SCL_OUT | SDA_OUT};
    struct sulfryk_next end = run(&h, sulfryk_identify_open(0, 0x10fb, 0, 0));
    if (end.kind != 3) {
        printf("%s with %u\n", end.kind == 4 ? "failed" : "refused", end.first);
        return 1;
    }
    printf("kind        %s\n", KINDS[end.first]);
    printf("multispeed  %s\n", end.second ? "yes" : "no");
    printf("identifier  %02x\n", end.third);
    printf("comp_10g    %02x\n", end.fourth);
    printf("comp_1g     %02x\n", end.fifth);
    printf("cable       %02x\n", end.sixth);
    printf("transfers   %u\n", end.transfers);
    printf("slowest     sample %u of 10\n", end.slowest);
    printf("accesses    %u, waits of %u us\n", h.accesses, h.waited);
    bool same = memcmp(h.module.pages, before.pages, sizeof before.pages) == 0;
    printf("module      %s, bytes %s\n", h.module.stage == IDLE ? "idle" : "not idle", same ? "same" : "changed");
    return 0;
}
