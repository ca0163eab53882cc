/* What a driver does in the order of Linux's: it probes, opens, sends, receives by interrupt, tries once alone,
 * receives its own message, listens only, goes bus-off and restarts. After each stage the bits and counters are
 * compared with those that the data sheet and ISO 11898-1 name. Each that differs is printed, and the status is 1
 * then. */
#include <stdio.h>
#include <string.h>

#include "board.h"
#include "expect.h"
#include "registers.h"

enum { VERSION = 3, BITS = 20000, OTHER = 1, MOST_INTERRUPTS = 20 };
enum { ALL = IR_RI | IR_TI | IR_EI | IR_DOI | IR_EPI | IR_ALI | IR_BEI };

/* What the driver keeps, as its network device would. */
struct device {
    struct board board;
    struct message received;
    unsigned rx_packets, tx_packets, tx_errors, bus_errors, arbitration_lost, warnings, passives, bus_offs, backs;
};

static uint8_t reg(const struct device *device, uint8_t address)
{
    return board_read(&device->board, address);
}

static void set_reg(const struct device *device, uint8_t address, uint8_t value)
{
    board_write(&device->board, address, value);
}

/* Reset mode, with the interrupts off. */
static void into_reset(const struct device *device)
{
    set_reg(device, IER, 0x00);
    for (int i = 0; i < 100 && !(reg(device, MOD) & MOD_RM); i++)
        set_reg(device, MOD, MOD_RM);
}

/* Out of reset mode, with these further modes and all interrupts. */
static void into_normal(const struct device *device, uint8_t modes)
{
    set_reg(device, IER, ALL);
    set_reg(device, MOD, MOD_RM | modes);
    for (int i = 0; i < 100 && (reg(device, MOD) & MOD_RM); i++)
        set_reg(device, MOD, modes);
}

/* Probing: a chip is there where CDR keeps its PeliCAN bit. */
static int probe(struct device *device, sja *session, uint32_t node)
{
    memset(device, 0, sizeof *device);
    device->board = (struct board){ .session = session, .node = node };
    set_reg(device, MOD, MOD_RM);
    set_reg(device, CDR, 0x80);
    return (reg(device, CDR) & 0x80) != 0;
}

/* Opening: all pass, the bit timing, the output, the captures read away, the counters 0. */
static void open_device(const struct device *device, uint8_t modes)
{
    into_reset(device);
    set_reg(device, CDR, 0x80);
    for (uint8_t i = 0; i < 4; i++) {
        set_reg(device, (uint8_t)(ACR + i), 0x00);
        set_reg(device, (uint8_t)(AMR + i), 0xff);
    }
    set_reg(device, OCR, 0x1a);
    set_reg(device, BTR0, 0x00);
    set_reg(device, BTR1, 0x1c);
    reg(device, ECC);
    reg(device, ALC);
    reg(device, IR);
    into_normal(device, modes);
}

/* One interrupt's worth of IR, in the order of Linux's driver: TI, RI, then the errors. */
static void handle(struct device *device, uint8_t pending)
{
    uint8_t status = reg(device, SR);

    if (pending & IR_TI) {
        if (status & SR_TCS)
            device->tx_packets++;
        else
            device->tx_errors++;
    }
    while ((pending & IR_RI) && (status & SR_RBS)) {
        board_take(&device->board, &device->received);
        device->rx_packets++;
        status = reg(device, SR);
    }
    if (pending & IR_DOI)
        set_reg(device, CMR, CMR_CDO);
    if (pending & IR_EI) {
        device->warnings += (status & SR_ES) != 0;
        device->bus_offs += (status & SR_BS) && (reg(device, MOD) & MOD_RM);
        device->backs += !(status & (SR_ES | SR_BS));
    }
    if (pending & IR_BEI) {
        device->bus_errors++;
        reg(device, ECC);
    }
    device->passives += (pending & IR_EPI) != 0;
    if (pending & IR_ALI) {
        device->arbitration_lost++;
        reg(device, ALC);
    }
}

/* Handles interrupts until none is pending. */
static void serve(struct device *device)
{
    for (int i = 0; i < MOST_INTERRUPTS; i++) {
        uint8_t pending = reg(device, IR);

        if (pending == 0)
            return;
        handle(device, pending);
    }
}

/* Runs bits and handles each interrupt as it comes, and first one that is pending already. */
static void run(struct device *device, uint32_t bits)
{
    uint64_t done;

    do {
        serve(device);
        done = board_done("bits", sja_bits(device->board.session, bits, 1u << device->board.node));
        bits -= (uint32_t)done;
    } while (done > 0);
    serve(device);
}

static void transmit(const struct device *device, const struct message *message, uint8_t command)
{
    board_put(&device->board, message);
    set_reg(device, CMR, command);
}

/* The interrupt line, as the driver's processor sees it. */
static unsigned line(const struct device *device)
{
    return (unsigned)board_done("irq", sja_irq(device->board.session, device->board.node));
}

static void stage(const char *name)
{
    printf("%s\n", name);
}

int main(void)
{
    static const struct message message = { .id = 0x321, .length = 4, .data = { 0xDE, 0xAD, 0xBE, 0xEF } };
    struct device device, other;
    unsigned errors;
    sja *session;

    board_done("new", sja_new(VERSION, BITS, 2, &session));

    stage("probe");
    expect("CDR is PeliCAN's", (unsigned)probe(&device, session, 0), 1);
    expect("the other's too", (unsigned)probe(&other, session, OTHER), 1);
    expect("SR after power-on", reg(&device, SR), 0x3c);

    stage("open");
    open_device(&device, 0);
    open_device(&other, 0);
    expect("MOD", reg(&device, MOD), 0x00);
    expect("EWLR", reg(&device, EWLR), 96);
    run(&device, 30);

    stage("send");
    transmit(&device, &message, CMR_TR);
    expect("TBS while it is sent", reg(&device, SR) & SR_TBS, 0);
    run(&device, 300);
    expect("sent", device.tx_packets, 1);
    expect("TBS and TCS", reg(&device, SR) & (SR_TBS | SR_TCS), SR_TBS | SR_TCS);

    stage("receive");
    expect("the other's line", line(&other), 1);
    run(&other, 1);
    expect("its line once it is served", line(&other), 0);
    expect("received", other.rx_packets, 1);
    expect("the same", (unsigned)message_equals(&other.received, &message), 1);
    expect("RMC", reg(&other, RMC), 0);

    stage("single shot");
    into_reset(&other);
    transmit(&device, &message, CMR_TR | CMR_AT);
    run(&device, 300);
    expect("failed", device.tx_errors, 1);
    expect("TBS without TCS", reg(&device, SR) & (SR_TBS | SR_TCS), SR_TBS);
    expect("TXERR of one ACK error", reg(&device, TXERR), 8);

    stage("own message");
    into_reset(&device);
    into_normal(&device, MOD_STM);
    run(&device, 30);
    transmit(&device, &message, CMR_SRR);
    run(&device, 300);
    expect("sent", device.tx_packets, 2);
    expect("received", device.rx_packets, 1);
    expect("the same", (unsigned)message_equals(&device.received, &message), 1);

    stage("listen only");
    open_device(&other, MOD_LOM);
    into_reset(&device);
    into_normal(&device, 0);
    run(&device, 30);
    transmit(&device, &message, CMR_TR | CMR_AT);
    run(&device, 300);
    expect("nobody acknowledges", device.tx_errors, 2);
    expect("the listener has no error", reg(&other, TXERR), 0);
    transmit(&other, &message, CMR_TR);
    expect("its request is ignored", reg(&other, SR) & SR_TBS, SR_TBS);

    stage("bus-off");
    into_reset(&other);
    open_device(&other, 0);
    run(&device, 30);
    errors = device.bus_errors;
    transmit(&device, &message, CMR_TR);
    for (int i = 0; i < 200 && device.bus_offs == 0; i++) {
        uint64_t now = board_done("now", sja_now(session));

        board_done("strike", sja_strike(session, 0, now + 20));
        run(&device, 50);
    }
    expect("bus-off once", device.bus_offs, 1);
    expect("bus errors came before", device.bus_errors > errors, 1);
    expect("error passive came before", device.passives > 0, 1);
    expect("MOD", reg(&device, MOD) & MOD_RM, MOD_RM);
    expect("SR", reg(&device, SR) & (SR_BS | SR_ES), SR_BS | SR_ES);
    expect("TXERR", reg(&device, TXERR), 127);

    stage("restart");
    expect("not back yet", device.backs, 0);
    into_normal(&device, 0);
    run(&device, 1600);
    expect("EI at its end", device.backs, 1);
    expect("BS and ES", reg(&device, SR) & (SR_BS | SR_ES), 0);
    expect("TXERR", reg(&device, TXERR), 0);
    device.tx_packets = 0;
    transmit(&device, &message, CMR_TR);
    run(&device, 300);
    expect("sent again", device.tx_packets, 1);
    expect("bus-off once all the while", device.bus_offs, 1);
    expect("back once all the while", device.backs, 1);

    printf("%u differences\n", differences);
    board_done("free", sja_free(session));
    return differences == 0 ? 0 : 1;
}
