/* A preset is sent to two encoders by command: CMD 2 for the IDs 0, 1 and 2, of which the chain has no ID 2. Both acknowledge it and
 * execute it. Then CMD 2 for ID 1 is acknowledged and withheld, and of a last one for ID 0 only the header is sent. What was recorded is
 * read back as a list and printed, and the counts that the chain keeps: the list counts the same. One call is refused. Every answer is
 * checked: the program ends with 1 where one is not as expected. */
#include "example.h"

enum { SLAVES = 2, REGISTERS = 128 * SLAVES, COUNTS = BISS_CMDS * SLAVES };
enum { PRESET = 2, COMMAND = 39, COLUMNS = 2 * COMMAND + BISS_COMMAND_HEADER + BISS_REST };

/* IDS has ID 0 as its highest bit. */
static uint8_t named(unsigned id) { return (uint8_t)(0x80 >> id); }

/* The three commands, and the zeros that end the last one. */
static void build_commands(uint8_t *cdm) {
    uint8_t last[COMMAND];
    uint8_t three = named(0) | named(1) | named(2);
    expect(biss_build_command(three, PRESET, true, cdm, COMMAND) == COMMAND, "a command has 39 columns");
    expect(biss_build_command(named(1), PRESET, false, cdm + COMMAND, COMMAND) == COMMAND, "executed or not");
    expect(biss_build_command(named(0), PRESET, true, last, COMMAND) == COMMAND, "and so has the last");
    memcpy(cdm + 2 * COMMAND, last, BISS_COMMAND_HEADER);
    expect(biss_build_command(0, PRESET, true, last, COMMAND) == 32, "a broadcast has 32");
}

/* Counts the executions of a list for each slave: a broadcast for all, an addressed command for those that it names. */
static void count_listed(const uint8_t *list, size_t entries, uint32_t *counts) {
    for (const uint8_t *entry = list; entry < list + BISS_ENTRY_BYTES * entries; entry += BISS_ENTRY_BYTES) {
        for (unsigned id = 0; entry[BISS_KIND] == 17 && id < SLAVES; id++) {
            if (entry[BISS_VALUE] == 0 || (entry[BISS_VALUE] & named(id))) counts[BISS_CMDS * id + entry[BISS_ID]]++;
        }
    }
}

/* Eleven entries: of each frame the locks, the command's header and its end, and of two of them what became of the command. */
static void list_commands(const uint8_t *cdm, const uint8_t *cds, const uint32_t *counts) {
    size_t bytes = 11 * BISS_ENTRY_BYTES;
    uint8_t *list = lent(bytes, 0);
    expect(biss_read(cdm, COLUMNS, cds, COLUMNS, 0, list, bytes) == 11, "the list has eleven entries");
    const uint8_t *executed = list + 2 * BISS_ENTRY_BYTES, *withheld = list + 6 * BISS_ENTRY_BYTES;
    expect(executed[BISS_KIND] == 17 && executed[BISS_ID] == PRESET && executed[BISS_VALUE] == 0xE0, "the first is executed");
    expect(withheld[BISS_KIND] == 18 && withheld[BISS_ID] == PRESET && withheld[BISS_VALUE] == 0x40, "the second is withheld");
    uint32_t listed[COUNTS] = {0};
    count_listed(list, 11, listed);
    expect(memcmp(listed, counts, sizeof listed) == 0, "the listed executions are the chain's counts");
    print_list(list, 11);
    free(list);
}

int main(void) {
    uint8_t *cdm = lent(COLUMNS, 0), *cds = lent(COLUMNS, 0), *registers = lent(REGISTERS, 0), *rights = lent(REGISTERS, 3);
    uint8_t *banks = lent(SLAVES, 1), *waits = lent(SLAVES, 0);
    uint32_t *counts = (uint32_t *)(void *)lent(COUNTS * sizeof *counts, 7);
    build_commands(cdm);
    uint64_t answer = biss_run(SLAVES, banks, SLAVES, rights, REGISTERS, waits, SLAVES, registers, REGISTERS, counts, COUNTS, cdm, COLUMNS,
                               cds, COLUMNS);
    expect(answer == COLUMNS, "the chain answers every column");
    expect(cds[30] == 1 && cds[31] == 1 && cds[32] == 0, "ID 0 and ID 1 acknowledge, and ID 2 is not there");
    list_commands(cdm, cds, counts);
    for (unsigned id = 0; id < SLAVES; id++) {
        const uint32_t *of = counts + BISS_CMDS * id;
        printf("ID %u executed CMD 0 to 3: %u %u %u %u\n", id, (unsigned)of[0], (unsigned)of[1], (unsigned)of[2], (unsigned)of[3]);
    }

    answer = biss_run(SLAVES, banks, SLAVES, rights, REGISTERS, waits, SLAVES, registers, REGISTERS, counts, COUNTS - 1, cdm, COLUMNS, cds,
                      COLUMNS);
    expect(biss_is_refused(answer) && biss_refusal(answer) == 21, "a count too few is refusal 21");
    expect(counts[PRESET] == 1 && counts[BISS_CMDS + PRESET] == 1, "a refused call changes no count");
    printf("seven counts for two slaves: refusal %u\n", biss_refusal(answer));
    free(cdm), free(cds), free(registers), free(rights), free(banks), free(waits), free(counts);
    return 0;
}
