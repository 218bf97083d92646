/* A master chooses bank 3 of the only slave of a chain, which has four, and then writes 5B to address 10 (both hexadecimal) of that bank.
 * What was recorded is read back as a list and printed; opened late, at the frame of that write, it no longer tells the bank. The rows are
 * carried to text and back. One text and three calls are refused. Then channel places in a chain of three. Every answer is checked: the
 * program ends with 1 where one is not as expected. */
#include "example.h"

/* The slave's banks, one after the other, and then its fixed registers. */
enum { BANKS = 4, REGISTERS = 64 * (BANKS + 1) };

/* Five entries: the locks, the choice of the bank and the end of that frame; the locks, and the byte written in the bank. A reader that
 * opens at the frame of the write has not seen the choice. */
static void list_both(const uint8_t *cdm, const uint8_t *cds, size_t columns) {
    size_t bytes = 5 * BISS_ENTRY_BYTES;
    uint8_t *list = lent(bytes, 0), *late = lent(bytes, 0);
    expect(biss_read(cdm, columns, cds, columns, 0, list, bytes) == 5, "the list has five entries");
    const uint8_t *written = list + 4 * BISS_ENTRY_BYTES;
    expect(written[BISS_KIND] == 11 && written[BISS_ADDRESS] == 0x10 && written[BISS_VALUE] == 0x5B, "the last is the write");
    expect(written[BISS_BANK] == 3, "and it is in bank 3");
    print_list(list, 5);
    size_t opening = biss_start(written) - BISS_REST;
    expect(biss_read(cdm, columns, cds, columns, opening, late, bytes) == 2, "the frame of the write has two entries");
    uint8_t *again = late + BISS_ENTRY_BYTES;
    expect(again[BISS_BANK] == BISS_NO_BANK_YET, "its bank was chosen before the opening");
    printf("written in column %zu; opened again at %zu, behind the choice of the bank:\n", biss_column(written), opening);
    print_list(late, 2);
    again[BISS_BANK] = written[BISS_BANK];
    expect(memcmp(again, written, BISS_ENTRY_BYTES) == 0, "in all but the bank it is the same entry");
    expect(biss_read(cdm, columns, cds, columns, opening + 1, late, bytes) == 0, "a reader let in one column later lists nothing");
    free(list), free(late);
}

/* Rows go to text and back unchanged; a text whose last column has a 2 is refusal 14, with the 2's line and byte. */
static void carry_rows(const uint8_t *cdm, const uint8_t *cds, size_t columns) {
    size_t bytes = 8 + 4 * columns;
    uint8_t *text = lent(bytes, 0), *cdm_back = lent(columns, 7), *cds_back = lent(columns, 7);
    expect(biss_rows_to_text(cdm, columns, cds, columns, text, bytes) == bytes, "the rows are printed where they just fit");
    text[bytes - 2] = '2';
    uint64_t answer = biss_text_to_rows(text, bytes, cdm_back, columns, cds_back, columns);
    expect(biss_is_refused(answer) && biss_refusal(answer) == 14, "a 2 is no bit");
    expect(biss_line(answer) == columns + 1 && biss_byte(answer) == 2, "it is the second digit of the last line");
    expect(!biss_tells_job(answer) && biss_job(answer) == 0, "and it tells no job");
    expect(cdm_back[0] == 7 && cds_back[columns - 1] == 7, "a refused text changes nothing");
    printf("a text with a 2: refusal %u, line %u, byte %u\n", biss_refusal(answer), (unsigned)biss_line(answer), biss_byte(answer));
    text[bytes - 2] = '0' + cds[columns - 1];
    answer = biss_text_to_rows(text, bytes, cdm_back, columns, cds_back, columns);
    expect(answer == columns && !biss_is_refused(answer), "the text is taken");
    expect(biss_refusal(answer) == 0 && biss_line(answer) == 0 && biss_byte(answer) == 0, "and so tells no refusal");
    expect(memcmp(cdm, cdm_back, columns) == 0 && memcmp(cds, cds_back, columns) == 0, "the rows are the same");
    free(text), free(cdm_back), free(cds_back);
}

/* Two waiting numbers for one slave: refusal 18. A right above 3, the last of the chain's, goes before it: refusal 4. Nine banks go before
 * both: refusal 19. Nothing lent has changed. */
static void refused_runs(const uint8_t *cdm, size_t columns, uint8_t *registers, uint8_t *rights) {
    uint8_t *cds = lent(columns, 7), *banks = lent(1, BANKS), *waits = lent(2, 0);
    uint32_t counts[BISS_CMDS] = {7, 7, 7, 7};
    uint64_t answer =
        biss_run(1, banks, 1, rights, REGISTERS, waits, 2, registers, REGISTERS, counts, BISS_CMDS, cdm, columns, cds, columns);
    expect(biss_is_refused(answer) && biss_refusal(answer) == 18, "two waits for one slave are refusal 18");
    printf("two waits for one slave: refusal %u\n", biss_refusal(answer));
    rights[REGISTERS - 1] = 4;
    answer = biss_run(1, banks, 1, rights, REGISTERS, waits, 2, registers, REGISTERS, counts, BISS_CMDS, cdm, columns, cds, columns);
    expect(biss_is_refused(answer) && biss_refusal(answer) == 4, "a right above 3 is refusal 4");
    printf("a right above 3: refusal %u\n", biss_refusal(answer));
    banks[0] = 9;
    answer = biss_run(1, banks, 1, rights, REGISTERS, waits, 2, registers, REGISTERS, counts, BISS_CMDS, cdm, columns, cds, columns);
    expect(biss_is_refused(answer) && biss_refusal(answer) == 19, "nine banks are refusal 19");
    expect(cds[0] == 7 && cds[columns - 1] == 7 && registers[64 * 3 + 0x10] == 0x5B && counts[0] == 7,
           "a refused call changes nothing");
    printf("nine banks: refusal %u\n", biss_refusal(answer));
    free(cds), free(banks), free(waits);
}

int main(void) {
    const uint8_t bank = 3, byte = 0x5B;
    uint8_t *row = lent(4096, 0);
    uint64_t choice = biss_build_write(0, BISS_BANK_REGISTER, &bank, 1, 0, row, 4096);
    uint64_t write = biss_build_write(0, 0x10, &byte, 1, 0, row, 4096);
    expect(!biss_is_refused(choice) && !biss_is_refused(write), "both writes are built");
    size_t columns = choice + write;
    uint8_t *cdm = lent(columns, 0), *cds = lent(columns, 0), *registers = lent(REGISTERS, 0), *rights = lent(REGISTERS, 3);
    uint8_t *banks = lent(1, BANKS), *waits = lent(1, 0);
    expect(biss_build_write(0, BISS_BANK_REGISTER, &bank, 1, 0, cdm, choice) == choice, "the choice fits where it just fits");
    expect(biss_build_write(0, 0x10, &byte, 1, 0, cdm + choice, write) == write, "and so does the write behind it");
    uint32_t counts[BISS_CMDS] = {7, 7, 7, 7};
    uint64_t answered =
        biss_run(1, banks, 1, rights, REGISTERS, waits, 1, registers, REGISTERS, counts, BISS_CMDS, cdm, columns, cds, columns);
    expect(answered == columns, "the chain answers every column");
    expect(counts[0] == 0 && counts[BISS_CMDS - 1] == 0, "and no command was executed");
    expect(registers[64 * 3 + 0x10] == 0x5B && registers[64 * BANKS] == 3, "bank 3 and the bank register hold what was written");
    list_both(cdm, cds, columns);
    carry_rows(cdm, cds, columns);
    refused_runs(cdm, columns, registers, rights);
    answered = biss_run(0, NULL, 0, NULL, 0, NULL, 0, NULL, 0, NULL, 0, cdm, columns, cds, columns);
    expect(answered == columns, "a chain of no slaves is a chain");
    expect(biss_channel_of(0, 3) == 3 && biss_channel_of(2, 3) == 1, "the far slave of three has the third channel");
    expect(biss_channel_of(3, 3) == 0 && biss_refusal(biss_channel_of(8, 3)) == 10, "no slave has ID 3 there, and no chain ID 8");
    free(row), free(cdm), free(cds), free(registers), free(rights), free(banks), free(waits);
    return 0;
}
