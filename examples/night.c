/* A night's recording, longer than a row may be, and a table of three stretches of it that are read in one call: the first hour whole, an
 * hour in the night without its first frame, and the last hour, opened at its last frame. In each hour a master chooses bank 3 of the only
 * slave, writes 5B to address 10 (hexadecimal) there and reads it back. One table is refused. Every answer is checked: the program ends
 * with 1 where one is not as expected. */
#include "example.h"

enum { BANKS = 4, REGISTERS = 64 * (BANKS + 1), FRAME = 46, HOUR = 3 * FRAME, HOURS = 40, NIGHT = HOURS * HOUR };

/* The first hour is built and run; all others are the same. */
static void record(uint8_t *cdm, uint8_t *cds) {
    const uint8_t bank = 3, byte = 0x5B, banks = BANKS, wait = 0;
    uint8_t *registers = lent(REGISTERS, 0), *rights = lent(REGISTERS, 3);
    uint32_t counts[BISS_CMDS];
    expect(biss_build_write(0, BISS_BANK_REGISTER, &bank, 1, 0, cdm, FRAME) == FRAME, "the choice is one frame");
    expect(biss_build_write(0, 0x10, &byte, 1, 0, cdm + FRAME, FRAME) == FRAME, "and so is the write");
    expect(biss_build_read(0, 0x10, 1, 0, cdm + 2 * FRAME, FRAME) == FRAME, "and the read");
    uint64_t answered =
        biss_run(1, &banks, 1, rights, REGISTERS, &wait, 1, registers, REGISTERS, counts, BISS_CMDS, cdm, HOUR, cds, HOUR);
    expect(answered == HOUR, "the chain answers every column");
    for (size_t hour = 1; hour < HOURS; hour++) {
        memcpy(cdm + hour * HOUR, cdm, HOUR);
        memcpy(cds + hour * HOUR, cds, HOUR);
    }
    free(registers), free(rights);
}

/* The lists stand one behind the other; an entry's columns count from its own stretch. */
static void print_lists(const struct biss_job *jobs, const size_t *counts, size_t job_count, const uint8_t *lists) {
    for (size_t i = 0; i < job_count; i++) {
        printf("columns %zu to %zu, opened at %zu:\n", jobs[i].first, jobs[i].first + jobs[i].length - 1, jobs[i].first + jobs[i].opening);
        print_list(lists, counts[i]);
        lists += BISS_ENTRY_BYTES * counts[i];
    }
}

int main(void) {
    uint8_t *cdm = lent(NIGHT, 0), *cds = lent(NIGHT, 0);
    record(cdm, cds);
    struct biss_job jobs[3] = {{0, HOUR, 0}, {20 * HOUR + FRAME, 2 * FRAME, 0}, {NIGHT - HOUR, HOUR, 2 * FRAME}};
    /* Room for an entry in every column is always enough. */
    size_t room = BISS_ENTRY_BYTES * (jobs[0].length + jobs[1].length + jobs[2].length);
    uint8_t *lists = lent(room, 7);
    size_t *counts = (size_t *)(void *)lent(3 * sizeof *counts, 0);
    expect(biss_refusal(biss_read(cdm, NIGHT, cds, NIGHT, 0, lists, room)) == 5, "a whole night is too long for one row");

    jobs[2].first++;
    uint64_t answer = biss_read_all(cdm, NIGHT, cds, NIGHT, jobs, 3, lists, room, counts, 3);
    expect(biss_is_refused(answer) && biss_refusal(answer) == 20, "a stretch that ends past the night is refusal 20");
    expect(biss_tells_job(answer) && biss_job(answer) == 2, "and its job is told");
    expect(biss_line(answer) == 0 && biss_byte(answer) == 0, "it tells no line");
    expect(lists[0] == 7 && lists[room - 1] == 7 && counts[0] == 0, "a refused call changes nothing");
    printf("a stretch one column too far: refusal %u, job %zu\n", biss_refusal(answer), biss_job(answer));

    jobs[2].first--;
    answer = biss_read_all(cdm, NIGHT, cds, NIGHT, jobs, 3, lists, room, counts, 3);
    expect(answer == 8 + 5 + 2 && !biss_tells_job(answer), "fifteen entries");
    expect(counts[0] == 8 && counts[1] == 5 && counts[2] == 2, "of three lists");
    expect(lists[BISS_ENTRY_BYTES * 15] == 7, "bytes past them stay");
    print_lists(jobs, counts, 3, lists);

    uint64_t single = biss_read(cdm + jobs[1].first, jobs[1].length, cds + jobs[1].first, jobs[1].length, 0, lists, room);
    expect(single == counts[1], "a job's list is that of a single call on its stretch");
    free(cdm), free(cds), free(lists), free(counts);
    return 0;
}
