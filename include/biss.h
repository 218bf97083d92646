/* The jobs of the library biss: build, run, read and carry (docs/ and README.md tell what they are).
 *
 * Every call judges all that it is given before it writes. It answers how many columns, bytes or entries it made; or, with the bit
 * BISS_REFUSED set, a refusal, and then no lent byte has changed. biss_is_refused, biss_refusal, biss_line, biss_byte and biss_job below
 * read an answer. Of its refusals the first that holds is told, in the order that the call names:
 *
 *    1  more than 16 slaves                           12  list length no multiple of 9, or a kind outside 1 to 20
 *    2  registers not 64 x (banks + 1) bytes a slave  13  a wrong byte in the header line
 *    3  rights not 64 x (banks + 1) bytes a slave     14  digit not 0 or 1
 *    4  a right above 3                               15  tab missing
 *    5  a row of more than 4,096 columns              16  line feed missing
 *    6  two rows of different length                  17  the text ends inside a line
 *    7  a row byte that is not 0 or 1                 18  waits not one byte per slave
 *    8  opening column greater than the length        19  banks not one number of 1 to 8 per slave
 *    9  the result needs more room than was lent      20  a stretch outside the rows
 *   10  id over 7, address over 127, CMD over 3, count 0 or over 64, or address + count over 128
 *   21  counts not four per slave
 *   32  counts not one per job
 *
 * 13 to 17 say what is wrong with a text at its first bad byte, 14 to 16 below the header line: they tell the line, counted from 1, and
 * the byte in that line, counted from 0. 17 tells the byte just past the text's end; an empty text is 13. A line is told whole below
 * 2^53, that is for every text of fewer than 2^55 bytes; for any beyond the highest line that has room is told. 11 is given no more.
 *
 * 20, and of a table of jobs 5, 7 and 8 too, tell the job that has it, counted from 0, as it stands in the table: jobs[biss_job(answer)].
 *
 * A buffer is a pointer and its length in bytes; a table of jobs and counts are told by how many there are. It has to be as long as is
 * said, and a buffer that a call writes must not overlap another of the same call: this is all that a caller has to see to, for C cannot
 * check it. A pointer of length 0 is not followed.
 * A row is one byte a column, 0 or 1; registers and rights are 64 x (banks + 1) bytes a slave, banks and waits one, the far slave first;
 * an entry is its kind, column, start, ID, address, bank and value: one byte each, column and start two, high byte first. Texts are not
 * ended by a zero byte.
 *
 * A slave has 1 to 8 banks of 64 registers, numbered from 0, and 64 fixed registers. In the buffers its banks stand in order and then the
 * fixed ones, rights alike, so that a slave of one bank has its 128 registers at their addresses. The addresses 0 to 63 show the bank
 * whose number the bank register holds, the first fixed one (BISS_BANK_REGISTER), and 64 to 127 the fixed ones. While it holds a number
 * that is none of the slave's banks, every access at 0 to 63 is refused. A write to it counts from the next byte of an access on. A slave
 * of one bank refuses to read and to write it, whatever the right there; as it was lent it names the bank all the same: 0 shows the bank,
 * and any other number shuts 0 to 63 for the whole run.
 *
 * A slave's waiting number, 0 to 255, says how often it answers 0 to S = 1 before it confirms S with 1, while the master repeats S: at
 * every byte of a read, and at every byte of a write but the first. A master that sends 0 instead gives up, and the access has ended.
 *
 * A command is its header, with IDS and CMD, then S = 1 and at last EX. IDS names IDs: its highest bit, 0x80, is ID 0 and its lowest ID 7;
 * 0 is a broadcast. The eight columns from S on are the acknowledgements of ID 0 to 7, and EX stands in the ninth: a slave that is named
 * answers 1 in its own column, and what the master sends between S and EX is not judged. A broadcast is not acknowledged, and its EX stands
 * right behind S. With EX = 1 every named slave, of a broadcast every slave, numbered or not, executes the command; with EX = 0 nobody
 * does, and with S = 0 the command has ended. An executed command is counted, and changes nothing else in the chain. */
#ifndef BISS_H
#define BISS_H

#include <stdbool.h>
#include <stddef.h>
#include <stdint.h>

/* The bits of a refusal: 63 is BISS_REFUSED, 5 to 0 are the number. Where 62, BISS_OF_JOB, is set, 61 to 6 are the job; else 61 to 9 are
 * the line and 8 to 6 the byte. */
#define BISS_REFUSED (UINT64_C(1) << 63)
#define BISS_OF_JOB (UINT64_C(1) << 62)

/* Whether an answer is a refusal, and of a refusal whether it tells a job. */
static inline int biss_is_refused(uint64_t answer) { return (answer & BISS_REFUSED) != 0; }
static inline int biss_tells_job(uint64_t answer) { return biss_is_refused(answer) && (answer & BISS_OF_JOB) != 0; }

/* Of a refusal its number, for 13 to 17 its line and its byte, and its job where biss_tells_job; 0 where there is none to tell. Lines count
 * from 1, but jobs from 0: whether there is a job, biss_tells_job says alone. */
static inline unsigned biss_refusal(uint64_t answer) { return biss_is_refused(answer) ? (unsigned)(answer & 0x3F) : 0; }
static inline uint64_t biss_line(uint64_t answer) {
    return biss_is_refused(answer) && !biss_tells_job(answer) ? (answer >> 9) & ((UINT64_C(1) << 53) - 1) : 0;
}
static inline unsigned biss_byte(uint64_t answer) { return biss_line(answer) != 0 ? (unsigned)(answer >> 6) & 7 : 0; }
static inline size_t biss_job(uint64_t answer) {
    return biss_tells_job(answer) ? (size_t)(answer >> 6 & ((UINT64_C(1) << 56) - 1)) : 0;
}

/* Where each field of an entry begins, and how many bytes an entry has. */
enum {
    BISS_KIND = 0,
    BISS_COLUMN = 1,
    BISS_START = 3,
    BISS_ID = 5,
    BISS_ADDRESS = 6,
    BISS_BANK = 7,
    BISS_VALUE = 8,
    BISS_ENTRY_BYTES = 9,
};

/* The column of an entry, and that of the start bit S of its frame; both count from the start of the row, of a table's job from that of its
 * stretch, wherever the reader opened. */
static inline size_t biss_column(const uint8_t *entry) { return (size_t)entry[BISS_COLUMN] << 8 | entry[BISS_COLUMN + 1]; }
static inline size_t biss_start(const uint8_t *entry) { return (size_t)entry[BISS_START] << 8 | entry[BISS_START + 1]; }

/* An entry whose kind names an address names a bank too where the address is 0 to 63: the value that was last written to the bank
 * register of its ID before it in the list (kind 11 alone, and not 13 or 14), or BISS_NO_BANK_YET where the list has no such write before
 * it. Elsewhere the byte is 0, and `-` in a text. A bank register that holds 255 looks the same as none written, and is no bank either. */
enum { BISS_BANK_REGISTER = 64, BISS_NO_BANK_YET = 255 };

/* What a list has of a command. The ID byte of these entries is CMD, and they name neither address nor bank. Kind 4, `command`, is its
 * header; its value is IDS. Then, if S is 1:
 *   17  executed  EX = 1 of a broadcast, or of a command that was acknowledged by every named ID that is locked and by nobody else. The
 *                 value is IDS; an ID that it names and that is not locked was not there
 *   18  withheld  EX = 0: nobody executes the command, whatever was answered. The value is IDS
 *   19  ackodd    in the column of the last acknowledgement: a named ID that is locked stayed silent, or one spoke that is not named or not
 *                 locked. The value is the eight answers, that of ID 0 highest; EX is still to come
 *   20  forced    EX = 1 behind an `ackodd`: the execution was sent, but who executed it the answers do not say. The value is IDS
 * Of rows from power-on that a chain answered itself, there is never a 19 or 20, and the entries 17, counted once for every slave that they
 * are for, are the counts that biss_run leaves. */

/* How many counts of executions a slave has: one for each CMD, 0 to 3. */
enum { BISS_CMDS = 4 };

/* The master zeros that stand before every start bit. A reader that opens at biss_start(entry) - BISS_REST lists that entry again, and
 * just what the first list has from the entry's frame on: byte for byte, but for the bank. The bank is the same too once the bank register
 * of that ID has been written in the new list; before it is BISS_NO_BANK_YET. */
enum { BISS_REST = 14 };

/* The bytes of the header of a list's text, and the most that the line of an entry has. */
enum { BISS_LIST_HEADER_BYTES = 41, BISS_LIST_LINE_BYTES = 36 };

/* Builds the master row of a read of `count` registers of the slave `id`, from `address` on, into the first bytes of `out`. S is repeated
 * `wait` times at every byte, for a slave with this waiting number: 32 columns, and 14 + wait a byte. Refusals 10, 5, 9. */
uint64_t biss_build_read(uint8_t id, uint8_t address, size_t count, uint8_t wait, uint8_t *out, size_t out_length);

/* Builds the master row of a write of `bytes` to the registers of the slave `id`, from `address` on. S is repeated `wait` times at every
 * byte but the first: 32 columns, 14 for the first byte and 14 + wait for each other. Refusals 10, 5, 9. */
uint64_t biss_build_write(uint8_t id, uint8_t address, const uint8_t *bytes, size_t bytes_length, uint8_t wait, uint8_t *out,
                          size_t out_length);

/* Builds the master row of the command `cmd` to the slaves whose bits are set in `ids`: the highest bit, 0x80, is the slave with ID 0,
 * the lowest the one with ID 7. With `ids` 0 it is a broadcast, to every slave. The row goes on to EX, which is 1 if `execute` and else 0:
 * 39 columns, of a broadcast 32. Its first BISS_COMMAND_HEADER columns are the header alone, for a master that stops there. Refusals 10,
 * 9. */
uint64_t biss_build_command(uint8_t ids, uint8_t cmd, bool execute, uint8_t *out, size_t out_length);
enum { BISS_COMMAND_HEADER = 30 };

/* Runs a chain of slaves from power-on over the master row `cdm`: `banks` says how many banks each has, `waits` its waiting number. The
 * answers go into `cds`, which is as long as `cdm`, and the registers are left as the chain leaves them. `counts` becomes how often each
 * slave executed each command in this run: BISS_CMDS a slave, CMD 0 to 3, the far slave first; what stood there before does not count.
 * `count_places` says how many counts there is room for, and must be BISS_CMDS x slaves, else it is refusal 21. Refusals 1, 19, 2, 3, 4,
 * 18, 21, 5, 6, 7; none of them changes a byte or a count. */
uint64_t biss_run(size_t slaves, const uint8_t *banks, size_t banks_length, const uint8_t *rights, size_t rights_length,
                  const uint8_t *waits, size_t waits_length, uint8_t *registers, size_t registers_length, uint32_t *counts,
                  size_t count_places, const uint8_t *cdm, size_t cdm_length, uint8_t *cds, size_t cds_length);

/* Lists the entries that two recorded rows show to a reader that opens at the column `opening`, into the first bytes of `out`:
 * BISS_ENTRY_BYTES an entry. The reader knows no waiting numbers: it waits while the master repeats S, and lists a `mute` (kind 9) where
 * the master gives up after a 1 that was not confirmed, in the column of its 0. Refusals 5 to 9. */
uint64_t biss_read(const uint8_t *cdm, size_t cdm_length, const uint8_t *cds, size_t cds_length, size_t opening, uint8_t *out,
                   size_t out_length);

/* A job of a table: the stretch of a recording from the column `first` on that has `length` columns, and the column `opening` at which its
 * reader opens. That one counts from the stretch's first column: 0 opens where the stretch begins, and `length` lists nothing. */
struct biss_job {
    size_t first, length, opening;
};

/* Lists what each job of a table shows, in one call: `jobs` are stretches of one recording, whose rows may have more than 4,096 columns. A
 * job's list is the one that biss_read gives for its stretch alone, with `first` added to both pointers and `length` for both lengths:
 * - columns and starts of its entries count from the stretch's first column; add `first` for those of the recording;
 * - nothing before the stretch is known: the fourteen zeros before a frame have to lie in it, and the choice of a bank too, else its
 *   entries have BISS_NO_BANK_YET;
 * - stretches may overlap, repeat, be empty and come in any order, and no list hangs on another.
 *
 * The lists go one behind the other, in the order of the table, into the first bytes of `out`: BISS_ENTRY_BYTES an entry. counts[i] becomes
 * how many entries jobs[i] has, so that its list begins behind counts[0] + .. + counts[i - 1] entries. The answer is how many entries there
 * are in all; of a table without jobs it is 0. Bytes of `out` past the lists stay as they were.
 *
 * `count_places` says how many numbers `counts` has room for, and must be `job_count`. BISS_ENTRY_BYTES times the sum of all lengths is
 * always room enough for `out`; with so much each column is scanned once, with less the entries are counted before they are written.
 *
 * Refusals, in this order; none of them changes a byte of `out` or a count:
 *   32  count_places is not job_count
 *    6  the two rows have different lengths; they are not asked for 5
 *   20  tells the first job whose stretch is not inside the rows: first + length is more than their columns, or more than a size_t holds. A
 *       stretch that ends where the rows end is inside, and so is an empty one there. This is asked of all jobs before what follows.
 *    5, 7, 8  the first job that has one of them, and of that job the first: its length is over 4,096; a byte of its stretch, in either
 *       row, is not 0 or 1 (bytes in no job's stretch may be anything); its opening is greater than its length
 *    9  the lists of all jobs together need more than `out_length` bytes */
uint64_t biss_read_all(const uint8_t *cdm, size_t cdm_length, const uint8_t *cds, size_t cds_length, const struct biss_job *jobs,
                       size_t job_count, uint8_t *out, size_t out_length, size_t *counts, size_t count_places);

/* Prints two rows as text, a header and then one column a line, into the first bytes of `out`: 8 bytes, and 4 a column. Refusals 5, 6,
 * 7, 9. */
uint64_t biss_rows_to_text(const uint8_t *cdm, size_t cdm_length, const uint8_t *cds, size_t cds_length, uint8_t *out,
                           size_t out_length);

/* Takes the two rows of a text, as biss_rows_to_text prints it, into the first bytes of `cdm` and `cds`, and answers how many columns
 * they have. Refusals 13 to 17, 5, 9. */
uint64_t biss_text_to_rows(const uint8_t *text, size_t text_length, uint8_t *cdm, size_t cdm_length, uint8_t *cds,
                           size_t cds_length);

/* Prints a list, as biss_read makes it, as text into the first bytes of `out`: a header of BISS_LIST_HEADER_BYTES, and then an entry a
 * line, at most BISS_LIST_LINE_BYTES each, the kind by its name. Refusals 12, 9. */
uint64_t biss_list_to_text(const uint8_t *list, size_t list_length, uint8_t *out, size_t out_length);

/* The channel place of the process data of the slave `id` in a chain of so many slaves: 1 is the slave next to the master, and so the one
 * with the highest ID; 0 where the chain has no slave of that ID. Refusals 1, 10. */
uint64_t biss_channel_of(uint8_t id, size_t slaves);

#endif
