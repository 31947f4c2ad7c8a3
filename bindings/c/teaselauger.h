/* Teaselauger for C: a model file's number, tables and sheet, requests, grants and finishes one at a time or as a list, and models as
 * numbers, to be drawn, changed and saved.
 *
 * Every call answers for every argument. A number of refusal is 1 to 19 (docs/REFUSALS.md lists them, docs/RULES.md says exactly
 * when each applies); 0 says that there is none. Of several that apply the first is answered, in one order in all calls: the reader's
 * number of the file (1 to 9, 17, 18); 11 for a buffer of the state, of the answer or of the answers that is too short, or for numbers that are
 * none of a state; 16 for too few words of a table that is to be made, or, reading a file or making a list by rows, of a row; then the own
 * numbers of a request, a grant or a finish, 11, by rows 16 for too few words of a row, 10, 19, 12, 13, 14, 15. Beside each call stands after
 * the word ORDER which of these it has. On a refusal every buffer holds what it held, but for the words of a row.
 *
 * There are two entries. The full one keeps a file's distance table, N x N words: 8 x N x N bytes, 32,768 at most. The entry by rows (the
 * calls whose names end in _by_rows) keeps none: it asks for 64 words, 512 bytes, and works out in them the distances from one segment
 * when they are needed, which takes time (bench/requests.rs measures it). Numbers, answers and the state after a call are the same, and a
 * state of the one entry is a state of the other. The 64 words ARE LEFT FREE: they may hold anything before and after every call, a
 * refused one included, and nothing hangs on what they hold.
 *
 * A request runs a segment at once. To run segments on several cores, ask for a grant and for its finish apart: between the two the thread is
 * running, and others can be granted and finished. A grant fixes the values that the segment reads, the variables as they are: they are
 * HELD for the thread, 64 numbers a thread, in a buffer beside the state, and are part of it. The finish works out the segment on them,
 * stores the variables that it writes and no others, logs what it notifies, closes the segment, and leaves 0 in their place. Of threads
 * that are not running nothing that is held is read, so that the buffer may hold anything before the first grant. Finishes may come in any
 * order.
 *
 * +-----------------------------------------------------------------------------------------------------------------------------+
 * | WORDS AND A STATE ARE USED AS GIVEN. A request does NOT know which file they were made from: of words and state it tests    |
 * | ranges alone (11). Words or a state of ANOTHER MODEL that are in range get AN ANSWER FOR THAT MIXTURE, NOT AN ERROR; so do  |
 * | words or a state that the caller has written to. To keep file, words and state together is THE CALLER'S PART.               |
 * |                                                                                                                             |
 * | Demand 3 (docs/RULES.md, 8: every order ends alike) speaks ONLY of a state that BEGAN WITH teaselauger_fresh OF THE SAME    |
 * | FILE and that, with the values held beside it, NOTHING BUT requests, grants and finishes with that file have changed, with  |
 * | words that teaselauger_load made of THE SAME FILE, or by rows, which needs no words of the file; all may take turns.        |
 * | teaselauger_replay makes words and state itself, and teaselauger_replay_by_rows the state.                                  |
 * +-----------------------------------------------------------------------------------------------------------------------------+
 *
 * The caller keeps every buffer. A pointer is never null and points to as many elements as the count beside it says; no two
 * buffers that a call is given overlap. Words past those that a call speaks of are neither read nor written.
 *
 * The library holds no state, uses no heap, and reads and writes nothing but the buffers: several threads may call it at once,
 * each with its own buffers. A call needs at most 226 KB of stack (bench/stack.sh measures it).
 *
 * Link target/staticlib/libexports.a (`bindings/library.sh` makes it), x86-64.
 */
#ifndef TEASELAUGER_H
#define TEASELAUGER_H

#include <stddef.h>
#include <stdint.h>

#ifdef __cplusplus
extern "C" {
#endif

/* Words of the distance table for the largest model. A model of N segments needs N x N; the word from segment r to s is at
 * r * N + s: time * 1,024 + delta, or all ones for never. */
#define TEASELAUGER_WORDS 4096
/* Words of a row, whatever the model; those past them are not touched. */
#define TEASELAUGER_ROW 64
/* Variables, whatever their number in the model; those past it are 0 in a fresh state and are not touched. */
#define TEASELAUGER_VARIABLES 64
/* The log: the count, then 128 places of three words: event, time, delta. Places past the count are not looked at, and are 0 after a
 * request that is granted and after a finish. */
#define TEASELAUGER_LOG 385
/* Records of threads, five words each: segment, state, event (0 unless waiting), time, delta. A model of T threads needs 5 x T
 * words, and no call looks at words past them or writes to them; these are enough for every model. */
#define TEASELAUGER_RECORDS 160
/* The values that are held for running threads, 64 for each: those of thread k begin at 64 * k. A model of T threads needs 64 x T, and no
 * call looks at those past them or writes to them; these are enough for every model. */
#define TEASELAUGER_HELD 2048
/* A call in a list, a number of 16 bits: a request is its thread's number; a grant 256 more, a finish 512 more. What is 768 or above is a
 * finish of a thread that no model has. */
#define TEASELAUGER_GRANT(thread) (256 + (thread))
#define TEASELAUGER_FINISH(thread) (512 + (thread))
/* Bytes that are enough for every sheet. */
#define TEASELAUGER_SHEET 8192
/* A model as numbers of 32 bits: H, V, E, N, T; then 104 for each segment: the closer's kind (0 end, 1 wait for time, 2 wait for event),
 * event, delay, A, B, test, limit, then n, then 32 places of 3 numbers for statements: operation, a, b; then 9 for each thread: its first
 * segment, and the variables of its ports 0 to 7. Places past n are not looked at. A model of n segments and t threads has so many; the
 * largest has 6,949. */
#define TEASELAUGER_NUMBERS(n, t) (5 + 104 * (n) + 9 * (t))
#define TEASELAUGER_MODEL 6949
/* The number by which a statement or a test names port p, 0 to 7, in place of a variable; and the variable of a port that a thread leaves
 * unused. */
#define TEASELAUGER_PORT(p) (128 + (p))
#define TEASELAUGER_UNUSED 255
/* Bytes that are enough for every model file. */
#define TEASELAUGER_FILE 13934

/* States of a thread record. The segment of a record is the next to run; of an ended thread, the last that ran; of a running one, that
 * which was granted. The cycle is that at which it is ready, ended, overrun or running, or in which its wait began. */
enum { TEASELAUGER_ENDED, TEASELAUGER_OVERRUN, TEASELAUGER_READY, TEASELAUGER_WAITING, TEASELAUGER_RUNNING };

/* The reader's number of a model file: 0, or 1 to 9, 17 or 18.
 * ORDER: as docs/RULES.md, 7, has it for a file. */
uint8_t teaselauger_read(const uint8_t *file, size_t file_count);

/* The distance table of a model file, in the first N x N words: 0 where it is there.
 * ORDER: the reader's number; 16 for fewer than N x N words. */
uint8_t teaselauger_load(const uint8_t *file, size_t file_count, uint64_t *words, size_t words_count);

/* Whether a model file can be used by rows, with so many words of a row: 0 where it can. No word is read or written.
 * ORDER: the reader's number; 16 for fewer than 64 words. */
uint8_t teaselauger_load_by_rows(const uint8_t *file, size_t file_count, const uint64_t *row, size_t row_count);

/* The sheet of the plain run with a budget, or the line `refused NUMBER`, as the program plainrun prints it: how many bytes of out
 * it takes. If out is too short it is not written, and the answer is 0. It is never a number of refusal. */
size_t teaselauger_sheet(const uint8_t *file, size_t file_count, uint64_t budget, uint8_t *out, size_t out_count);

/* The fresh state of a model file, in 64 variables, 385 words of log and 5 words of records for each thread: 0 where it is there.
 * ORDER: the reader's number; 11 for a buffer that is too short. */
uint8_t teaselauger_fresh(const uint8_t *file, size_t file_count, uint32_t *variables, size_t variables_count, uint64_t *log,
                          size_t log_count, uint64_t *records, size_t records_count);

/* One request by a thread, on the state in variables, log and records, with the file's own conflict marks and the words that
 * teaselauger_load made of the same file. WORDS AND STATE ARE USED AS GIVEN (see above). 0 where it is granted: answer has segment,
 * time and delta (3 words), and the buffers the state after it.
 * ORDER: the reader's number; 11 for a buffer that is too short, for a count of the log above 128, or for a number that no state has in
 * the record of a thread or in a place below the count (a state above 4, an event beside a state that does not wait, a segment or
 * event above 255, a delta above 4,294,967,295); the request's own 11 (fewer than N x N words among them, a record from
 * whose segment its thread could reach a port that it leaves unused, a running record later than H, and more than 128 places of the log
 * with those that running segments notify), 10, 19 for a running thread, 12, 13, 14, 15. */
uint8_t teaselauger_request(const uint8_t *file, size_t file_count, const uint64_t *words, size_t words_count, uint32_t *variables,
                            size_t variables_count, uint64_t *log, size_t log_count, uint64_t *records, size_t records_count,
                            uint8_t thread, uint64_t *answer, size_t answer_count);

/* The same request by rows: as teaselauger_request with the words that teaselauger_load made of the file, but with no words of the file.
 * The 64 words of the row are left free, also on a refusal. THE STATE IS USED AS GIVEN (see above).
 * ORDER: the reader's number; 11 as teaselauger_request has it for buffers and numbers; the request's own 11, with no words to test; 16 for
 * fewer than 64 words; 10, 19, 12, 13, 14, 15. */
uint8_t teaselauger_request_by_rows(const uint8_t *file, size_t file_count, uint64_t *row, size_t row_count, uint32_t *variables,
                                    size_t variables_count, uint64_t *log, size_t log_count, uint64_t *records, size_t records_count,
                                    uint8_t thread, uint64_t *answer, size_t answer_count);

/* One grant of a thread, on the state in variables, log and records and the values in held, with the words of the file as teaselauger_request
 * has them. 0 where it is granted: answer has segment, time and delta, the thread's record is running, the variables are held for it, and
 * variables and log are as they were, every word of them.
 * ORDER: as teaselauger_request, with 11 also for fewer than 64 held values for each thread. */
uint8_t teaselauger_grant(const uint8_t *file, size_t file_count, const uint64_t *words, size_t words_count,
                          uint32_t *held, size_t held_count, uint32_t *variables, size_t variables_count,
                          uint64_t *log, size_t log_count, uint64_t *records, size_t records_count, uint8_t thread,
                          uint64_t *answer, size_t answer_count);

/* The finish of a running thread, on the values that are held for it. 0 where it is finished: answer has the segment that was granted, its
 * time and its delta, and the buffers the state after it; 0 is held for the thread.
 * ORDER: as teaselauger_grant up to 10; 19 for a thread that is not running, and no number after it. */
uint8_t teaselauger_finish(const uint8_t *file, size_t file_count, const uint64_t *words, size_t words_count,
                           uint32_t *held, size_t held_count, uint32_t *variables, size_t variables_count,
                           uint64_t *log, size_t log_count, uint64_t *records, size_t records_count, uint8_t thread,
                           uint64_t *answer, size_t answer_count);

/* The same by rows, with no words of the file. The 64 words of the row are left free, also on a refusal.
 * ORDER: as teaselauger_grant and teaselauger_finish, with no words to test, and 16 for fewer than 64 words between 11 and 10. */
uint8_t teaselauger_grant_by_rows(const uint8_t *file, size_t file_count, uint64_t *row, size_t row_count,
                                  uint32_t *held, size_t held_count, uint32_t *variables, size_t variables_count,
                                  uint64_t *log, size_t log_count, uint64_t *records, size_t records_count, uint8_t thread,
                                  uint64_t *answer, size_t answer_count);
uint8_t teaselauger_finish_by_rows(const uint8_t *file, size_t file_count, uint64_t *row, size_t row_count,
                                   uint32_t *held, size_t held_count, uint32_t *variables, size_t variables_count,
                                   uint64_t *log, size_t log_count, uint64_t *records, size_t records_count, uint8_t thread,
                                   uint64_t *answer, size_t answer_count);

/* A list of calls from the fresh state on: requests, and grants and finishes as TEASELAUGER_GRANT and TEASELAUGER_FINISH have them. 0 where
 * the list was made: answers has 5 words for each call (the call as it was given, its number, 0 where it was not refused, then segment, time
 * and delta, 0 where it was refused), words the distance table, held the values of the threads that are still running, and the other
 * buffers the state after the list. What is held before it is not read.
 * ORDER: the reader's number; 11 for a buffer of the state that is too short, for fewer than 5 words of answers for each call, or for
 * fewer than 64 held values for each thread; 16 for fewer than N x N words. */
uint8_t teaselauger_replay(const uint8_t *file, size_t file_count, uint64_t *words, size_t words_count, uint32_t *held, size_t held_count,
                           const uint16_t *calls, size_t calls_count, uint64_t *answers, size_t answers_count, uint32_t *variables,
                           size_t variables_count, uint64_t *log, size_t log_count, uint64_t *records, size_t records_count);

/* The same list by rows: the same answers and the same state after it, and no distance table. The 64 words of the row are left free, also
 * on a refusal.
 * ORDER: as teaselauger_replay, with 16 for fewer than 64 words. */
uint8_t teaselauger_replay_by_rows(const uint8_t *file, size_t file_count, uint64_t *row, size_t row_count, uint32_t *held,
                                   size_t held_count, const uint16_t *calls, size_t calls_count, uint64_t *answers, size_t answers_count,
                                   uint32_t *variables, size_t variables_count, uint64_t *log, size_t log_count, uint64_t *records,
                                   size_t records_count);

/* The model of a file as numbers, TEASELAUGER_NUMBERS(N, T) of them, zero past each n, with TEASELAUGER_UNUSED for each unused port: 0
 * where they are there.
 * ORDER: the reader's number; 16 for fewer numbers than the model has. */
uint8_t teaselauger_model(const uint8_t *file, size_t file_count, uint32_t *numbers, size_t numbers_count);

/* The model file of a model held as numbers: 0 where it is written, and then length has how many bytes it takes (1 word); bytes of out
 * past them stay. The model is judged as the reader would judge that file, numbers above 255 in a field of one byte included: they are
 * no variable, port, event, segment, kind or operation. A thread whose eight ports are all TEASELAUGER_UNUSED has no record of ports.
 * ORDER: 11 for no place for the length, or for fewer numbers than N and T ask for; 2 to 7 and 17, in file order, then 8, then 18; 16 for
 * an output that is too short. */
uint8_t teaselauger_write(const uint32_t *numbers, size_t numbers_count, uint8_t *out, size_t out_count, uint64_t *length,
                          size_t length_count);

#ifdef __cplusplus
}
#endif
#endif
