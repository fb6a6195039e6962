/* What the parts of the replay in C share: what an emitter wrote (tests/common/replayed.py has its form), what a call is lent, and the calls. */
#ifndef REPLAY_H
#define REPLAY_H

#include <stdbool.h>
#include <stddef.h>
#include <stdint.h>

/* Ends the program with this line: what an emitter wrote cannot be replayed. */
_Noreturn void stop(const char *what);

/* Opens a file that an emitter wrote; of it no more is read than is asked for. */
void open_input(const char *path);
void close_input(void);

/* Whether no number is left. */
bool at_end(void);

/* The next number; one below 0 as its 64 bits. */
uint64_t next_number(void);

/* So many of the next numbers, each of so many bytes; those of one byte are bytes that follow a line of numbers. */
void next_numbers(void *list, size_t width, size_t count);

/* What is lent: each list between sentinels, and what all of it must hold afterwards. */

/* Takes back all lists but the first ones, and lends the next of the input. */
void keep_lists(size_t count);
void lend_list(void);

/* The list at a place among those lent, from 0; UINT64_MAX is a null pointer. */
void *lent(uint64_t place);

/* Makes the next change of the input in what is lent. */
void change(void);

/* What must hold afterwards is what holds now, sentinels included, with so many changes of the input. */
void expect(size_t changes);

/* Whether all that is lent, the sentinels too, is as expected. It is made so for what comes next. */
bool is_as_expected(void);

/* The calls of the library by their place in include/kodarfi.h, which calls.py writes from it: their names, and one made with these arguments. */
enum { MOST_CALLS = 32, MOST_ARGUMENTS = 64 };
extern const char *const NAMES[MOST_CALLS];
uint32_t make_call(size_t call, const uint64_t *arguments);

#endif
