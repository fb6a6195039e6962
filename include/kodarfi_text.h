/* The papers' numbers in words, for C and C++: docs/refusals.tsv as docs/refusals.py writes it. Not to be edited here. */
#ifndef KODARFI_TEXT_H
#define KODARFI_TEXT_H

#include <stddef.h>
#include <stdint.h>

/* A row of the table: what a number says, what was expected (of 0: what may be concluded), and what to do for whoever wrote what is refused. */
struct kodarfi_words {
    uint32_t number;
    const char *what, *expected, *to_do;
};

/* The row of a number, null where there is none. */
static inline const struct kodarfi_words *kodarfi_words_of(uint32_t number) {
    static const struct kodarfi_words ROWS[] = {
        {0, "accepted: nothing is refused",
         "every exact height of the file's equations, for every right side within the tolerances, lies within the limits of the solution lines, in solution steps, and within those of the entry lines, in whole units; every exact inverse lies within those of the inverse lines, in inverse steps",
         "enter each V with its limit; see for yourself that the equations are those of the field, and the true right sides within the tolerances"},
        {1, "a line above 320 bytes, its line feed not counted",
         "a line of at most 320 bytes; no form with its numbers in their ranges is longer",
         "write one form a line; a net of more than 32 marks does not fit one file"},
        {2, "not one of the eight forms, spelled exactly; an empty line too",
         "(problem n), (scale s t), (row i (a .. a)), (right i b) or (right i (b d)), (guess i X), (inverse i (g .. g)), (weight i w) or (end), with small letters, single spaces and whole numbers",
         "write the file anew in ASCII, each line as its form is spelled and ended by a line feed alone; the rules of spelling are in docs/FORMAT.md"},
        {3, "a number outside its range, i above n included",
         "n: 1 to 32; s, t: 0 to 20; i: 1 to n; a, g: -1,048,576 to 1,048,576; b: -2^30 to 2^30; d: 0 to 1,048,576; X: -2^36 to 2^36; w: 1 to 1,024; for calls also C: as a, an allowance: 1 to 64, and of a field line key: 1 to 65,535, marks: 0 to n, difference: -65,536 to 65,536, weight: 1 to 64, at most 256 lines",
         "look up the number that is meant; where that is it, scale the equations, or take a smaller s for X and a smaller t for g; a net of more than 32 marks has to be divided"},
        {4, "a row or inverse list with other than n numbers",
         "n numbers, one for each mark",
         "write the whole list anew from where it came: it does not tell which of its numbers is missing or too many; a mark that is not in the equation has a 0"},
        {5, "a margin of 0 or less; gives the lowest row",
         "a margin above 0 in every row",
         "first compare rows and right sides with the field, since an equation that is damaged or exchanged looks like this too; where they are right, a better inverse, a larger t with the inverse in its finer steps, or other weights; weights of 1 always do where the inverse is the exact one rounded to nearest steps and the absolute values of all numbers of A, summed, are below 2T"},
        {6, "a residual of the guess larger than the absolute values of its row's numbers summed, or larger than 2^25 together with its slack; gives the lowest row",
         "for every row a residual of at most the absolute values of the row's numbers summed, in absolute value, and together with its slack of at most 33,554,432; the slack is 2^s times the tolerance",
         "first compare rows and right sides with the field, since a wrong sign or another damage to an equation looks like this too; where they are right, a better guess: one within a step of the exact solution everywhere is always good enough, so rounding it to steps will do; or a smaller s, with the guess in its coarser steps; where only the slack is too large, smaller tolerances or a smaller s"},
        {7, "a residual of the inverse larger than the absolute values of its row's numbers summed; gives the lowest column, then its lowest row",
         "for every column of the inverse residuals of at most the absolute values of the row's numbers summed, in absolute value, which is never above 33,554,432",
         "first compare rows and right sides with the field, since damage to an equation looks like this too; where they are right, a better inverse: one within a step of the exact one everywhere is always good enough, so rounding it to steps will do; or a smaller t, with the inverse in its coarser steps"},
        {8, "a lent list too short",
         "1,024 numbers for a matrix, 528 for one by its lower half, 32 for a column",
         "lend longer lists"},
        {11, "a form other than problem first, or other than problem or scale before the scale",
         "problem on the first line and scale on the second",
         "look for a line that was lost or moved; problem, then scale, then the rest"},
        {12, "a form given already: problem, scale, or this kind and i, whatever its other numbers",
         "problem and scale once, and each i once of each kind",
         "where the two differ, say from the field which is meant, and write the file anew with one alone: a block may have been pasted twice and either of the two be damaged, or one have a wrong i"},
        {13, "end with forms outstanding; gives the count of forms still missing out of 4n",
         "row, right, guess and inverse for every i from 1 to n before the end; weights may be left out",
         "write the file anew with the missing forms, from where the others came"},
        {14, "any line after an accepted end",
         "nothing after the end, not even an empty line",
         "see what it is that follows the end, a line that belongs before it or a piece of another file, and write the file anew"},
        {15, "the file stops before an end",
         "(end) as the last line",
         "write the whole file anew: where the end is lost, lines before it may be lost too"},
        {16, "a field line from a mark to the same mark",
         "a line that leads from one mark to another; 0 is the fixed mark",
         "compare the line with the field book"},
        {17, "a field line with the key of an earlier line and other contents",
         "where a key comes again, the same marks, difference and weight as before",
         "say from the field book which of the two is meant, or whether one has another line's key"},
        {18, "none of the allowed lists of weights is good",
         "a list of weights, among as many as are allowed, with which every margin is above 0",
         "a larger allowance, up to 64; else a better inverse, or a larger t with the inverse in its finer steps"},
        {19, "a double that is infinite or no number, or whose guess leaves its range",
         "finite heights of at most 2^36 solution steps in absolute value",
         "look into the solver for what is not finite; where heights are too large, a smaller s"},
        {20, "two proposals for different equations",
         "the same n, matrix, right sides and tolerances in both",
         "compare the two number by number, and with the field"},
        {21, "a solution limit above 2^36, of two proposals",
         "limits of at most 2^36 solution steps",
         "smaller tolerances, or a better inverse in finer steps"},
        {22, "a tolerance above 0, which the old edition has no form for; or a buffer shorter than the new file",
         "tolerances of 0 everywhere, and for a call 21,300 bytes of room",
         "send the file as it is to an office on the new edition"},
    };
    for (size_t k = 0; k < sizeof ROWS / sizeof *ROWS; k++) {
        if (ROWS[k].number == number) return &ROWS[k];
    }
    return NULL;
}

#endif
