/* A writer of tree sheets, bit by bit, for the generator and the benchmark. It checks nothing. */
#ifndef SHEET_H
#define SHEET_H

#include <stddef.h>
#include <stdint.h>

enum { SHEET_ROOM = 80000 }; /* more than a tree file may have; bits beyond are dropped */

enum {
    END = 0, RETURN, CALL, UNLESS_FALSE, MAKE_CONT, JUMP, LITERAL, CLOSURE, GLOBAL, SET_GLOBAL, LOCAL, SET_LOCAL, PUSH, MAKE_ENV,
    UNSPECIFIED = 15, CHECKARGS,
    CONS = 18, CAR, CDR, EQV, ADD, SUB, LESS, FLOOR_DIV
};

enum { CONSTANT_ENTRY = 1, GLOBAL_ENTRY, TEMPLATE_ENTRY };
enum { FALSE_CONSTANT, TRUE_CONSTANT, NULL_CONSTANT, NOT_SPECIFIED_CONSTANT, INTEGER_CONSTANT, WIDE_CONSTANT };

typedef struct {
    uint8_t bytes[SHEET_ROOM];
    size_t bits;
} Sheet;

void sheet_begin(Sheet *sheet, unsigned templates);
size_t sheet_length(const Sheet *sheet); /* in bytes, padding included */

void put_field(Sheet *sheet, unsigned width, uint64_t value);
void put_integer(Sheet *sheet, int32_t value); /* tag 4, 32 bits */
void put_wide(Sheet *sheet, int64_t value);    /* tag 5, its lowest 48 bits */
void put_constant(Sheet *sheet, unsigned tag);
void put_number(Sheet *sheet, unsigned kind, unsigned number);

/* An instruction with none, one or two operands; the lists inside are put behind it, each with its END. */
void put0(Sheet *sheet, unsigned code);
void put1(Sheet *sheet, unsigned code, unsigned n);
void put2(Sheet *sheet, unsigned code, unsigned n1, unsigned n2);

#endif
