#include "sheet.h"

#include <string.h>

void put_field(Sheet *sheet, unsigned width, uint64_t value)
{
    for (unsigned i = width; i-- > 0;) {
        if (sheet->bits == 8 * (size_t)SHEET_ROOM)
            return;
        if (value >> i & 1)
            sheet->bytes[sheet->bits / 8] |= (uint8_t)(0x80 >> sheet->bits % 8);
        sheet->bits++;
    }
}

void sheet_begin(Sheet *sheet, unsigned templates)
{
    memset(sheet, 0, sizeof *sheet);
    put_field(sheet, 8, templates);
}

size_t sheet_length(const Sheet *sheet)
{
    return (sheet->bits + 7) / 8;
}

void put_integer(Sheet *sheet, int32_t value)
{
    put_constant(sheet, INTEGER_CONSTANT);
    put_field(sheet, 32, (uint32_t)value);
}

void put_wide(Sheet *sheet, int64_t value)
{
    put_constant(sheet, WIDE_CONSTANT);
    put_field(sheet, 48, (uint64_t)value);
}

void put_constant(Sheet *sheet, unsigned tag)
{
    put_field(sheet, 2, CONSTANT_ENTRY);
    put_field(sheet, 3, tag);
}

void put_number(Sheet *sheet, unsigned kind, unsigned number)
{
    put_field(sheet, 2, kind);
    put_field(sheet, 8, number);
}

void put0(Sheet *sheet, unsigned code)
{
    put_field(sheet, 5, code);
}

void put1(Sheet *sheet, unsigned code, unsigned n)
{
    put_field(sheet, 5, code);
    put_field(sheet, 8, n);
}

void put2(Sheet *sheet, unsigned code, unsigned n1, unsigned n2)
{
    put1(sheet, code, n1);
    put_field(sheet, 8, n2);
}
