/* Writes the table of spcwave_table.h to standard output. */
#include <stdio.h>
#include "spcwave_table.h"

int main(void) {
    uint8_t table[1024];
    spcwave_console_table(table);
    return fwrite(table, 1, sizeof table, stdout) != sizeof table;
}
