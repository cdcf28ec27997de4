/* Both programs, `dw` and `dw-desk`, as one function over bytes. The library is libdw_web.a, which `./build dw_web`
   makes. */
#ifndef DW_H
#define DW_H

#include <stddef.h>
#include <stdint.h>

/* Why a program ended. */
enum dw_reason {
    DW_FINISHED = 0,          /* the report is whole */
    DW_ARGUMENTS_REFUSED = 1, /* the arguments are no command */
    DW_REPORT_FULL = 2,       /* the report had no more room: call again with more */
    DW_OUT_OF_MEMORY = 3,
    DW_OTHER = 4 /* an argument has a fault, or the run was stopped */
};

/* How a program ended, and how many bytes of the report and of the message it wrote. */
struct dw_ended {
    uint8_t status; /* the exit status, 0 to 3 */
    uint8_t reason; /* an `enum dw_reason` */
    size_t report;
    size_t message;
};

/* Runs a program. The arguments are separated by line feeds; the first is `dw` or `dw-desk`. The input replaces
   standard input, the report standard output, and the message standard error. There are no files. A message is cut to
   the room for it. No two of the five places may overlap. Several threads may call it at a time. */
void dw_web_run(const uint8_t *arguments, size_t arguments_size, const uint8_t *input, size_t input_size,
                uint8_t *report, size_t report_room, uint8_t *message, size_t message_room, struct dw_ended *ended);

#endif
