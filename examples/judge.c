/* Judges the problem of its argument within two moves, and writes the report. */
#include "dw.h"
#include <stdio.h>
#include <string.h>

enum { REPORT = 65536, MESSAGE = 4096 };

static const uint8_t *bytes(const char *text) { return (const uint8_t *)text; }

int main(int count, char **words) {
    static uint8_t report[REPORT], message[MESSAGE];
    const char *arguments = "dw\njudge\n-n\n2", *problem = count > 1 ? words[1] : "W:W27,32,38:B18\n";
    struct dw_ended ended;
    dw_web_run(bytes(arguments), strlen(arguments), bytes(problem), strlen(problem), report, sizeof report, message,
               sizeof message, &ended);
    fwrite(report, 1, ended.report, stdout);
    fwrite(message, 1, ended.message, stderr);
    return ended.status;
}
