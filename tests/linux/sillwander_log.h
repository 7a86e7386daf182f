/*
 * What the two devices count and write down. A vendor who copies the devices needs none of it.
 *
 * Where the environment has SILLWANDER_LOG=NAME, each call is a line of NAME.ioapic or NAME.pair: the call as tools/script-text reads it, and behind # what it
 * answered, as the program `script` prints it: refusal, values. A log begins with the chip's last reset, and so do the counts, which go to standard error
 * when the machine stops. The devices count calls where they make them, so that `table` can hold the length of a log against them.
 */
#ifndef SILLWANDER_LOG_H
#define SILLWANDER_LOG_H

#include "sillwander.h"
#include <stdarg.h>
#include <stdio.h>
#include <stdlib.h>
#include <unistd.h>

static FILE *sillwander_log;

static void sillwander_log_begin(const char *chip)
{
    const char *name = getenv("SILLWANDER_LOG");
    char path[4096];
    if (name == NULL || snprintf(path, sizeof path, "%s.%s", name, chip) >= (int)sizeof path)
        return;
    sillwander_log = sillwander_log == NULL ? fopen(path, "w") : freopen(path, "w", sillwander_log);
    if (sillwander_log == NULL) {
        perror(path);
        exit(1);
    }
}

/* When the guest has ended. A log that couldn't be written is a run that failed. */
static void sillwander_log_end(void)
{
    if (sillwander_log == NULL)
        return;
    int failed = ferror(sillwander_log);
    failed |= fclose(sillwander_log);
    sillwander_log = NULL;
    if (failed) {
        fputs("sillwander: a log isn't whole\n", stderr);
        _exit(1);
    }
}

/* A call's line; hands back its code. */
static uint64_t __attribute__((format(printf, 2, 3))) sillwander_logged(uint64_t code, const char *call, ...)
{
    if (sillwander_log == NULL)
        return code;
    va_list words;
    va_start(words, call);
    vfprintf(sillwander_log, call, words);
    va_end(words);
    fprintf(sillwander_log, " # %u ", SILLWANDER_REFUSAL(code));
    switch (SILLWANDER_COUNT(code)) {
    case 1: fprintf(sillwander_log, "%u\n", SILLWANDER_VALUE(code)); break;
    case 2: fprintf(sillwander_log, "%u,%u\n", SILLWANDER_OF_TWO(code, 0), SILLWANDER_OF_TWO(code, 1)); break;
    case 3:
        fprintf(sillwander_log, "%u,%u,%u\n", SILLWANDER_OF_THREE(code, 0), SILLWANDER_OF_THREE(code, 1), SILLWANDER_OF_THREE(code, 2));
        break;
    default: fputs("-\n", sillwander_log);
    }
    return code;
}

#endif
