/*
 * Flarecomb for C: the study of a feeder, and the check of a report against its feeder.
 *
 * Link libflarecomb.a, which `bash tools/build.sh flarecomb` puts into target/staticlib (x86-64 Linux). It needs two functions of the C
 * library, memcpy and memset, and nothing else: no start-up code, no other library, no option of the linker. c/run.sh has the command, and
 * those for a shared library, for Python and for Rust. `bash c/install.sh PREFIX` installs header and library, with a file for pkg-config.
 *
 * ANSWERS. Each call answers one number of 64 bits: VALUE + NUMBER * 2^32 + SWEEPS * 2^48.
 *
 *   NUMBER 0        flarecomb_study: a report was written, VALUE is its length in bytes, at most 65,536, and SWEEPS the sweeps made, 1 to 100; where
 *                   regulators set their taps, those of the last round.
 *                   flarecomb_check: a pass, and VALUE and SWEEPS are 0. So the check passes just where its whole answer is 0.
 *   NUMBER 9 to 56  a refusal: one of the constants below, with its VALUE. SWEEPS is 0.
 *
 * VALUE is always below 2^32 and NUMBER below 2^16, so that FLARECOMB_VALUE, FLARECOMB_NUMBER and FLARECOMB_SWEEPS give the three back.
 *
 * WHAT A CALLER OWES. Each pointer is to as many bytes as the length behind it says. A pointer is not null, also where the length is 0. While
 * a call runs nobody writes to the bytes that it reads, and nobody else reads or writes those of `out`, which share no byte with the feeder.
 * Nothing is asked of the bytes themselves or of the lengths: every text of every length is met, over 65,536 bytes by refusal 9.
 *
 * WHAT A CALLER GETS. Both calls end. They read and write nothing but the bytes that are handed over, keep no pointer, ask for no memory and have
 * no state, so that threads may call them at the same time, each with an `out` of its own. A study took at most 97 KB of stack and a check 134 KB, on
 * 5,369 files, 1,012 of them feeders with a report, some with 200 branches: that is measured, and not proved. What is proved of the calls, and what
 * must be believed, is said in docs/PROOF.md.
 */
#ifndef FLARECOMB_H
#define FLARECOMB_H

#include <stddef.h>
#include <stdint.h>

#ifdef __cplusplus
extern "C" {
#endif

/* the version of this header and of the library beside it: that of the file VERSION; CHANGELOG.md says what each version brings */
#define FLARECOMB_VERSION "0.5.0"

/* the three parts of an answer: bits 0 to 31, 32 to 47, and 48 to 63 */
#define FLARECOMB_VALUE(answer) ((uint32_t)((uint64_t)(answer) & 0xffffffffu))
#define FLARECOMB_NUMBER(answer) ((uint32_t)((uint64_t)(answer) >> 32 & 0xffffu))
#define FLARECOMB_SWEEPS(answer) ((uint32_t)((uint64_t)(answer) >> 48))

/*
 * The refusals, by NUMBER; docs/USING.md says what to do about each. Behind each stands its VALUE. Lines count from 1, empty ones too; where several rows have the
 * same fault, the first of their lines is told. The study answers 9 to 40, and the check 9 to 32 and 50 to 56. Where regulators set their taps, a sweep is one of
 * the round that is refused.
 */
enum flarecomb_refusal {
    FLARECOMB_TOO_LONG = 9,         /* 0: the feeder or the report has over 65,536 bytes */
    FLARECOMB_LAYOUT = 10,          /* the feeder's line that cannot stand there */
    FLARECOMB_OUT_OF_LIMIT = 11,    /* the feeder's line with a value outside its limit, or a row too many */
    FLARECOMB_UNKNOWN_FROM = 20,    /* the line of a branch whose from-node does not exist */
    FLARECOMB_SECOND_TO = 21,       /* the line of a branch whose to-node is the source or an earlier row's to-node */
    FLARECOMB_NOT_REACHED = 22,     /* the line of a branch that the source does not reach */
    FLARECOMB_PHASE_ABSENT = 23,    /* the line of a branch or load with a phase that is absent, a transformer not on ABC, or a load at an unknown node */
    FLARECOMB_NOT_ZERO = 24,        /* the line of a branch with a field that is due 0 and is not */
    FLARECOMB_ZERO_VOLTAGE = 30,    /* the sweep with an I load at zero voltage; 0 in the check */
    FLARECOMB_LOAD_BEYOND = 31,     /* the sweep with a load's current beyond 2,000,000 mA; 0 in the check */
    FLARECOMB_CURRENT_BEYOND = 32,  /* the sweep with a branch's current beyond 2,000,000 mA; 0 in the check */
    FLARECOMB_VOLTAGE_BEYOND = 33,  /* the sweep with a voltage beyond 2,000,000 cV; 0 before the first sweep */
    FLARECOMB_NOT_SETTLED = 34,     /* the feeder's limit of sweeps, within which the voltages do not settle */
    FLARECOMB_TAPS_MOVING = 35,     /* 32: a regulator's tap still wants to move, and can, after 32 rounds */
    FLARECOMB_BUFFER_SHORT = 40,    /* the report's length in bytes, which `out` is too short for */
    FLARECOMB_REPORT_LAYOUT = 50,   /* 0: the text is not a report of this feeder, by its layout, its rows, its limits, its sweeps or its taps */
    FLARECOMB_NAME_DIFFERS = 51,    /* the report's line with a name that is not the feeder's at that place */
    FLARECOMB_SOURCE_DIFFERS = 52,  /* the report's line with another source voltage, or a voltage on an absent phase */
    FLARECOMB_CURRENT_DIFFERS = 53, /* the report's line with a current that does not follow from the load currents */
    FLARECOMB_VOLTAGE_OFF = 54,     /* the report's line with a voltage off by more than tol, at a node that is fed through none such */
    FLARECOMB_TOTAL_DIFFERS = 55,   /* 0: a loss or a total differs */
    FLARECOMB_TAP_DIFFERS = 56      /* the report's line with a tap that could still move as wanted, or is not the feeder's where the level is 0 */
};

/* A feeder of at most this many bytes is read, and a report has at most this many: a buffer of this length is never too short. */
#define FLARECOMB_MOST_BYTES 65536

/*
 * The study. The report is written from the start of `out`, and the bytes of `out` behind it keep their values.
 * After a refusal, 40 (`out` is too short) among them, all of `out` holds what it held.
 */
uint64_t flarecomb_study(const uint8_t *feeder, size_t feeder_len, uint8_t *out, size_t out_len);

/* The check of a report against its feeder. It changes neither. It passes every report that the study writes for the feeder. */
uint64_t flarecomb_check(const uint8_t *feeder, size_t feeder_len, const uint8_t *report, size_t report_len);

#ifdef __cplusplus
}
#endif

#endif
