/*
 * status.h - how the command ends. The numbers are part of the interface: docs/OPERATING.md and rigcandle(1) give them.
 */
#ifndef STATUS_H
#define STATUS_H

enum status {
    FINE = 0,     /* the library accepts; for marks and report: RELEASE */
    HOLD = 1,     /* marks and report: some net does not pass */
    REFUSED = 2,  /* the library refuses, with its number and place */
    USAGE = 3,    /* the arguments or a text description are wrong */
    UNUSABLE = 4  /* a file cannot be read or written */
};

#endif
