// The name of the program, which stands before each of its errors.
#ifndef SCRIPT_PROGRAM_H
#define SCRIPT_PROGRAM_H

extern const char program[];

#endif
