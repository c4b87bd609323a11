/* A long script for the two script programs. */
#ifndef SCRIPT_H
#define SCRIPT_H

void print_script(unsigned lines);

#endif
