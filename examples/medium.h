/* A file in the place of the flash or EEPROM that keeps the saved block. */
#ifndef MEDIUM_H
#define MEDIUM_H

/* makes the file if it is not there; 0 is done */
int medium_open(const char *name);

#endif
