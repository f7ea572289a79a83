/* What differs between machines: where the script comes from, and where its answers go. */
#ifndef PLATFORM_H
#define PLATFORM_H

/* The next byte of the script, or something that isn't greater than 0 beyond its end. */
int next_char(void);

void put_char(char of);

/* Carries out the script (driver.c). */
void drive(void);

#endif
