/* What the examples use of <stdio.h>, for Arm, where there are no C headers for x86-64. */
int printf(const char *format, ...);
