#ifndef PROGRAMS_H
#define PROGRAMS_H

void measure_programs(void);

#endif
