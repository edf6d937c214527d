#ifndef LINUX_BPF_H
#define LINUX_BPF_H

void measure_linux(void);

#endif
