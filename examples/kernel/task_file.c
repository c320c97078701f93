/* task_file.c: writes the kernel's announcements as a task file, on the host: task_file PROCESSORS QUANTA */
#include "../executive/task_file.h"
#include "announcements.h"
#include <stdlib.h>

int main(int count, char **words) {
    if (count != 3) return 2;
    unsigned processors = (unsigned)strtoul(words[1], NULL, 10);
    write_task_file(announcements, ANNOUNCEMENTS, processors, FRAME, strtoul(words[2], NULL, 10));
    return 0;
}
