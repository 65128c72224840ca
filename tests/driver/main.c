/* The driver: runs the library on batches, stored answers, damaged inputs and books of growing size. */
#include <string.h>

#include "common.h"

static const struct {
    const char *name;
    int (*run)(int args, char **arg);
} modes[] = {
    {"batch", batch_mode}, {"replay", replay_mode}, {"fuzz", fuzz_mode}, {"bench", bench_mode}, {"scale", scale_mode}, {"stack", stack_mode},
};

int main(int argc, char **argv)
{
    size_t i;
    for (i = 0; argc > 1 && i < sizeof modes / sizeof *modes; i++)
        if (!strcmp(argv[1], modes[i].name))
            return modes[i].run(argc - 2, argv + 2);
    usage("driver batch [--wire] FILE                        answers as text, for oracle/compare.py\n"
          "driver replay ANSWERS REFUSALS ROUTES WIRE        against stored answers\n"
          "driver fuzz SEED COUNT|SECONDSs [FIRST] [--undefined]\n"
          "driver bench FILE OUT_LEN                         times of each case\n"
          "driver scale                                      time against size\n"
          "driver stack [FILE...]                            stack that a call needs");
    return 2;
}
