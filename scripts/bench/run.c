/* Starts a renderer for scripts/bench/render_bench.py: a process counts the largest resident size of the one that it was forked from, so
   a small one starts it.

       run SECONDS INPUT COMMAND ..     prints the processor time in milliseconds, the largest resident size in KiB, and the status, which
                                        is -1 where the command was cut off after so many seconds of processor time */
#include <fcntl.h>
#include <stdio.h>
#include <stdlib.h>
#include <sys/resource.h>
#include <sys/wait.h>
#include <unistd.h>
int main(int count, char **words) {
  struct rlimit limit = { atoi(words[1]), atoi(words[1]) };
  int input = open(words[2], O_RDONLY), output = open("/dev/null", O_WRONLY), status;
  struct rusage used;
  if (count < 4 || input < 0 || output < 0) return 2;
  pid_t child = fork();
  if (child == 0) {
    setrlimit(RLIMIT_CPU, &limit);
    dup2(input, 0);
    dup2(output, 1);
    dup2(output, 2);
    execvp(words[3], words + 3);
    _exit(127);
  }
  if (child < 0 || wait4(child, &status, 0, &used) < 0) return 2;
  double time = (used.ru_utime.tv_sec + used.ru_stime.tv_sec) * 1e3 + (used.ru_utime.tv_usec + used.ru_stime.tv_usec) / 1e3;
  printf("%f %ld %d\n", time, used.ru_maxrss, WIFSIGNALED(status) ? -1 : WEXITSTATUS(status));
  return 0;
}
