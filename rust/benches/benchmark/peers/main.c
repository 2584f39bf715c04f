/* A parser that leg made, PARSER, over the lines of a file: main ENTRIES CALLS prints the nanoseconds for all the lines, once. */
#include <stdio.h>
#include <stdlib.h>
#include <string.h>
#include <time.h>

#define YY_CTX_LOCAL

static const char *text;
static size_t left;

/* Hands over what is left of the line at once. */
#define YY_INPUT(yy, buffer, result, most)                              \
  {                                                                     \
    size_t n = left < (size_t)(most) ? left : (size_t)(most);           \
    memcpy(buffer, text, n);                                            \
    text += n, left -= n;                                               \
    result = (int)n;                                                    \
  }

#include PARSER

#define MOST 10000
static char lines[MOST][128];

int main(int argc, char **argv) {
  FILE *file = fopen(argv[1], "r");
  int count = 0, calls = atoi(argv[2]);
  while (count < MOST && fgets(lines[count], sizeof lines[0], file)) {
    lines[count][strcspn(lines[count], "\n")] = 0;
    count++;
  }
  struct timespec a, b;
  clock_gettime(CLOCK_PROCESS_CPUTIME_ID, &a);
  yycontext context;
  memset(&context, 0, sizeof context);
  for (int call = 0; call < calls; call++)
    for (int i = 0; i < count; i++) {
      text = lines[i], left = strlen(text);
      context.__pos = context.__limit = 0;
      if (!yyparse(&context)) return 1;
    }
  clock_gettime(CLOCK_PROCESS_CPUTIME_ID, &b);
  printf("%.0f\n", ((b.tv_sec - a.tv_sec) * 1e9 + (b.tv_nsec - a.tv_nsec)) / calls);
  return 0;
}
