/* How the programs here compare, and what they say. printf is declared and not included: they are also compiled for
 * x86-64 where there are no headers for that. */
int printf(const char *format, ...);

static int tried, failed;

static void check(int right, const char *name, const char *what) {
    tried++;
    if (!right) {
        failed++;
        printf("%s: wrong %s\n", name, what);
    }
}

static int report(void) {
    printf("%d comparisons, %d wrong\n", tried, failed);
    return failed != 0;
}
