/* The calls of Microsoft's header of this name that processor.c makes, as its documentation declares them. */
void __cpuid(int answer[4], int leaf);
void __cpuidex(int answer[4], int leaf, int subleaf);
unsigned long long _xgetbv(unsigned number);
