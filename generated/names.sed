# The names in the assembly of a program that not every C library has, and its `main`, as system.c and all C libraries have
# them. make runs this.
s/__x86_get_cpuid_feature_leaf/noddychest_features/
s/__sysv_signal/signal/
s/	__write/	write/
s/^main:/noddychest_main:/
s/\([	-]\)main$/\1noddychest_main/
s/	main,/	noddychest_main,/
