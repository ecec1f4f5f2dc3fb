/* What the headers of the stable ABI ask of a system, for Windows on x86-64 and mingw's compiler. CPython's own of this name comes with its
 * installer for Windows alone; ../../wheel puts this one in the place of that of the system on which it runs. */
#ifndef Py_CONFIG_H
#define Py_CONFIG_H

#define MS_WINDOWS
#define MS_WIN32
#define MS_WIN64

/* Names of CPython come from a DLL. */
#define HAVE_DECLSPEC_DLL
#define Py_ENABLE_SHARED

#define STDC_HEADERS 1
#define HAVE_STDDEF_H 1
#define HAVE_SYS_STAT_H 1
#define HAVE_SYS_TYPES_H 1
#define HAVE_SSIZE_T 1

#define ALIGNOF_MAX_ALIGN_T 16
#define ALIGNOF_SIZE_T 8
#define SIZEOF_DOUBLE 8
#define SIZEOF_FLOAT 4
#define SIZEOF_INT 4
#define SIZEOF_LONG 4
#define SIZEOF_LONG_LONG 8
#define SIZEOF_SHORT 2
#define SIZEOF_SIZE_T 8
#define SIZEOF_VOID_P 8
#define SIZEOF_WCHAR_T 2

#endif
