/* What the files of this folder share. They are what the program's LLVM module asks of C, for a WebAssembly host: its
   files and streams come from the host's imports (HOST.md), all else is here. The tests compile them for this machine
   too, with a host of their own. */
#ifndef W4_SHIM_H
#define W4_SHIM_H

/* The kit's clang comes without headers: these are what stdint.h and stddef.h would say. */
typedef __UINT8_TYPE__ uint8_t;
typedef __UINT16_TYPE__ uint16_t;
typedef __UINT32_TYPE__ uint32_t;
typedef __UINT64_TYPE__ uint64_t;
typedef __INT32_TYPE__ int32_t;
typedef __INT64_TYPE__ int64_t;
typedef __UINTPTR_TYPE__ uintptr_t;
typedef __SIZE_TYPE__ size_t;
#undef NULL
#define NULL ((void *)0)

/* A function that the host gives, under its name in HOST.md. Only in a module has it to be named so. */
#ifdef __wasm__
#define FROM_HOST(name) __attribute__((import_module("host"), import_name(#name)))
#define FOR_HOST(name) __attribute__((export_name(#name)))
#else
#define FROM_HOST(name)
#define FOR_HOST(name)
#endif

/* The program's memory has 32 bits in the end, so an address or a length is passed to the host as one number. */
#ifdef __wasm__
typedef uint32_t address;
#else
typedef uintptr_t address;
#endif

static inline address address_of(const void *at) {
    return (address)(uintptr_t)at;
}

static inline address length_of(const char *text) {
    address length = 0;
    while (text[length]) length++;
    return length;
}

/* The system's numbers of errors, Linux's, that are given here. */
enum { ERROR_AGAIN = 11, ERROR_INVALID = 22, ERROR_NO_CALL = 38 };

void *malloc(size_t size);
void free(void *block);

#endif
