/* fortran.c: programs in Fortran. Their calls come through a library of MPI that calls functions in C.
 *
 * For the module mpi, that of MPICH calls MPI_ functions, which this library sees. For mpi_f08 it calls some PMPI_ functions, and
 * that of Open MPI calls only these. Here their addresses in the table of imported functions are replaced by the addresses of
 * the MPI_ functions of this library. */
#define _GNU_SOURCE
#include "check.h"
#include <dlfcn.h>
#include <link.h>
#include <stdio.h>
#include <string.h>
#include <sys/mman.h>
#include <unistd.h>

enum { MOST_BINDINGS = 16 };
static struct {
    uintptr_t begin, end;
} bindings[MOST_BINDINGS];
static int binding_count;

int fortran_is_binding(const void *address) {
    for (int n = 0; n < binding_count; n++)
        if ((uintptr_t)address - bindings[n].begin < bindings[n].end - bindings[n].begin) return 1;
    return 0;
}

/* The MPI_ function of this library for the name of a PMPI_ function. */
static void *replacement(void *self, const char *name) {
    Dl_info about, own;
    void *found;
    if (strncmp(name, "PMPI_", 5)) return NULL;
    found = dlsym(RTLD_DEFAULT, name + 1);
    if (!found || !dladdr(found, &about) || !dladdr(self, &own) || about.dli_fbase != own.dli_fbase) return NULL;
    return found;
}

static void write_slot(void **slot, void *value) {
    uintptr_t page = (uintptr_t)sysconf(_SC_PAGESIZE), begin = (uintptr_t)slot & ~(page - 1);
    if (*slot == value) return;
    if (mprotect((void *)begin, page, PROT_READ | PROT_WRITE)) return;
    *slot = value;
}

struct tables {
    const ElfW(Sym) *symbols;
    const char *strings;
    const char *relocations[2]; /* of functions, and of data */
    size_t sizes[2];
};

static uintptr_t located(const struct dl_phdr_info *info, uintptr_t address) {
    return address < info->dlpi_addr ? address + info->dlpi_addr : address;
}

static void read_tables(const struct dl_phdr_info *info, const ElfW(Dyn) *entry, struct tables *tables) {
    for (; entry->d_tag != DT_NULL; entry++) {
        uintptr_t at = located(info, (uintptr_t)entry->d_un.d_ptr);
        if (entry->d_tag == DT_SYMTAB) tables->symbols = (const void *)at;
        if (entry->d_tag == DT_STRTAB) tables->strings = (const void *)at;
        if (entry->d_tag == DT_JMPREL) tables->relocations[0] = (const void *)at;
        if (entry->d_tag == DT_RELA) tables->relocations[1] = (const void *)at;
        if (entry->d_tag == DT_PLTRELSZ) tables->sizes[0] = entry->d_un.d_val;
        if (entry->d_tag == DT_RELASZ) tables->sizes[1] = entry->d_un.d_val;
    }
}

static void replace_imports(const struct dl_phdr_info *info, const ElfW(Dyn) *dynamic) {
    struct tables tables = {0};
    read_tables(info, dynamic, &tables);
    for (int kind = 0; tables.symbols && tables.strings && kind < 2; kind++) {
        const ElfW(Rela) *relocation = (const void *)tables.relocations[kind];
        size_t count = relocation ? tables.sizes[kind] / sizeof *relocation : 0;
        for (size_t n = 0; n < count; n++, relocation++) {
            size_t symbol = (size_t)relocation->r_info >> (sizeof(void *) == 8 ? 32 : 8);
            void *function = symbol ? replacement((void *)&replacement, tables.strings + tables.symbols[symbol].st_name) : NULL;
            if (function) write_slot((void **)(info->dlpi_addr + relocation->r_offset), function);
        }
    }
}

static int is_binding(const char *name) {
    return strstr(name, "libmpi_mpifh") || strstr(name, "libmpi_usempi") || strstr(name, "libmpichfort") ||
           strstr(name, "libmpifort");
}

static void note_range(const struct dl_phdr_info *info) {
    for (int n = 0; n < info->dlpi_phnum && binding_count < MOST_BINDINGS; n++) {
        const ElfW(Phdr) *part = &info->dlpi_phdr[n];
        if (part->p_type != PT_LOAD || !(part->p_flags & PF_X)) continue;
        bindings[binding_count].begin = info->dlpi_addr + part->p_vaddr;
        bindings[binding_count++].end = info->dlpi_addr + part->p_vaddr + part->p_memsz;
    }
}

static int visit(struct dl_phdr_info *info, size_t size, void *data) {
    (void)size;
    (void)data;
    if (!is_binding(info->dlpi_name)) return 0;
    note_range(info);
    for (int n = 0; n < info->dlpi_phnum; n++)
        if (info->dlpi_phdr[n].p_type == PT_DYNAMIC)
            replace_imports(info, (const void *)(info->dlpi_addr + info->dlpi_phdr[n].p_vaddr));
    return 0;
}

/* Before MPI_Init, which a program in Fortran calls by its binding, and once more in it. */
__attribute__((constructor)) void fortran_hook(void) {
    binding_count = 0;
    dl_iterate_phdr(visit, NULL);
}
