/* Where the files of the program's code lie in memory, for who turns code addresses into source lines. It is told by the program, since
 * it may have ended when its last events are read. */
#include <link.h>
#include <stdio.h>
#include <unistd.h>

#include "recorder.h"

/* The segment in which an address was looked for, and the file that it is of. */
struct search {
    uintptr_t code;
    uintptr_t low, high;
};

static _Atomic bool is_telling;

static const char *name_of(const struct dl_phdr_info *info, char *room, size_t length)
{
    if (info->dlpi_name && info->dlpi_name[0]) {
        return info->dlpi_name;
    }
    ssize_t used = readlink("/proc/self/exe", room, length - 1);
    room[used > 0 ? used : 0] = '\0';
    return room;
}

/* Some file names are so long that there is no room for them; then the file has no source lines. */
static void tell_segment(uintptr_t low, uintptr_t high, uintptr_t offset, const char *name)
{
    uint32_t used = atomic_load(&ring->maps_used);
    int length = snprintf(ring->maps + used, sizeof ring->maps - used, "map %#lx %#lx %#lx %s\n", low, high, offset, name);
    if (length > 0 && (size_t)length < sizeof ring->maps - used) {
        atomic_store(&ring->maps_used, used + (uint32_t)length);
    }
}

static bool has_code(const struct dl_phdr_info *info, struct search *search)
{
    for (int i = 0; i < info->dlpi_phnum; i++) {
        uintptr_t low = info->dlpi_addr + info->dlpi_phdr[i].p_vaddr;
        if (info->dlpi_phdr[i].p_type == PT_LOAD && search->code - low < info->dlpi_phdr[i].p_memsz) {
            search->low = low;
            search->high = low + info->dlpi_phdr[i].p_memsz;
            return true;
        }
    }
    return false;
}

/* Whether the file that begins here was told before; it counts as told from then on. */
static bool is_told(uintptr_t base)
{
    enum { FILES = 1024 };
    static uintptr_t told[FILES];
    static int used;
    for (int i = 0; i < used; i++) {
        if (told[i] == base) {
            return true;
        }
    }
    if (used < FILES) {
        told[used++] = base;
    }
    return false;
}

static int look_at(struct dl_phdr_info *info, size_t length, void *given)
{
    (void)length;
    if (!has_code(info, given)) {
        return 0;
    }
    if (is_told(info->dlpi_addr)) {
        return 1;
    }
    char room[4096];
    const char *name = name_of(info, room, sizeof room);
    for (int i = 0; i < info->dlpi_phnum; i++) {
        const ElfW(Phdr) *part = &info->dlpi_phdr[i];
        if (part->p_type == PT_LOAD) {
            uintptr_t low = info->dlpi_addr + part->p_vaddr;
            tell_segment(low, low + part->p_memsz, part->p_offset, name);
        }
    }
    return 1;
}

void note_code(uintptr_t code)
{
    if (atomic_exchange(&is_telling, true)) {
        /* Another thread is at it; the next event of this one asks again. */
        return;
    }
    struct search search = {.code = code, .low = code, .high = code + 1};
    self.is_own_call = true;
    dl_iterate_phdr(look_at, &search);
    self.is_own_call = false;
    self.code_low = search.low;
    self.code_high = search.high;
    atomic_store(&is_telling, false);
}
