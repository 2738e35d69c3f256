/* A plugin of qemu-user that counts x86-64 instructions between marks, exactly. A mark is close(0x7ead0000 + ID): 1 sets the
   counts to zero; any other prints "mark ID COUNT", and 2 also "at ADDRESS COUNT" for each place. A program that sets no mark
   has all of it printed at its end, as mark 0. Single-threaded programs only. API is 1 for qemu before 9 and 2 from then on.
   The declarations are written out, since Debian ships no qemu-plugin.h. */
#include <inttypes.h>
#include <stdio.h>
#include <stdlib.h>

#define SHOWN __attribute__((visibility("default")))
typedef uint64_t plugin;
struct qemu_plugin_tb;
typedef void translated(plugin, struct qemu_plugin_tb *);
typedef void executed(unsigned, void *);
typedef void called(plugin, unsigned, int64_t, uint64_t, uint64_t, uint64_t, uint64_t, uint64_t, uint64_t, uint64_t, uint64_t);
typedef void ended(plugin, void *);
size_t qemu_plugin_tb_n_insns(const struct qemu_plugin_tb *);
uint64_t qemu_plugin_tb_vaddr(const struct qemu_plugin_tb *);
void qemu_plugin_register_vcpu_tb_trans_cb(plugin, translated *);
void qemu_plugin_register_vcpu_tb_exec_cb(struct qemu_plugin_tb *, executed *, int flags, void *);
void qemu_plugin_register_vcpu_syscall_cb(plugin, called *);
void qemu_plugin_register_atexit_cb(plugin, ended *, void *);
void qemu_plugin_outs(const char *);
SHOWN int qemu_plugin_version = API;

/* A run of instructions that are executed together. */
struct place {
    uint64_t address, length, count;
    struct place *next;
};
static struct place *places;
static uint64_t count;
static int is_marked;

static void on_executed(unsigned cpu, void *data) {
    (void)cpu;
    struct place *place = data;
    place->count += place->length;
    count += place->length;
}

static void on_translated(plugin id, struct qemu_plugin_tb *block) {
    (void)id;
    struct place *place = malloc(sizeof *place);
    *place = (struct place){ qemu_plugin_tb_vaddr(block), qemu_plugin_tb_n_insns(block), 0, places };
    places = place;
    qemu_plugin_register_vcpu_tb_exec_cb(block, on_executed, 0, place);
}

static void print(const char *form, uint64_t first, uint64_t second) {
    char line[80];
    snprintf(line, sizeof line, form, first, second);
    qemu_plugin_outs(line);
}

static void print_places(void) {
    for (struct place *place = places; place; place = place->next)
        if (place->count)
            print("at %" PRIx64 " %" PRIu64 "\n", place->address, place->count);
}

static void begin(void) {
    count = 0;
    for (struct place *place = places; place; place = place->next)
        place->count = 0;
}

static void on_call(plugin id, unsigned cpu, int64_t number, uint64_t file, uint64_t b, uint64_t c, uint64_t d, uint64_t e,
                    uint64_t f, uint64_t g, uint64_t h) {
    (void)id, (void)cpu, (void)b, (void)c, (void)d, (void)e, (void)f, (void)g, (void)h;
    if (number != 3 || (file & 0xffff0000) != 0x7ead0000)
        return;
    uint64_t mark = file & 0xffff;
    is_marked = 1;
    if (mark == 1) {
        begin();
        return;
    }
    print("mark %" PRIu64 " %" PRIu64 "\n", mark, count);
    if (mark == 2)
        print_places();
}

static void on_end(plugin id, void *data) {
    (void)id, (void)data;
    if (is_marked)
        return;
    print("mark %" PRIu64 " %" PRIu64 "\n", 0, count);
    print_places();
}

SHOWN int qemu_plugin_install(plugin id, const void *info, int words, char **word) {
    (void)info, (void)words, (void)word;
    qemu_plugin_register_vcpu_tb_trans_cb(id, on_translated);
    qemu_plugin_register_vcpu_syscall_cb(id, on_call);
    qemu_plugin_register_atexit_cb(id, on_end, 0);
    return 0;
}
