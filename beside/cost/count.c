/* A plugin of qemu-user that counts the instructions that a program executes, and writes the number to standard error at its end. With an argument
 * (-plugin count.so,by=FILE) it also writes to FILE a line for each function of the program: the instructions executed in it, and its name. What has no
 * name in the program's own file, as the C library and the loader, is one line, `-`. An instruction that repeats itself (rep movsb) counts as often as it
 * does so. The header of the plugins is not packaged: what is called is declared here. VERSION is that of the plugins' interface (1 to qemu 8, 2 since
 * qemu 9); what is called is alike in both. */
#include <inttypes.h>
#include <stdio.h>
#include <stdlib.h>
#include <string.h>

typedef uint64_t qemu_plugin_id_t;
struct qemu_plugin_tb;
struct qemu_plugin_insn;
enum qemu_plugin_cb_flags { QEMU_PLUGIN_CB_NO_REGS };

void qemu_plugin_register_vcpu_tb_trans_cb(qemu_plugin_id_t id, void (*each)(qemu_plugin_id_t id, struct qemu_plugin_tb *tb));
size_t qemu_plugin_tb_n_insns(const struct qemu_plugin_tb *tb);
struct qemu_plugin_insn *qemu_plugin_tb_get_insn(const struct qemu_plugin_tb *tb, size_t number);
const char *qemu_plugin_insn_symbol(const struct qemu_plugin_insn *insn);
void qemu_plugin_register_vcpu_tb_exec_cb(struct qemu_plugin_tb *tb, void (*each)(unsigned vcpu, void *data), enum qemu_plugin_cb_flags flags, void *data);
void qemu_plugin_register_atexit_cb(qemu_plugin_id_t id, void (*last)(qemu_plugin_id_t id, void *data), void *data);

int qemu_plugin_version = VERSION;

/* A function of the program. There are some thousands at most, and each is looked for only when code of it is translated. */
struct function {
    struct function *next;
    char *name;
    uint64_t executed;
};

/* A stretch of code that is executed from its first instruction to its last. */
struct stretch {
    struct function *in;
    uint64_t instructions;
};

static uint64_t executed;
static struct function *functions;
static const char *path;

static struct function *named(const char *name)
{
    struct function *f;
    if (name == NULL || *name == 0)
        name = "-";
    for (f = functions; f != NULL; f = f->next)
        if (strcmp(f->name, name) == 0)
            return f;
    f = calloc(1, sizeof *f);
    f->name = strdup(name);
    f->next = functions;
    return functions = f;
}

static void entered(unsigned vcpu, void *data)
{
    struct stretch *stretch = data;
    (void)vcpu;
    executed += stretch->instructions;
    stretch->in->executed += stretch->instructions;
}

static void translated(qemu_plugin_id_t id, struct qemu_plugin_tb *tb)
{
    struct stretch *stretch = malloc(sizeof *stretch);
    (void)id;
    stretch->in = named(qemu_plugin_insn_symbol(qemu_plugin_tb_get_insn(tb, 0)));
    stretch->instructions = qemu_plugin_tb_n_insns(tb);
    qemu_plugin_register_vcpu_tb_exec_cb(tb, entered, QEMU_PLUGIN_CB_NO_REGS, stretch);
}

static void ended(qemu_plugin_id_t id, void *data)
{
    (void)id;
    (void)data;
    fprintf(stderr, "instructions %" PRIu64 "\n", executed);
    if (path != NULL) {
        FILE *file = fopen(path, "w");
        struct function *f;
        if (file == NULL) {
            fprintf(stderr, "cannot be written: %s\n", path);
            return;
        }
        for (f = functions; f != NULL; f = f->next)
            fprintf(file, "%" PRIu64 " %s\n", f->executed, f->name);
        fclose(file);
    }
}

int qemu_plugin_install(qemu_plugin_id_t id, const void *info, int argc, char **argv)
{
    (void)info;
    if (argc > 0 && strncmp(argv[0], "by=", 3) == 0)
        path = strdup(argv[0] + 3);
    qemu_plugin_register_vcpu_tb_trans_cb(id, translated);
    qemu_plugin_register_atexit_cb(id, ended, NULL);
    return 0;
}
