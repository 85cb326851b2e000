/* A monitor with four cells at fixed places. Its calls have their number in a7: the host opens, enters and closes a cell, and asks for the sum of words
   of its own memory. A cell yields and finishes. The PMP entries are TOR, and a context is saved where it stays. */

#define READ_CSR(name) ({ unsigned value_; __asm__ volatile("csrr %0, " #name : "=r"(value_)); value_; })
#define WRITE_CSR(name, value) __asm__ volatile("csrw " #name ", %0" ::"r"(value) : "memory")

enum { CELLS = 4, CELL_SIZE = 0x2000, MAIL_SIZE = 0x1000, WORDS = 4 };
enum { FIRST_CELL = (int)0x80018000, MAIL = (int)0x80014000, MONITOR_END = (int)0x80010000 };
enum { OPEN = 1, ENTER, CLOSE, SUM, YIELD, FINISH };
enum { FREE, READY, RUNNING, LEFT };
enum { OK = 0, REFUSED = -1, FINISHED = 0, YIELDED = 1, INTERRUPTED = 2 };
enum { A0 = 10, A1, A7 = 17, MODE_S = 1, MPP_SHIFT = 11, MPP = 3 << MPP_SHIFT, TIMER = (int)0x80000007, CALL = 9, MTIE = 0x80 };
enum { SIE = 2, SPIE = 0x20, SPP = 0x100, MXR = 0x80000, SWITCHED = SIE | SPIE | SPP | MXR };
enum { TOR = 8, TOR_ALL = 15, TOR_DATA = 11 };

struct context {
    unsigned x[32]; /* x[0] is pc */
    unsigned stvec, sscratch, sepc, scause, stval, sstatus, mode;
};

struct cell {
    unsigned state, base, size;
    struct context context;
};

struct cell cells[CELLS];
static struct context host;
static struct cell *running; /* 0 while the host runs */
static unsigned ram_end;
unsigned key[2] = {0x1f2e3d4c, 0x5b6a7988};

unsigned long long load_as_world(unsigned address);

static void clear(void *to, unsigned size)
{
    for (volatile unsigned *word = to, *end = word + size / 4; word != end;)
        *word++ = 0;
}

/* ---- PMP */

/* Gives the host everything but the monitor and the cells that are in use: two entries for each cell, in the order of the cells. */
static void program_host(void)
{
    unsigned cfg[CELLS];

    for (int i = 0; i < CELLS; i++)
        cfg[i] = cells[i].state == FREE ? TOR_ALL : TOR;
    WRITE_CSR(pmpaddr0, (unsigned)MONITOR_END >> 2);
    WRITE_CSR(pmpaddr1, (unsigned)FIRST_CELL >> 2);
    WRITE_CSR(pmpaddr2, (FIRST_CELL + 1u * CELL_SIZE) >> 2);
    WRITE_CSR(pmpaddr3, (FIRST_CELL + 2u * CELL_SIZE) >> 2);
    WRITE_CSR(pmpaddr4, (FIRST_CELL + 3u * CELL_SIZE) >> 2);
    WRITE_CSR(pmpaddr5, (FIRST_CELL + 4u * CELL_SIZE) >> 2);
    WRITE_CSR(pmpaddr6, ram_end >> 2);
    WRITE_CSR(pmpcfg1, cfg[2] | cfg[3] << 8 | TOR_ALL << 16);
    WRITE_CSR(pmpcfg0, TOR | TOR_ALL << 8 | cfg[0] << 16 | cfg[1] << 24);
}

/* Gives a cell its memory and the mailbox. */
static void program_cell(const struct cell *cell)
{
    WRITE_CSR(pmpaddr0, (unsigned)MAIL >> 2);
    WRITE_CSR(pmpaddr1, ((unsigned)MAIL + MAIL_SIZE) >> 2);
    WRITE_CSR(pmpaddr2, cell->base >> 2);
    WRITE_CSR(pmpaddr3, (cell->base + cell->size) >> 2);
    WRITE_CSR(pmpcfg0, TOR_DATA << 8 | (unsigned)TOR_ALL << 24);
}

static void program_pmp(void)
{
    WRITE_CSR(pmpcfg1, 0);
    WRITE_CSR(pmpcfg0, 0);
    if (running)
        program_cell(running);
    else
        program_host();
    WRITE_CSR(mie, running ? MTIE : 0);
}

/* ---- contexts */

static struct context *current(void)
{
    return running ? &running->context : &host;
}

static void save(struct context *context)
{
    context->stvec = READ_CSR(stvec);
    context->sscratch = READ_CSR(sscratch);
    context->sepc = READ_CSR(sepc);
    context->scause = READ_CSR(scause);
    context->stval = READ_CSR(stval);
    context->sstatus = READ_CSR(sstatus) & SWITCHED;
    context->mode = (READ_CSR(mstatus) & MPP) >> MPP_SHIFT;
}

static struct context *restore(struct context *context)
{
    WRITE_CSR(mstatus, context->mode << MPP_SHIFT);
    WRITE_CSR(stvec, context->stvec);
    WRITE_CSR(sscratch, context->sscratch);
    WRITE_CSR(sepc, context->sepc);
    WRITE_CSR(scause, context->scause);
    WRITE_CSR(stval, context->stval);
    WRITE_CSR(sstatus, context->sstatus);
    return context;
}

static void answer(unsigned status, unsigned value)
{
    current()->x[A0] = status;
    current()->x[A1] = value;
}

static void enter(struct cell *cell)
{
    cell->state = RUNNING;
    running = cell;
    program_pmp();
}

static void leave(unsigned why, unsigned value)
{
    running->state = LEFT;
    running = 0;
    answer(why, value);
    program_pmp();
}

/* ---- calls */

static struct cell *cell_of(unsigned number)
{
    return number < CELLS ? &cells[number] : 0;
}

static void open(struct cell *cell)
{
    if (!cell || cell->state != FREE)
        return answer(REFUSED, 0);
    clear(&cell->context, sizeof cell->context);
    cell->base = FIRST_CELL + (cell - cells) * CELL_SIZE;
    cell->size = CELL_SIZE;
    cell->context.x[0] = cell->base;
    cell->context.x[A0] = MAIL;
    cell->context.mode = MODE_S;
    cell->state = READY;
    program_pmp();
    answer(OK, 0);
}

static void close(struct cell *cell)
{
    if (!cell || cell->state == FREE)
        return answer(REFUSED, 0);
    clear((void *)cell->base, cell->size);
    clear(&cell->context, sizeof cell->context);
    cell->state = FREE;
    program_pmp();
    answer(OK, 0);
}

/* Adds words of the host, which may give any address. */
static void sum(unsigned address)
{
    unsigned total = 0;

    for (int i = 0; i < WORDS; i++) {
        unsigned long long loaded = load_as_world(address + 4 * i);
        if (!(loaded >> 32))
            return answer(REFUSED, i);
        total += (unsigned)loaded;
    }
    answer(OK, total);
}

static void call_of_host(unsigned number, unsigned argument)
{
    struct cell *cell = cell_of(argument);

    switch (number) {
    case OPEN: return open(cell);
    case ENTER: return cell && (cell->state == READY || cell->state == LEFT) ? enter(cell) : answer(REFUSED, 0);
    case CLOSE: return close(cell);
    case SUM: return sum(argument);
    default: return answer(REFUSED, 0);
    }
}

static void call_of_cell(unsigned number, unsigned value)
{
    switch (number) {
    case YIELD:
        answer(OK, 0);
        return leave(YIELDED, value);
    case FINISH: return leave(FINISHED, value);
    default: return answer(REFUSED, 0);
    }
}

/* Redirects an exception to S of the same world. */
static void redirect(struct context *context, unsigned cause, unsigned value)
{
    unsigned status = context->sstatus & MXR;

    status |= context->sstatus & SIE ? SPIE : 0;
    status |= context->mode == MODE_S ? SPP : 0;
    context->sepc = context->x[0];
    context->scause = cause;
    context->stval = value;
    context->sstatus = status;
    context->mode = MODE_S;
    context->x[0] = context->stvec & ~3u;
}

struct context *handle_trap(struct context *context)
{
    unsigned cause = READ_CSR(mcause), value = READ_CSR(mtval);

    save(context);
    if (cause == (unsigned)TIMER) {
        leave(INTERRUPTED, 0);
    } else if (cause == CALL) {
        context->x[0] += 4;
        if (running)
            call_of_cell(context->x[A7], context->x[A0]);
        else
            call_of_host(context->x[A7], context->x[A0]);
    } else {
        redirect(context, cause, value);
    }
    return restore(current());
}

/* Starts the host in S, with all registers 0. */
struct context *monitor_start(unsigned address, unsigned ram)
{
    ram_end = 0x80000000u + ram;
    host.x[0] = address;
    host.mode = MODE_S;
    program_pmp();
    return restore(&host);
}
