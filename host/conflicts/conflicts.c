/*
 * conflicts.c - asks the proved library for every cell of the conflict table
 * and prints the tables of docs/CONFLICTS.md as its answers make them, a row a
 * line, cells parted by bars; host/conflicts/page compares them with the page.
 *
 * Every call is made on a store of its own, which real calls bring into its
 * state: fresh, two blocks written, two nexuses registered, one of them
 * reserving; nothing of that leaves an attention, so that no call is answered
 * with one (13) in place of its cell. Each type of reservation is met by the
 * nexus that reserved, by another that is registered and by one that is not; and
 * so is a store without a reservation. The nexus numbers change, so that nexus 0
 * (the holder field's value where no one nexus holds) is each of the three in
 * turn.
 *
 * Of a PLAIN call of a served row, answer 0 says Allowed and 10 says Conflict;
 * all calls of one cell must agree, and holders and stores without a
 * reservation allow everything. The other calls of a row have a fault: 10 comes
 * before it if it is tested after the table (LATER), and not if it is tested
 * before (ALWAYS). A refusal must leave the store and data-in alone, and one
 * without sense the sense buffer.
 *
 * Exit status: 0 the tables are printed; 1 an answer is none that they can hold,
 * which is told.
 */

#include <stdbool.h>
#include <stdio.h>
#include <string.h>

#include "forms.h"

enum { ROWS_ROOM = 64, SENSE_ROOM = 24, FILL = 0xC5, NACA = 4, UNTRIED = 99 };

enum sender { RESERVER, REGISTRANT, OUTSIDER, SENDERS };

static const uint32_t types[] = {0, 1, 3, 5, 6, 7, 8};
enum { TYPES = sizeof types / sizeof types[0] };

static const uint64_t arrangements[][SENDERS] = {
    {3, 5, 9}, {0, 14, 15}, {15, 0, 1}, {8, 7, 0}};
enum { ARRANGEMENTS = sizeof arrangements / sizeof arrangements[0] };

/* What a call is made on, and who makes it. */
struct scene {
    uint32_t type;
    bool registrations;
    const uint64_t *nexuses; /* by sender */
    bool reserver_first;     /* in the order of registering, and so of places */
    enum sender sender;
};

static const char *const column_names[COLUMNS][2] = {
    {"From any I_T nexus", "Write Exclusive"},
    {"From any I_T nexus", "Exclusive Access"},
    {"From registered I_T nexus", "(RR all types)"},
    {"From I_T nexus not registered", "Write Exclusive - RR"},
    {"From I_T nexus not registered", "Exclusive Access - RR"}};

static struct store {
    struct ridge_unit unit;
    uint64_t owners[SLOTS];
    struct ridge_marks marks;
    uint8_t medium[SLOTS * RIDGE_BLOCK_BYTES];
    uint8_t data_in[DATA_ROOM];
    uint8_t sense[SENSE_ROOM];
} store, before;
static uint64_t returned;

static const struct scene *scene;
static const char *row_name, *form_name;
static uint64_t cells[ROWS_ROOM][COLUMNS]; /* the answer 0 or 10, by row */
static uint64_t other_answers[ROWS_ROOM][CODES_OF_ROW];
static unsigned long calls, faults;

/* ---- Calls ---- */

static void fault(const char *what, uint64_t answer)
{
    static const char *const names[] = {"which reserved", "registered besides",
                                        "not registered"};
    const char *name = scene->type == 0 && scene->sender != OUTSIDER
                           ? "registered"
                           : names[scene->sender];
    fprintf(stderr,
            "conflicts: %s: %s, under type %d from nexus %d, %s: answer %d, %s\n",
            row_name, form_name, (int)scene->type,
            (int)scene->nexuses[scene->sender], name, (int)answer, what);
    faults++;
}

static uint64_t execute(uint64_t nexus, const uint8_t *cdb, size_t cdb_bytes,
                        const uint8_t *data_out, size_t data_out_bytes,
                        size_t data_in_bytes)
{
    calls++;
    return ridge_execute(RIDGE_FIXED, &store.unit, store.owners, SLOTS,
                         &store.marks, store.medium, sizeof store.medium,
                         nexus, cdb, cdb_bytes, data_out, data_out_bytes,
                         store.data_in, data_in_bytes, store.sense,
                         sizeof store.sense, &returned);
}

static void put(uint8_t *at, size_t bytes, uint64_t number)
{
    for (size_t place = 0; place < bytes; place++)
        at[place] = (uint8_t)(number >> (8 * (bytes - 1 - place)));
}

static uint64_t key_of(uint64_t nexus)
{
    return 0xA0 + nexus;
}

static uint64_t reserve_out(uint64_t nexus, uint8_t action, uint32_t type,
                            uint64_t key, uint64_t action_key)
{
    const uint8_t cdb[10] = {0x5F, action, (uint8_t)type, [8] = LIST_BYTES};
    uint8_t list[LIST_BYTES] = {0};
    put(list, 8, key);
    put(list + 8, 8, action_key);
    return execute(nexus, cdb, sizeof cdb, list, sizeof list, DATA_ROOM);
}

/* ---- The scene ---- */

static uint64_t register_sender(enum sender sender)
{
    uint64_t nexus = scene->nexuses[sender];
    return reserve_out(nexus, 0, 0, 0, key_of(nexus));
}

/* Fresh, then by calls; the sum of the answers is 0 if all were GOOD. */
static void set_scene(void)
{
    static const uint8_t cdb[10] = {0x2A, [5] = MAPPED, [8] = MAPPED_COUNT};
    static uint8_t blocks[MAPPED_COUNT * RIDGE_BLOCK_BYTES];
    enum sender first = scene->reserver_first ? RESERVER : REGISTRANT;
    uint64_t reserver = scene->nexuses[RESERVER];

    memset(&store, FILL, sizeof store);
    memset(blocks, 0x5A, sizeof blocks);
    uint64_t answers = ridge_fresh(CAPACITY, RIDGE_FIXED, &store.unit,
                                   store.owners, SLOTS, &store.marks);
    answers += execute(scene->nexuses[OUTSIDER], cdb, sizeof cdb, blocks,
                       sizeof blocks, DATA_ROOM);
    if (scene->registrations) {
        answers += register_sender(first);
        answers += register_sender(first == RESERVER ? REGISTRANT : RESERVER);
    }
    if (scene->type != 0)
        answers += reserve_out(reserver, 1, scene->type, key_of(reserver), 0);
    if (answers != 0)
        fault("the scene cannot be set", answers);
    for (size_t nexus = 0; nexus < RIDGE_NEXUSES; nexus++) {
        if (store.unit.attentions[nexus] != RIDGE_NO_ATTENTION)
            fault("the scene leaves an attention", answers);
    }
    memset(store.data_in, FILL, sizeof store.data_in);
    memset(store.sense, FILL, sizeof store.sense);
    before = store;
}

static bool all_hold(uint32_t type)
{
    return type == 7 || type == 8;
}

static unsigned standing_of_sender(void)
{
    if (scene->sender == OUTSIDER)
        return UNREGISTERED;
    if (scene->type != 0 && (scene->sender == RESERVER || all_hold(scene->type)))
        return HOLDS;
    return REGISTERED;
}

/* Where 004 has the sender's column; COLUMNS where there is none. Under 7 and 8
   the registered nexuses, who all hold, are met in the third. */
static enum column column_of(uint32_t type, enum sender sender)
{
    bool exclusive_access = type == 3 || type == 6 || type == 8;
    if (type == 0 || (sender == RESERVER && !all_hold(type)))
        return COLUMNS;
    if (type == 1 || type == 3)
        return exclusive_access ? EXCLUSIVE_ACCESS : WRITE_EXCLUSIVE;
    if (sender != OUTSIDER)
        return REGISTERED_RR;
    return exclusive_access ? EXCLUSIVE_ACCESS_RR : WRITE_EXCLUSIVE_RR;
}

/* ---- A form of a row ---- */

static bool applies(const struct form *form)
{
    unsigned reservation = scene->type == 0         ? NO_RESERVATION
                           : all_hold(scene->type) ? ALL_HOLD
                                                   : ONE_HOLDS;
    return (form->who == 0 || (form->who & standing_of_sender()) != 0) &&
           (form->reservation == 0 || (form->reservation & reservation) != 0);
}

static uint64_t key_for(enum key key)
{
    uint64_t nexus = scene->nexuses[scene->sender];
    uint64_t other =
        scene->nexuses[scene->sender == RESERVER ? REGISTRANT : RESERVER];
    switch (key) {
    case ZERO:
        return 0;
    case OWN:
        return key_of(nexus);
    case RIGHT:
        return scene->sender == OUTSIDER ? 0 : key_of(nexus);
    case OTHERS:
        return key_of(other);
    case NEW:
        return 0xB0;
    case NOBODYS:
    default:
        return 0xC0;
    }
}

/* Fills data-out as the form says; fixes the type that a CDB names. */
static void prepare(const struct form *form, uint8_t *cdb, uint8_t *data_out)
{
    uint32_t standing = scene->type == 0 ? 1 : scene->type;
    memcpy(cdb, form->cdb, CDB_ROOM);
    memset(data_out, form->sends == BLOCKS ? 0x3C : 0, DATA_ROOM);
    if (form->named == STANDING_TYPE)
        cdb[2] = (uint8_t)standing;
    if (form->named == OTHER_TYPE)
        cdb[2] = standing == 3 ? 1 : 3;
    if (form->sends == KEYS) {
        put(data_out, 8, key_for(form->key));
        put(data_out + 8, 8, key_for(form->action_key));
    }
    if (form->sends == DESCRIPTORS)
        put(data_out + 2, 2, form->descriptors * DESCRIPTOR_BYTES);
    for (size_t number = 0; number < form->descriptors; number++) {
        uint8_t *descriptor = data_out + 8 + number * DESCRIPTOR_BYTES;
        put(descriptor, 8, form->address + number);
        put(descriptor + 8, 4, 1);
    }
}

/* A refusal leaves the store and data-in alone; 10, 11 and 12 have no sense. */
static void want_nothing_changed(uint64_t answer)
{
    if (memcmp(&store.unit, &before.unit, sizeof store.unit) != 0)
        fault("and the record changed", answer);
    if (memcmp(store.owners, before.owners, sizeof store.owners) != 0)
        fault("and the owners changed", answer);
    if (memcmp(&store.marks, &before.marks, sizeof store.marks) != 0)
        fault("and the marks changed", answer);
    if (memcmp(store.medium, before.medium, sizeof store.medium) != 0)
        fault("and the medium changed", answer);
    if (memcmp(store.data_in, before.data_in, sizeof store.data_in) != 0 ||
        returned != 0)
        fault("and data-in changed", answer);
    if (answer >= RIDGE_CONFLICT &&
        memcmp(store.sense, before.sense, sizeof store.sense) != 0)
        fault("and sense changed", answer);
}

static uint64_t send(const struct form *form, size_t cdb_bytes, uint8_t control)
{
    uint8_t cdb[CDB_ROOM], data_out[DATA_ROOM];
    set_scene();
    prepare(form, cdb, data_out);
    cdb[form->cdb_bytes - 1] |= control;
    uint64_t answer =
        execute(scene->nexuses[scene->sender], cdb, cdb_bytes, data_out,
                form->data_out_bytes,
                form->data_in_bytes != 0 ? form->data_in_bytes : DATA_ROOM);
    if (answer != RIDGE_GOOD)
        want_nothing_changed(answer);
    return answer;
}

/* ---- A row ---- */

/* The table's part: 0 or 10, alike for all of the cell. What is tested before
   the table, NACA and the length of the CDB, has its answer in every cell. */
static void try_plain(const struct form *form, uint64_t *cell)
{
    uint64_t answer = send(form, form->cdb_bytes, 0);
    if (answer != RIDGE_GOOD && answer != RIDGE_CONFLICT)
        fault("which is neither Allowed nor Conflict", answer);
    else if (*cell == UNTRIED)
        *cell = answer;
    else if (*cell != answer)
        fault(column_of(scene->type, scene->sender) == COLUMNS
                  ? "wanted 0, for it has no column"
                  : "unlike other calls of this cell",
              answer);
    answer = send(form, form->cdb_bytes, NACA);
    if (answer != RIDGE_CDB_FIELD)
        fault("wanted 2 for NACA", answer);
    answer = send(form, form->cdb_bytes - 1, 0);
    if (answer != RIDGE_UNUSABLE)
        fault("wanted 11 for the length of the CDB", answer);
}

static void try_fault(const struct form *form, uint64_t cell)
{
    bool stopped = form->rule == LATER && cell == RIDGE_CONFLICT;
    uint64_t wanted = stopped ? RIDGE_CONFLICT : form->answer;
    uint64_t answer = send(form, form->cdb_bytes, 0);
    if (answer != wanted)
        fault(stopped ? "wanted 10, before the fault" : "wanted its own fault",
              answer);
}

static void try_row(size_t number)
{
    const struct row *row = &rows[number];
    enum column column = column_of(scene->type, scene->sender);
    uint64_t passing = RIDGE_GOOD;
    uint64_t *cell = column == COLUMNS ? &passing : &cells[number][column];
    row_name = row->name;
    for (size_t pass = 0; pass < 2; pass++) {
        for (size_t i = 0; i < row->count; i++) {
            form_name = row->forms[i].name;
            if (!applies(&row->forms[i]))
                continue;
            if (pass == 0 && row->forms[i].rule == PLAIN)
                try_plain(&row->forms[i], cell);
            if (pass == 1 && row->forms[i].rule != PLAIN)
                try_fault(&row->forms[i], *cell);
        }
    }
}

/* A command that is not served has one answer, whoever sends it and when. */
static void try_other_row(size_t number)
{
    row_name = other_rows[number].name;
    for (size_t i = 0; i < CODES_OF_ROW; i++) {
        const struct code *code = &other_rows[number].codes[i];
        struct form form = {.sends = BLOCKS, .data_out_bytes = DATA_ROOM,
                            .cdb_bytes = code->cdb_bytes};
        if (code->cdb_bytes == 0)
            continue;
        form_name = code->form;
        memcpy(form.cdb, code->cdb, CDB_ROOM);
        uint64_t answer = send(&form, code->cdb_bytes, 0);
        if (answer != RIDGE_CODE_NOT_LISTED && answer != RIDGE_CDB_FIELD)
            fault("which is neither 1 nor 2", answer);
        if (other_answers[number][i] == UNTRIED)
            other_answers[number][i] = answer;
        if (other_answers[number][i] != answer)
            fault("unlike other senders of this command", answer);
    }
}

static void try_scene(const struct scene *played)
{
    scene = played;
    for (size_t number = 0; number < rows_count; number++)
        try_row(number);
    for (size_t number = 0; number < other_rows_count; number++)
        try_other_row(number);
}

static void try_everything(void)
{
    for (size_t i = 0; i < ARRANGEMENTS; i++) {
        for (size_t type = 0; type < TYPES; type++) {
            for (enum sender sender = 0; sender < SENDERS; sender++)
                try_scene(&(struct scene){types[type], true, arrangements[i],
                                          i % 2 == 0, sender});
        }
        try_scene(&(struct scene){0, false, arrangements[i], false, OUTSIDER});
    }
}

/* ---- The tables as the page has them ---- */

static void print_heads(const char *table, size_t line, const char *first,
                        const char *second, const char *last)
{
    printf("%s|%s|%s", table, first, second);
    for (size_t column = 0; column < COLUMNS; column++)
        printf("|%s", column_names[column][line]);
    printf("%s\n", last);
}

static void print_finder(void)
{
    static const char *const names[TYPES] = {
        "none", "1, Write Exclusive", "3, Exclusive Access",
        "5, Write Exclusive - Registrants Only",
        "6, Exclusive Access - Registrants Only",
        "7, Write Exclusive - All Registrants",
        "8, Exclusive Access - All Registrants"};
    puts("finder|The reservation's type|The holder sends"
         "|Another registered nexus sends|A nexus not registered sends");
    for (size_t type = 0; type < TYPES; type++) {
        printf("finder|%s", names[type]);
        for (enum sender sender = 0; sender < SENDERS; sender++) {
            enum column column = column_of(types[type], sender);
            if (types[type] == 0 && sender == RESERVER)
                printf("|(nobody holds)");
            else if (all_hold(types[type]) && sender == REGISTRANT)
                printf("|(all of them hold)");
            else if (column == COLUMNS)
                printf("|passes");
            else
                printf("|%s%s%s %s", sender == RESERVER ? "passes; in 004 " : "",
                       column_names[column][0],
                       column == REGISTERED_RR ? "" : ",",
                       column_names[column][1]);
        }
        puts("");
    }
}

static const char *source_cell(char letter)
{
    switch (letter) {
    case 'A':
        return "Allowed";
    case 'C':
        return "Conflict";
    case 'n':
        return "Allowed (d)";
    case 'p':
        return "no row (a)";
    case 'u':
        return "no row (g)";
    default:
        return "empty (e)";
    }
}

static bool is_opposite(char left, char right)
{
    return (left == 'A' && right == 'C') || (left == 'C' && right == 'A');
}

/* A mark stands exactly where 004 has no row, or another cell than ours. */
static void print_served(void)
{
    print_heads("served", 0, "Command", "", "");
    print_heads("served", 1, "", "", "");
    for (size_t number = 0; number < rows_count; number++) {
        const struct row *row = &rows[number];
        printf("served|%s|here", row->name);
        for (size_t column = 0; column < COLUMNS; column++)
            printf("|%s", source_cell(cells[number][column] == 0 ? 'A' : 'C'));
        printf("\nserved|%s|004", row->source_name);
        for (size_t column = 0; column < COLUMNS; column++) {
            char ours = cells[number][column] == 0 ? 'A' : 'C';
            char theirs = row->source_cells[column];
            printf("|%s%s", source_cell(theirs),
                   is_opposite(ours, theirs) ? " (b)" : "");
        }
        puts("");
    }
}

static void print_codes(const struct other_row *row)
{
    int printed = -1; /* two calls may have one code */
    for (size_t i = 0; i < CODES_OF_ROW; i++) {
        const uint8_t *cdb = row->codes[i].cdb;
        if (row->codes[i].cdb_bytes == 0 || printed == cdb[0])
            continue;
        printf("%s%02Xh", i == 0 ? "" : ", ", cdb[0]);
        if (row->codes[i].cdb_bytes == CDB_ROOM)
            printf("/%02X%02Xh", cdb[8], cdb[9]);
        else if (cdb[0] == 0x9E || cdb[0] == 0x9F)
            printf("/%02Xh", cdb[1]);
        printed = cdb[0];
    }
}

static void print_answers(size_t number)
{
    const uint64_t *answers = other_answers[number];
    const struct code *codes = other_rows[number].codes;
    bool alike = true;
    for (size_t i = 1; i < CODES_OF_ROW; i++)
        alike &= codes[i].cdb_bytes == 0 || answers[i] == answers[0];
    for (size_t i = 0; i < (alike ? 1 : CODES_OF_ROW); i++) {
        if (codes[i].cdb_bytes == 0)
            continue;
        printf("%s%s%s%d %s", i == 0 ? "" : ", ", alike ? "" : codes[i].form,
               alike ? "" : " ", (int)answers[i],
               answers[i] == RIDGE_CODE_NOT_LISTED ? "(b)" : "(c)");
    }
}

static void print_others(void)
{
    print_heads("other", 1, "Command", "Code", "|Here, to everybody");
    for (size_t number = 0; number < other_rows_count; number++) {
        const struct other_row *row = &other_rows[number];
        printf("other|%s|", row->name);
        print_codes(row);
        for (size_t column = 0; column < COLUMNS; column++)
            printf("|%s", source_cell(row->source_cells[column]));
        printf("|");
        print_answers(number);
        puts("");
    }
}

static void want_all_tried(void)
{
    for (size_t number = 0; number < rows_count; number++) {
        for (size_t column = 0; column < COLUMNS; column++) {
            if (cells[number][column] != UNTRIED)
                continue;
            fprintf(stderr, "conflicts: %s: nothing was sent for %s, %s\n",
                    rows[number].name, column_names[column][0],
                    column_names[column][1]);
            faults++;
        }
    }
}

int main(void)
{
    if (rows_count > ROWS_ROOM || other_rows_count > ROWS_ROOM)
        return 1;
    for (size_t number = 0; number < rows_count; number++) {
        for (size_t column = 0; column < COLUMNS; column++)
            cells[number][column] = UNTRIED;
    }
    for (size_t number = 0; number < other_rows_count; number++) {
        for (size_t i = 0; i < CODES_OF_ROW; i++)
            other_answers[number][i] = UNTRIED;
    }
    try_everything();
    want_all_tried();
    if (faults != 0) {
        fprintf(stderr, "conflicts: %lu faults in %lu calls\n", faults, calls);
        return 1;
    }
    print_finder();
    print_served();
    print_others();
    printf("count|%zu|%lu\n", rows_count * COLUMNS, calls);
    return 0;
}
