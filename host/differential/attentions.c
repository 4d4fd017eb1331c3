/*
 * attentions.c - attentions that are due, and what calls came to of them;
 * attentions.h says what for.
 */

#include "attentions.h"

/* ---- The tables ---- */

enum axis_number {
    ALONE, /* of a table that has fewer axes */
    CODES,
    OLD_CODES,
    FORMATS,
    NEXUSES,
    PLACES,
    COMMANDS,
    SENDERS,
    ANSWERS_INSTEAD,
    OTHERS_WAITING,
    INQUIRIES,
    REASONS,
    NEIGHBOURS,
    TYPES,
    TYPES_BUT_OF_ALL,
    TYPES_HELD,
    TYPES_OF_ONE,
    TYPES_OF_ALL,
    TYPES_NAMED,
    SAME_OR_OTHER,
    WITH_ACTION,
    LEFT,
    LEFT_OR_OTHER_TYPE,
    PREEMPTED,
    FROM_HOLDER,
    TAKEN_OVER,
    NUMBERS,
    BETWEEN,
    CODES_OF_REMOVED,
    MADE_OR_AGAIN,
    WRONG_CODES,
    AXIS_NUMBERS
};

static const struct axis axes[AXIS_NUMBERS] = {
    [ALONE] = {1, {""}},
    [CODES] = {3, {"2A/05", "2A/03", "2A/04"}},
    [OLD_CODES] = {4, {"nothing", "2A/05", "2A/03", "2A/04"}},
    [FORMATS] = {2, {"fixed", "descriptor"}},
    [NEXUSES] = {16, {"0", "1", "2", "3", "4", "5", "6", "7", "8", "9", "10",
                      "11", "12", "13", "14", "15"}},
    [PLACES] = {8, {"1st", "2nd", "3rd", "4th", "5th", "6th", "7th", "8th"}},
    [COMMANDS] = {20, {"TEST UNIT READY", "READ CAPACITY(10)",
                       "READ CAPACITY(16)", "GET LBA STATUS",
                       "9Eh of another action", "READ(10)", "READ(16)",
                       "WRITE(10)", "WRITE(16)", "WRITE SAME", "UNMAP",
                       "READ KEYS", "READ RESERVATION", "REGISTER", "RESERVE",
                       "RELEASE", "CLEAR", "PREEMPT",
                       "REGISTER AND IGNORE EXISTING KEY",
                       "5Eh or 5Fh of another action"}},
    [SENDERS] = {4, {"a stranger", "one that is shut out", "a registrant",
                     "a holder"}},
    [ANSWERS_INSTEAD] = {10, {"0", "2", "3", "4", "5", "6", "7", "8", "10",
                              "12"}},
    [OTHERS_WAITING] = {5, {"for nobody else", "for the nexus before",
                            "for the nexus behind", "for another one",
                            "for all"}},
    [INQUIRIES] = {8, {"of the standard data", "of page 00h", "of page B0h",
                       "of page B2h", "refused for NACA",
                       "refused for its page", "refused for a page code",
                       "refused for short data-in"}},
    [REASONS] = {9, {"a code that is not listed",
                     "an INQUIRY of another length",
                     "another command of another length", "no CDB",
                     "too little sense", "a format that is none",
                     "too many slots or medium of another length",
                     "an invalid state",
                     "a nexus above 15 with its bits"}},
    [NEIGHBOURS] = {2, {"before", "behind"}},
    [TYPES] = {7, {"no type", "type 1", "type 3", "type 5", "type 6", "type 7",
                   "type 8"}},
    [TYPES_BUT_OF_ALL] = {5, {"no type", "type 1", "type 3", "type 5",
                              "type 6"}},
    [TYPES_HELD] = {6, {"type 1", "type 3", "type 5", "type 6", "type 7",
                        "type 8"}},
    [TYPES_OF_ONE] = {4, {"type 1", "type 3", "type 5", "type 6"}},
    [TYPES_OF_ALL] = {2, {"type 7", "type 8"}},
    [TYPES_NAMED] = {6, {"1 named", "3 named", "5 named", "6 named", "7 named",
                         "8 named"}},
    [SAME_OR_OTHER] = {2, {"the same type named", "another type named"}},
    [WITH_ACTION] = {2, {"by action 0", "by action 6"}},
    [LEFT] = {2, {"others registered", "nobody else registered"}},
    [LEFT_OR_OTHER_TYPE] = {3, {"others registered", "nobody else registered",
                                "another type named"}},
    [PREEMPTED] = {4, {"one other", "several others", "the sender and others",
                       "the sender alone"}},
    [FROM_HOLDER] = {4, {"by another", "by one that shares it",
                         "by the holder, from those that share it",
                         "by the holder, from nobody"}},
    [TAKEN_OVER] = {3, {"from nobody", "from one", "from several"}},
    [NUMBERS] = {2, {"one", "several"}},
    [BETWEEN] = {4, {"from a holder to a holder", "from a holder to another",
                     "from no holder to another",
                     "to one that shares the sender's key"}},
    [CODES_OF_REMOVED] = {2, {"2A/05", "2A/03"}},
    [MADE_OR_AGAIN] = {2, {"made", "made again"}},
    [WRONG_CODES] = {5, {"4", "128", "255", "a listed one and a bit above it",
                         "another"}},
};

enum table_number {
    TOLD_IN_FORMAT,
    TOLD_BY_COMMAND,
    TOLD_TO_NEXUS,
    TOLD_TO_SENDER,
    TOLD_INSTEAD,
    TOLD_BESIDE,
    INQUIRY_PASSES,
    CALL_LEAVES,
    NEIGHBOUR_WAITS,
    WRONG_AT_NEXUS,
    WRONG_CODE,
    PREEMPT_OTHERS_KEY,
    PREEMPT_HOLDERS_KEY,
    PREEMPT_NAMES,
    PREEMPT_ZERO_KEY,
    RELEASE_BY_HOLDER,
    RELEASE_BY_OTHER,
    UNREGISTER_HOLDER,
    UNREGISTER_OTHER,
    OTHER_KEY,
    REGISTERED,
    RESERVED,
    CLEARED,
    SENT_OVER,
    SENT_TO_NEXUS,
    SENT_TO_PLACE,
    SENT_TO_NUMBER,
    SENT_BETWEEN,
    SENT_TO_HOLDER,
    SENT_BESIDE,
    TABLES
};

_Static_assert((int)TABLES == (int)ATTENTION_TABLES,
               "attentions.h has as many");

static const struct table tables[TABLES] = {
    [TOLD_IN_FORMAT] = {"told in a format", {CODES, FORMATS}},
    [TOLD_BY_COMMAND] = {"told by a command", {COMMANDS}},
    [TOLD_TO_NEXUS] = {"told to a nexus", {CODES, NEXUSES}},
    [TOLD_TO_SENDER] = {"told to", {CODES, SENDERS}},
    [TOLD_INSTEAD] = {"told in place of the answer", {ANSWERS_INSTEAD}},
    [TOLD_BESIDE] = {"told where something waits", {OTHERS_WAITING}},
    [INQUIRY_PASSES] = {"INQUIRY where something waits", {CODES, INQUIRIES}},
    [CALL_LEAVES] = {"left waiting by", {REASONS}},
    [NEIGHBOUR_WAITS] = {"served while something waits for the nexus",
                         {CODES, NEIGHBOURS}},
    [WRONG_AT_NEXUS] = {"not listed, at nexus", {NEXUSES}},
    [WRONG_CODE] = {"not listed, the number", {WRONG_CODES}},
    [PREEMPT_OTHERS_KEY] = {"PREEMPT of another key", {TYPES, PREEMPTED}},
    [PREEMPT_HOLDERS_KEY] = {"PREEMPT of the holder's key",
                             {TYPES_OF_ONE, FROM_HOLDER, SAME_OR_OTHER}},
    [PREEMPT_NAMES] = {"PREEMPT of the holder's key, others left",
                       {TYPES_OF_ONE, TYPES_NAMED}},
    [PREEMPT_ZERO_KEY] = {"PREEMPT of the key 0", {TYPES_OF_ALL, TAKEN_OVER}},
    [RELEASE_BY_HOLDER] = {"RELEASE by a holder",
                           {TYPES_HELD, LEFT_OR_OTHER_TYPE}},
    [RELEASE_BY_OTHER] = {"RELEASE by no holder, others registered",
                          {TYPES_BUT_OF_ALL}},
    [UNREGISTER_HOLDER] = {"a holder unregisters",
                           {TYPES_HELD, WITH_ACTION, LEFT}},
    [UNREGISTER_OTHER] = {"one that holds nothing unregisters",
                          {TYPES_BUT_OF_ALL, WITH_ACTION}},
    [OTHER_KEY] = {"a holder changes its key", {TYPES_HELD, WITH_ACTION}},
    [REGISTERED] = {"a stranger registers beside others",
                    {TYPES, WITH_ACTION}},
    [RESERVED] = {"RESERVE beside others", {TYPES_HELD, MADE_OR_AGAIN}},
    [CLEARED] = {"CLEAR", {TYPES, LEFT}},
    [SENT_OVER] = {"sent to one for whom waits", {CODES, OLD_CODES}},
    [SENT_TO_NEXUS] = {"sent to nexus", {CODES, NEXUSES}},
    [SENT_TO_PLACE] = {"sent to a place", {CODES, PLACES}},
    [SENT_TO_NUMBER] = {"sent to", {CODES, NUMBERS}},
    [SENT_BETWEEN] = {"sent", {CODES, BETWEEN}},
    [SENT_TO_HOLDER] = {"sent from no holder to the holder",
                        {CODES_OF_REMOVED}},
    [SENT_BESIDE] = {"sent while for a stranger waits", {CODES, CODES}},
};

const struct tables attention_tables = {"attention", axes, tables};

static void count(struct attention_counts *counts, enum table_number table,
                  size_t first, size_t second, size_t third)
{
    const size_t at[TABLE_AXES] = {first, second, third};

    counts->of[table][table_cell(&attention_tables, table, at)]++;
}

/* ---- A call ---- */

static uint64_t number(const uint8_t *bytes, size_t bytes_count)
{
    uint64_t value = 0;

    while (bytes_count-- > 0)
        value = value << 8 | *bytes++;
    return value;
}

static uint8_t action_of(const struct occasion *call)
{
    return call->cdb[1] & 0x1F;
}

static bool was_registered(const struct occasion *call, uint64_t nexus)
{
    return key_of(&call->unit->rights, nexus) != 0;
}

static bool is_registered(const struct occasion *call, uint64_t nexus)
{
    return key_of(&call->after->rights, nexus) != 0;
}

/* What waited for the sender before the call. */
static uint8_t waited(const struct occasion *call)
{
    return call->nexus > RIDGE_NEXUS_LAST ? RIDGE_NO_ATTENTION
                                          : call->unit->attentions[call->nexus];
}

static bool is_holder(const struct ridge_rights *rights, uint64_t nexus)
{
    if (rights->type == 0)
        return false;
    return rights->type >= 7 ? key_of(rights, nexus) != 0
                             : rights->holder == nexus;
}

/* ---- What is due ---- */

bool attention_is_due(const struct occasion *call)
{
    return waited(call) != RIDGE_NO_ATTENTION && call->cdb[0] != 0x12;
}

/* What a reservation-out call that was done has to let another nexus know. */
static uint8_t notice_due(const struct occasion *call, uint64_t nexus)
{
    uint32_t held = call->unit->rights.type;
    bool ended = held >= 5 && call->after->rights.type != held;
    bool removed = was_registered(call, nexus) && !is_registered(call, nexus);

    if (nexus == call->nexus)
        return RIDGE_NO_ATTENTION;
    if (removed && action_of(call) == 4)
        return RIDGE_REGISTRATIONS_PREEMPTED;
    if (removed)
        return RIDGE_RESERVATIONS_PREEMPTED;
    return ended && is_registered(call, nexus) ? RIDGE_RESERVATIONS_RELEASED
                                               : RIDGE_NO_ATTENTION;
}

uint8_t attention_due(const struct occasion *call, uint64_t nexus)
{
    uint8_t notice = RIDGE_NO_ATTENTION;

    if (call->answer == RIDGE_ATTENTION && nexus == call->nexus)
        return RIDGE_NO_ATTENTION;
    if (call->answer == RIDGE_GOOD && call->cdb[0] == 0x5F)
        notice = notice_due(call, nexus);
    return notice == RIDGE_NO_ATTENTION ? call->unit->attentions[nexus]
                                        : notice;
}

/* ---- What was told ---- */

static size_t reserve_out_command(uint8_t action)
{
    static const size_t commands[] = {13, 14, 15, 16, 17, 19, 18};

    return action < sizeof commands / sizeof *commands ? commands[action] : 19;
}

/* The number of a command on its axis. */
static size_t command_of(const struct occasion *call)
{
    static const uint8_t codes[] = {0x00, 0x25, 0x9E, 0x9E, 0x9E, 0x28,
                                    0x88, 0x2A, 0x8A, 0x93, 0x42};
    uint8_t action = action_of(call);
    size_t at = 0;

    switch (call->cdb[0]) {
    case 0x9E:
        return action == 0x10 ? 2 : action == 0x12 ? 3 : 4;
    case 0x5E:
        return action < 2 ? 11 + action : 19;
    case 0x5F:
        return reserve_out_command(action);
    default:
        while (codes[at] != call->cdb[0])
            at++;
        return at;
    }
}

static size_t sender_of(const struct occasion *call)
{
    const struct ridge_rights *rights = &call->unit->rights;

    if (is_shut_out(rights, call->nexus))
        return 1;
    if (is_holder(rights, call->nexus))
        return 3;
    return was_registered(call, call->nexus) ? 2 : 0;
}

/* By what the same call is answered where nothing waits. */
static void count_instead(const struct occasion *call,
                          struct attention_counts *counts)
{
    static const uint8_t answers[] = {0, 2, 3, 4, 5, 6, 7, 8, 10, 12};

    for (size_t at = 0; at < sizeof answers; at++) {
        if (answers[at] == call->without)
            count(counts, TOLD_INSTEAD, at, 0, 0);
    }
}

static bool waits(const struct occasion *call, uint64_t nexus)
{
    return nexus <= RIDGE_NEXUS_LAST && call->unit->attentions[nexus] != 0;
}

static void count_beside(const struct occasion *call,
                         struct attention_counts *counts)
{
    bool before = waits(call, call->nexus - 1);
    bool behind = waits(call, call->nexus + 1);
    size_t waiting = 0;

    for (uint64_t nexus = 0; nexus < RIDGE_NEXUSES; nexus++)
        waiting += waits(call, nexus) ? 1 : 0;
    if (waiting == 1)
        count(counts, TOLD_BESIDE, 0, 0, 0);
    else if (!before && !behind)
        count(counts, TOLD_BESIDE, 3, 0, 0);
    if (before)
        count(counts, TOLD_BESIDE, 1, 0, 0);
    if (behind)
        count(counts, TOLD_BESIDE, 2, 0, 0);
    if (waiting == RIDGE_NEXUSES)
        count(counts, TOLD_BESIDE, 4, 0, 0);
}

static void count_told(const struct occasion *call,
                       struct attention_counts *counts)
{
    size_t code = waited(call) - 1u;

    count(counts, TOLD_IN_FORMAT, code, call->format == RIDGE_FIXED ? 0 : 1, 0);
    count(counts, TOLD_BY_COMMAND, command_of(call), 0, 0);
    count(counts, TOLD_TO_NEXUS, code, (size_t)call->nexus, 0);
    count(counts, TOLD_TO_SENDER, code, sender_of(call), 0);
    count_instead(call, counts);
    count_beside(call, counts);
}

/* ---- What was left waiting ---- */

static size_t kind_of_inquiry(const struct occasion *call)
{
    bool of_page = (call->cdb[1] & 0x01) != 0;

    if (call->answer == RIDGE_BUFFER_SHORT)
        return 7;
    if (call->answer == RIDGE_CDB_FIELD)
        return (call->cdb[5] & 0x04) != 0 ? 4 : of_page ? 5 : 6;
    if (!of_page)
        return 0;
    return call->cdb[2] == 0x00 ? 1 : call->cdb[2] == 0xB0 ? 2 : 3;
}

/* Why a call was unusable, by the first cause in the order; a call that nothing
   is wrong with has a CDB of another length. */
static size_t reason_of(const struct occasion *call)
{
    if (call->cdb_bytes == 0)
        return 3;
    if (!is_format(call->format))
        return 5;
    if (call->sense_bytes < sense_wanted(call->format))
        return 4;
    if (!call->sized)
        return 6;
    if (!call->sound)
        return 7;
    return call->cdb[0] == 0x12 ? 1 : 2;
}

/* A nexus above 15 with the low bits of one for which something waits. */
static void count_above(const struct occasion *call,
                        struct attention_counts *counts)
{
    if (call->nexus > RIDGE_NEXUS_LAST && waits(call, call->nexus & 15))
        count(counts, CALL_LEAVES, 8, 0, 0);
}

static void count_left(const struct occasion *call,
                       struct attention_counts *counts)
{
    if (call->answer == RIDGE_CODE_NOT_LISTED)
        count(counts, CALL_LEAVES, 0, 0, 0);
    else if (call->answer == RIDGE_UNUSABLE)
        count(counts, CALL_LEAVES, reason_of(call), 0, 0);
    else
        count(counts, INQUIRY_PASSES, waited(call) - 1u,
              kind_of_inquiry(call), 0);
}

/* Of one for whom nothing waits, while something does for its neighbours. */
static void count_neighbours(const struct occasion *call,
                             struct attention_counts *counts)
{
    if (waits(call, call->nexus - 1))
        count(counts, NEIGHBOUR_WAITS,
              call->unit->attentions[call->nexus - 1] - 1u, 0, 0);
    if (waits(call, call->nexus + 1))
        count(counts, NEIGHBOUR_WAITS,
              call->unit->attentions[call->nexus + 1] - 1u, 1, 0);
}

/* ---- Numbers that are no attention ---- */

static size_t kind_of_wrong_code(uint8_t code)
{
    unsigned above = code >> 2;

    if (code == 4)
        return 0;
    if (code == 128)
        return 1;
    if (code == 255)
        return 2;
    return (above & (above - 1)) == 0 ? 3 : 4;
}

/* Where just one of the 16 is wrong, the record was right but for it. */
static void count_wrong(const struct occasion *call,
                        struct attention_counts *counts)
{
    const uint8_t *attentions = call->unit->attentions;
    size_t wrong = 0;
    size_t last = 0;

    for (size_t nexus = 0; nexus < RIDGE_NEXUSES; nexus++) {
        if (attentions[nexus] > RIDGE_RESERVATIONS_RELEASED) {
            wrong++;
            last = nexus;
        }
    }
    if (wrong != 1 || call->nexus > RIDGE_NEXUS_LAST || reason_of(call) != 7)
        return;
    count(counts, WRONG_AT_NEXUS, last, 0, 0);
    count(counts, WRONG_CODE, kind_of_wrong_code(attentions[last]), 0, 0);
}

/* ---- What was sent ---- */

/* What a reservation-out call did to others than the sender, by number. */
struct doing {
    size_t left;    /* still registered */
    size_t removed; /* registered before, and no more */
    size_t held;    /* the type before, by its number on the axis */
    bool by_holder;
};

static size_t type_index(uint32_t type)
{
    static const uint8_t types[] = {0, 1, 3, 5, 6, 7, 8};
    size_t at = 0;

    while (at + 1 < sizeof types && types[at] != type)
        at++;
    return at;
}

static struct doing doing_of(const struct occasion *call)
{
    const struct ridge_rights *rights = &call->unit->rights;
    struct doing doing = {0, 0, type_index(rights->type),
                          is_holder(rights, call->nexus)};

    for (uint64_t nexus = 0; nexus < RIDGE_NEXUSES; nexus++) {
        if (nexus == call->nexus)
            continue;
        if (is_registered(call, nexus))
            doing.left++;
        else if (was_registered(call, nexus))
            doing.removed++;
    }
    return doing;
}

static size_t nobody_left(const struct doing *doing)
{
    return doing->left == 0 ? 1 : 0;
}

/* Of a PREEMPT of the holder's key, where one nexus holds. */
static void count_holders_key(const struct occasion *call,
                              const struct doing *doing,
                              struct attention_counts *counts)
{
    const struct ridge_rights *rights = &call->unit->rights;
    bool shares = key_of(rights, call->nexus) ==
                  key_of(rights, rights->holder);
    size_t from = doing->by_holder ? doing->removed == 0 ? 3 : 2
                  : shares         ? 1
                                   : 0;
    uint8_t named = call->cdb[2] & 15;

    count(counts, PREEMPT_HOLDERS_KEY, doing->held - 1, from,
          named == rights->type ? 0 : 1);
    if (doing->left > 0)
        count(counts, PREEMPT_NAMES, doing->held - 1, type_index(named) - 1, 0);
}

static void count_others_key(const struct occasion *call,
                             const struct doing *doing,
                             struct attention_counts *counts)
{
    bool sender_too = !is_registered(call, call->nexus);
    size_t whom = sender_too ? doing->removed == 0 ? 3 : 2
                  : doing->removed == 1 ? 0
                                        : 1;

    count(counts, PREEMPT_OTHERS_KEY, doing->held, whom, 0);
}

static void count_preempt(const struct occasion *call,
                          const struct doing *doing,
                          struct attention_counts *counts)
{
    const struct ridge_rights *rights = &call->unit->rights;
    uint64_t key = number(call->data_out + 8, 8);

    if (key == 0)
        count(counts, PREEMPT_ZERO_KEY, rights->type == 7 ? 0 : 1,
              doing->removed < 2 ? doing->removed : 2, 0);
    else if (rights->type != 0 && rights->type < 7 &&
             key == key_of(rights, rights->holder))
        count_holders_key(call, doing, counts);
    else
        count_others_key(call, doing, counts);
}

/* Of a RELEASE that was done, or named another type. */
static void count_release(const struct occasion *call,
                          const struct doing *doing,
                          struct attention_counts *counts)
{
    if (call->answer == RIDGE_RELEASE_TYPE && doing->left > 0)
        count(counts, RELEASE_BY_HOLDER, doing->held - 1, 2, 0);
    else if (call->answer == RIDGE_GOOD && doing->by_holder)
        count(counts, RELEASE_BY_HOLDER, doing->held - 1, nobody_left(doing),
              0);
    else if (call->answer == RIDGE_GOOD && doing->left > 0)
        count(counts, RELEASE_BY_OTHER, doing->held, 0, 0);
}

/* A stranger is registered, or one that was has another key, or is no more. */
static void count_register(const struct occasion *call,
                           const struct doing *doing,
                           struct attention_counts *counts)
{
    size_t action = action_of(call) == 0 ? 0 : 1;
    bool was = was_registered(call, call->nexus);
    bool is = is_registered(call, call->nexus);

    if (was && !is && doing->by_holder)
        count(counts, UNREGISTER_HOLDER, doing->held - 1, action,
              nobody_left(doing));
    if (doing->left == 0)
        return;
    if (was && !is && !doing->by_holder)
        count(counts, UNREGISTER_OTHER, doing->held, action, 0);
    if (was && is && doing->by_holder)
        count(counts, OTHER_KEY, doing->held - 1, action, 0);
    if (!was && is)
        count(counts, REGISTERED, doing->held, action, 0);
}

static void count_reserve(const struct occasion *call,
                          const struct doing *doing,
                          struct attention_counts *counts)
{
    size_t made = type_index(call->after->rights.type) - 1;

    if (doing->left > 0)
        count(counts, RESERVED, made, doing->held == 0 ? 0 : 1, 0);
}

/* Who sent it to whom; nobody is a holder where there is no reservation. */
static void count_between(const struct occasion *call, uint64_t nexus,
                          size_t code, struct attention_counts *counts)
{
    const struct ridge_rights *rights = &call->unit->rights;
    bool from_holder = is_holder(rights, call->nexus);
    bool to_holder = is_holder(rights, nexus);

    if (from_holder)
        count(counts, SENT_BETWEEN, code, to_holder ? 0 : 1, 0);
    else if (to_holder && code < 2)
        count(counts, SENT_TO_HOLDER, code, 0, 0);
    else
        count(counts, SENT_BETWEEN, code, 2, 0);
    if (key_of(rights, call->nexus) == key_of(rights, nexus))
        count(counts, SENT_BETWEEN, code, 3, 0);
}

/* What waits meanwhile for those that are not registered, and stays. */
static void count_strangers(const struct occasion *call, size_t code,
                            struct attention_counts *counts)
{
    for (uint64_t nexus = 0; nexus < RIDGE_NEXUSES; nexus++) {
        if (!was_registered(call, nexus) && waits(call, nexus))
            count(counts, SENT_BESIDE, code,
                  call->unit->attentions[nexus] - 1u, 0);
    }
}

/* Each attention that was sent, and to how many. */
static void count_sent(const struct occasion *call,
                       struct attention_counts *counts)
{
    const struct ridge_rights *rights = &call->unit->rights;
    size_t sent[4] = {0};

    for (size_t place = 0; place < RIDGE_PLACES; place++) {
        uint64_t nexus = rights->places[place].nexus;
        uint8_t code = RIDGE_NO_ATTENTION;

        if (rights->places[place].key != 0)
            code = notice_due(call, nexus);
        sent[code]++;
        if (code == RIDGE_NO_ATTENTION)
            continue;
        count(counts, SENT_OVER, code - 1u, call->unit->attentions[nexus], 0);
        count(counts, SENT_TO_NEXUS, code - 1u, (size_t)nexus, 0);
        count(counts, SENT_TO_PLACE, code - 1u, place, 0);
        count_between(call, nexus, code - 1u, counts);
    }
    for (size_t code = 1; code < 4; code++) {
        if (sent[code] == 0)
            continue;
        count(counts, SENT_TO_NUMBER, code - 1, sent[code] == 1 ? 0 : 1, 0);
        count_strangers(call, code - 1, counts);
    }
}

static void count_reserve_out(const struct occasion *call,
                              struct attention_counts *counts)
{
    struct doing doing = doing_of(call);

    if (action_of(call) == 2)
        count_release(call, &doing, counts);
    if (call->answer != RIDGE_GOOD)
        return;
    count_sent(call, counts);
    switch (action_of(call)) {
    case 0:
    case 6:
        count_register(call, &doing, counts);
        break;
    case 1:
        count_reserve(call, &doing, counts);
        break;
    case 3:
        count(counts, CLEARED, doing.held, doing.removed == 0 ? 1 : 0, 0);
        break;
    case 4:
        count_preempt(call, &doing, counts);
        break;
    default:
        break;
    }
}

void attentions_count(const struct occasion *call,
                      struct attention_counts *counts)
{
    if (call->answer == RIDGE_UNUSABLE) {
        count_above(call, counts);
        count_wrong(call, counts);
    }
    if (call->answer == RIDGE_ATTENTION)
        count_told(call, counts);
    else if (waited(call) >= 1 && waited(call) <= 3)
        count_left(call, counts);
    else if (call->answer == RIDGE_GOOD)
        count_neighbours(call, counts);
    if (call->answer != RIDGE_UNUSABLE && call->cdb[0] == 0x5F)
        count_reserve_out(call, counts);
}
