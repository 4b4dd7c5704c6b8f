/*
 * The client end of [MS-RDPEDYC] dynamic virtual channels in plain C: what the
 * proved library is measured against and compared with.  It was written from
 * the rules alone and shares nothing with the library.
 *
 *   plain walk < PDUS         a line for each PDU; the one listener is PUMP
 *   plain messages < PDUS     the bytes of each message handed up
 *   plain lamp < PDUS         after each PDU, or local close, the open channels
 *                             and the bytes still to come
 *   plain why PLACE < PDUS    the answer to the PDU at PLACE, from 0; behind a
 *                             13 what spoiled the channel, behind any other
 *                             refusal the first rule that held
 *   plain bench ROUNDS FILE   all PDUs of FILE, ROUNDS times, each round from
 *                             Start and ended by closing what is open; how
 *                             many calls got each answer, and the messages
 *                             counted on what was open at the end
 *
 * The input is PDUs, each after its length in two bytes, little-endian.
 *
 * The state is one struct behind a pointer and nobody else can touch it, so
 * refusal 1 (a buffer of the wrong size, an unsound table) cannot happen here.
 * With -DSOUND the table is tested at every call all the same, as the library
 * must, whose table its host passes in: then both do the same job.
 */
#include <stdbool.h>
#include <stdint.h>
#include <stdio.h>
#include <stdlib.h>
#include <string.h>

enum {
    PDU_MAX = 1600,
    MESSAGE_MAX = 4096,
    CHANNELS = 16,
    LIST_MAX = 512,
    REPLY_MAX = 9,
    OUR_VERSION = 2,
    RECORD_MAX = 65535,
    FILE_MAX = 2 * 1024 * 1024,
    ROUNDS_END = 1000000000
};

enum refusal {
    GOOD = 0,
    UNSOUND = 1,
    CUT_SHORT = 2,
    TOO_LONG = 3,
    BAD_COMMAND = 4,
    BAD_FIELD = 5,
    BAD_LIST = 6,
    OUT_OF_TURN = 7,
    NOT_OPEN = 8,
    ALREADY_OPEN = 9,
    FIRST_WHILE_JOINING = 10,
    LENGTH_OVER = 11,
    BLOCK_OVER = 12,
    SPOILED_CHANNEL = 13
};

#define STATUS_UNLISTED UINT32_C(0x80070490)
#define STATUS_FULL UINT32_C(0x8007000E)

/* ---- PDUs ---- */

enum command {
    CREATE = 1,
    DATA_FIRST = 2,
    DATA = 3,
    CLOSE = 4,
    CAPABILITIES = 5,
    DATA_FIRST_COMPRESSED = 6, /* refused, like all above it */
    DATA_COMPRESSED = 7
};

struct pdu {
    enum command command;
    uint32_t number;
    uint32_t length;     /* of the whole message: Data First only */
    uint16_t version;    /* Capabilities only */
    uint8_t priority;    /* Create only */
    const uint8_t *body; /* the name without its zero, or the data */
    size_t body_length;
};

struct cursor {
    const uint8_t *at, *end;
};

static bool take_number(struct cursor *c, unsigned width_code, uint32_t *value)
{
    const uint8_t *p = c->at;
    size_t width = (size_t)1 << width_code;

    if ((size_t)(c->end - p) < width)
        return false;
    switch (width) {
    case 1:
        *value = p[0];
        break;
    case 2:
        *value = (uint32_t)p[0] | (uint32_t)p[1] << 8;
        break;
    default:
        *value = (uint32_t)p[0] | (uint32_t)p[1] << 8 | (uint32_t)p[2] << 16 | (uint32_t)p[3] << 24;
        break;
    }
    c->at = p + width;
    return true;
}

static enum refusal read_capabilities(struct cursor c, struct pdu *pdu)
{
    enum { CHARGES = 8 };
    uint32_t pad, version;

    if (!take_number(&c, 0, &pad))
        return CUT_SHORT;
    if (pad != 0)
        return BAD_FIELD;
    if (!take_number(&c, 1, &version))
        return CUT_SHORT;
    if (version < 1 || version > 3)
        return BAD_FIELD;
    if (version > 1) {
        if (c.end - c.at < CHARGES)
            return CUT_SHORT;
        c.at += CHARGES;
    }
    if (c.at != c.end)
        return BAD_FIELD;
    pdu->version = (uint16_t)version;
    return GOOD;
}

/* Reads a PDU that came from the server. */
static enum refusal read_pdu(const uint8_t *bytes, size_t length, struct pdu *pdu)
{
    struct cursor c;
    unsigned command, middle, id_width;

    if (length == 0)
        return CUT_SHORT;
    if (length > PDU_MAX)
        return TOO_LONG;
    command = bytes[0] >> 4;
    middle = bytes[0] >> 2 & 3;
    id_width = bytes[0] & 3;
    c.at = bytes + 1;
    c.end = bytes + length;

    if (command < CREATE || command > CAPABILITIES)
        return BAD_COMMAND;
    pdu->command = (enum command)command;
    if (command == CAPABILITIES) {
        if (id_width != 0)
            return BAD_FIELD;
        return read_capabilities(c, pdu);
    }
    if (id_width == 3 || (command == DATA_FIRST && middle == 3))
        return BAD_FIELD;
    if (!take_number(&c, id_width, &pdu->number))
        return CUT_SHORT;
    if (command == DATA_FIRST && !take_number(&c, middle, &pdu->length))
        return CUT_SHORT;

    pdu->body = c.at;
    pdu->body_length = (size_t)(c.end - c.at);
    if (command == CLOSE && pdu->body_length != 0)
        return BAD_FIELD;
    if (command == CREATE) {
        const uint8_t *zero = memchr(pdu->body, 0, pdu->body_length);

        if (zero == NULL)
            return CUT_SHORT;
        if (zero + 1 != c.end)
            return BAD_FIELD;
        pdu->body_length--;
        pdu->priority = (uint8_t)middle;
    }
    return GOOD;
}

/* The channel number of a block of data, compressed or not, if all its bytes are there: also where the PDU is refused. */
static inline bool block_number(const uint8_t *bytes, size_t length, uint32_t *number)
{
    struct cursor c = {bytes + 1, bytes + length};
    unsigned command;

    if (length == 0)
        return false;
    command = bytes[0] >> 4;
    if (command != DATA_FIRST && command != DATA && command != DATA_FIRST_COMPRESSED && command != DATA_COMPRESSED)
        return false;
    return (bytes[0] & 3) != 3 && take_number(&c, bytes[0] & 3, number);
}

/* ---- replies: numbers go in the narrowest width ---- */

static size_t put_header(uint8_t *out, enum command command, uint32_t number)
{
    unsigned width_code = number <= 0xFF ? 0 : number <= 0xFFFF ? 1 : 2;
    size_t width = (size_t)1 << width_code;

    out[0] = (uint8_t)((unsigned)command << 4 | width_code);
    for (size_t i = 0; i < width; i++)
        out[1 + i] = (uint8_t)(number >> 8 * i);
    return 1 + width;
}

static size_t put_create_response(uint8_t *out, uint32_t number, uint32_t status)
{
    size_t n = put_header(out, CREATE, number);

    for (size_t i = 0; i < 4; i++)
        out[n + i] = (uint8_t)(status >> 8 * i);
    return n + 4;
}

static size_t put_capabilities_response(uint8_t *out)
{
    out[0] = CAPABILITIES << 4;
    out[1] = 0;
    out[2] = OUR_VERSION;
    out[3] = 0;
    return 4;
}

/* ---- the listener list: names, each ended by one zero ---- */

static bool list_good(const uint8_t *list, size_t length)
{
    if (length > LIST_MAX)
        return false;
    if (length == 0)
        return true;
    if (list[0] == 0 || list[length - 1] != 0)
        return false;
    for (size_t i = 1; i < length; i++)
        if (list[i] == 0 && list[i - 1] == 0)
            return false;
    return true;
}

static bool list_has(const uint8_t *list, size_t length, const uint8_t *name, size_t name_length)
{
    const uint8_t *end = list + length;

    while (list < end) {
        const uint8_t *zero = memchr(list, 0, (size_t)(end - list));

        if ((size_t)(zero - list) == name_length && memcmp(list, name, name_length) == 0)
            return true;
        list = zero + 1;
    }
    return false;
}

/* ---- the manager ---- */

enum stage { IDLE, JOINING, SPOILED };

struct channel {
    uint32_t number;
    bool open;
    uint8_t priority_class;
    uint8_t stage;
    uint16_t wanted, held; /* while joining */
    uint32_t count;        /* messages handed up since the opening; it stays at its maximum */
};

struct manager {
    bool ready;
    uint8_t level;
    uint32_t open, awaited; /* channels, and bytes still to come over all that are joining */
    struct channel channels[CHANNELS];
    uint8_t store[CHANNELS][MESSAGE_MAX];
};

enum word { READY, OPENED, DECLINED, HELD, MESSAGE, CLOSED, IGNORED, REFUSED, WORDS };

static const char *const word_names[WORDS] = {"ready",   "opened", "declined", "held",
                                              "message", "closed", "ignored",  "refused"};

enum { UNLISTED = 1, FULL = 2 };

struct answer {
    enum word word;
    bool has_channel;
    uint32_t channel;
    uint32_t number; /* level, bytes still to come, message length, refusal, why declined */
    size_t reply_length;
};

static struct answer refused(enum refusal refusal)
{
    return (struct answer){.word = REFUSED, .number = refusal};
}

static struct answer refused_channel(enum refusal refusal, uint32_t channel)
{
    return (struct answer){.word = REFUSED, .has_channel = true, .channel = channel, .number = refusal};
}

static struct answer answered(enum word word, uint32_t channel, uint32_t number, size_t reply_length)
{
    return (struct answer){word, true, channel, number, reply_length};
}

static void start(struct manager *m)
{
    memset(m, 0, sizeof *m);
}

static struct channel *find(struct manager *m, uint32_t number)
{
    for (struct channel *ch = m->channels; ch < m->channels + CHANNELS; ch++)
        if (ch->number == number && ch->open)
            return ch;
    return NULL;
}

static struct channel *find_free(struct manager *m)
{
    for (struct channel *ch = m->channels; ch < m->channels + CHANNELS; ch++)
        if (!ch->open)
            return ch;
    return NULL;
}

static struct answer on_capabilities(struct manager *m, const struct pdu *pdu, uint8_t *reply)
{
    if (m->ready)
        return refused(OUT_OF_TURN);
    m->ready = true;
    m->level = pdu->version < 2 ? 1 : 2;
    return (struct answer){.word = READY, .number = m->level, .reply_length = put_capabilities_response(reply)};
}

static struct answer on_create(struct manager *m, const struct pdu *pdu, const uint8_t *list, size_t list_length,
                               uint8_t *reply)
{
    uint32_t number = pdu->number;
    struct channel *ch;

    if (!list_good(list, list_length))
        return refused(BAD_LIST);
    if (find(m, number) != NULL)
        return refused_channel(ALREADY_OPEN, number);
    if (!list_has(list, list_length, pdu->body, pdu->body_length))
        return answered(DECLINED, number, UNLISTED, put_create_response(reply, number, STATUS_UNLISTED));
    ch = find_free(m);
    if (ch == NULL)
        return answered(DECLINED, number, FULL, put_create_response(reply, number, STATUS_FULL));
    ch->number = number;
    ch->open = true;
    ch->priority_class = m->level == 2 ? pdu->priority : 0;
    ch->stage = IDLE;
    ch->count = 0;
    m->open++;
    return answered(OPENED, number, 0, put_create_response(reply, number, 0));
}

static uint32_t to_come(const struct channel *ch)
{
    return ch->stage == JOINING ? (uint32_t)ch->wanted - ch->held : 0;
}

/* What is wrong with a block stays wrong: the rest of its message must not
 * pass for messages of its own, so the channel is spoiled until it is closed. */
static void set_spoiled(struct manager *m, struct channel *ch)
{
    m->awaited -= to_come(ch);
    ch->stage = SPOILED;
    ch->wanted = ch->held = 0;
}

static struct answer spoil(struct manager *m, struct channel *ch, enum refusal refusal)
{
    set_spoiled(m, ch);
    return refused_channel(refusal, ch->number);
}

/* So is the channel of a block that could not be read, if the block says whose it is. */
static void on_garbled(struct manager *m, const uint8_t *bytes, size_t length)
{
    uint32_t number;
    struct channel *ch = block_number(bytes, length, &number) ? find(m, number) : NULL;

    if (ch != NULL)
        set_spoiled(m, ch);
}

static struct answer on_data(struct manager *m, const struct pdu *pdu)
{
    struct channel *ch = find(m, pdu->number);
    size_t n = pdu->body_length;
    uint32_t wanted, held;

    if (ch == NULL)
        return refused_channel(NOT_OPEN, pdu->number);
    if (ch->stage == SPOILED)
        return refused_channel(SPOILED_CHANNEL, pdu->number);
    if (ch->stage == JOINING) {
        if (pdu->command == DATA_FIRST)
            return spoil(m, ch, FIRST_WHILE_JOINING);
        wanted = ch->wanted;
        held = ch->held;
    } else {
        wanted = pdu->command == DATA_FIRST ? pdu->length : (uint32_t)n;
        held = 0;
        if (wanted > MESSAGE_MAX)
            return spoil(m, ch, LENGTH_OVER);
    }
    if (n > wanted - held)
        return spoil(m, ch, BLOCK_OVER);

    memcpy(m->store[ch - m->channels] + held, pdu->body, n);
    held += (uint32_t)n;
    m->awaited += wanted - held - to_come(ch);
    if (held == wanted) {
        ch->stage = IDLE;
        ch->wanted = ch->held = 0;
        if (ch->count < UINT32_MAX)
            ch->count++;
        return answered(MESSAGE, pdu->number, wanted, 0);
    }
    ch->stage = JOINING;
    ch->wanted = (uint16_t)wanted;
    ch->held = (uint16_t)held;
    return answered(HELD, pdu->number, wanted - held, 0);
}

static struct answer closed(struct manager *m, struct channel *ch, uint8_t *reply)
{
    uint32_t number = ch->number;

    memset(m->store[ch - m->channels], 0, MESSAGE_MAX);
    m->open--;
    m->awaited -= to_come(ch);
    *ch = (struct channel){0};
    return answered(CLOSED, number, 0, put_header(reply, CLOSE, number));
}

static struct answer on_close(struct manager *m, const struct pdu *pdu, uint8_t *reply)
{
    struct channel *ch = find(m, pdu->number);

    if (ch == NULL)
        return answered(IGNORED, pdu->number, 0, 0);
    return closed(m, ch, reply);
}

/* A close by the host. */
static struct answer local_close(struct manager *m, uint32_t number, uint8_t reply[REPLY_MAX])
{
    struct channel *ch;

    if (!m->ready)
        return refused(OUT_OF_TURN);
    ch = find(m, number);
    if (ch == NULL)
        return refused_channel(NOT_OPEN, number);
    return closed(m, ch, reply);
}

#ifdef SOUND
/* No number in two open channels, no class over 3, while joining held below wanted and wanted at most MESSAGE_MAX; nothing
 * open when not ready, and when ready level 1 or 2; and the totals are what a recount comes to. */
static bool sound(const struct manager *m)
{
    uint64_t seen = 0;
    uint32_t open = 0, awaited = 0;

    if (m->ready && m->level != 1 && m->level != 2)
        return false;
    for (const struct channel *ch = m->channels; ch < m->channels + CHANNELS; ch++) {
        uint64_t bit;

        if (!ch->open && !ch->priority_class && ch->stage == IDLE) /* as Start made it */
            continue;
        if (ch->priority_class > 3)
            return false;
        if (ch->stage == JOINING && (ch->held >= ch->wanted || ch->wanted > MESSAGE_MAX))
            return false;
        if (!ch->open)
            continue;
        if (!m->ready)
            return false;
        open++;
        awaited += to_come(ch);
        bit = UINT64_C(1) << (ch->number & 63);
        if (seen & bit) /* the same number, or another with the same low bits */
            for (const struct channel *before = m->channels; before < ch; before++)
                if (before->open && before->number == ch->number)
                    return false;
        seen |= bit;
    }
    return open == m->open && awaited == m->awaited;
}
#endif

/* One PDU from the server. */
static struct answer receive(struct manager *m, const uint8_t *bytes, size_t length, const uint8_t *list,
                             size_t list_length, uint8_t reply[REPLY_MAX])
{
    struct pdu pdu;
    enum refusal refusal;

#ifdef SOUND
    if (!sound(m))
        return refused(UNSOUND);
#endif
    refusal = read_pdu(bytes, length, &pdu);
    if (refusal != GOOD) {
        if (m->ready)
            on_garbled(m, bytes, length);
        return refused(refusal);
    }
    if (pdu.command == CAPABILITIES)
        return on_capabilities(m, &pdu, reply);
    if (!m->ready)
        return refused(OUT_OF_TURN);
    switch (pdu.command) {
    case CREATE:
        return on_create(m, &pdu, list, list_length, reply);
    case CLOSE:
        return on_close(m, &pdu, reply);
    default:
        return on_data(m, &pdu);
    }
}

/* ---- the programs ---- */

static const uint8_t listeners[] = "PUMP"; /* with its zero: one name */

static struct manager the_manager;
static uint8_t the_reply[REPLY_MAX];

/* The fields of an answer. */
static void print_answer(const struct answer *a)
{
    printf("%s ", word_names[a->word]);
    if (a->has_channel)
        printf("%lu", (unsigned long)a->channel);
    else
        putchar('-');
    printf(" %lu %zu", (unsigned long)a->number, a->reply_length);
}

/* A record for the lamp: one whose first byte is 0, which no command has, is a local close of the number behind it. */
static void move(const uint8_t *record, size_t length)
{
    uint32_t number = 0;

    if (length == 0 || record[0] != 0) {
        receive(&the_manager, record, length, listeners, sizeof listeners, the_reply);
        return;
    }
    for (size_t i = 1; i < length && i < 5; i++)
        number |= (uint32_t)record[i] << 8 * (i - 1);
    local_close(&the_manager, number, the_reply);
}

/* A line for each record: what was answered, or the totals. */
static int walk(bool lamp)
{
    static uint8_t record[RECORD_MAX];

    start(&the_manager);
    puts(lamp ? "pdu channels awaited" : "pdu answer channel number reply");
    for (uint64_t place = 0;; place++) {
        uint8_t prefix[2];
        size_t got = fread(prefix, 1, sizeof prefix, stdin);
        size_t length;
        struct answer a;

        if (got == 0)
            break;
        length = got < sizeof prefix ? 0 : (size_t)prefix[0] | (size_t)prefix[1] << 8;
        if (got < sizeof prefix || fread(record, 1, length, stdin) < length) {
            printf("%llu cut\n", (unsigned long long)place);
            break;
        }
        if (lamp) {
            move(record, length);
            printf("%llu %lu %lu\n", (unsigned long long)place, (unsigned long)the_manager.open,
                   (unsigned long)the_manager.awaited);
            continue;
        }
        a = receive(&the_manager, record, length, listeners, sizeof listeners, the_reply);
        printf("%llu ", (unsigned long long)place);
        print_answer(&a);
        putchar('\n');
    }
    if (ferror(stdin) || fflush(stdout) != 0 || ferror(stdout)) {
        fputs("plain: input or output failed\n", stderr);
        return 1;
    }
    return 0;
}

/* The place, the channel and the bytes of a message that was just handed up. */
static void print_message(uint64_t place, const struct answer *a)
{
    const struct channel *ch = find(&the_manager, a->channel);
    const uint8_t *bytes = the_manager.store[ch - the_manager.channels];

    printf("%llu %lu ", (unsigned long long)place, (unsigned long)a->channel);
    for (uint32_t i = 0; i < a->number; i++)
        printf("%02x", bytes[i]);
    puts(a->number == 0 ? "-" : "");
}

static int messages(void)
{
    static uint8_t record[RECORD_MAX];
    uint8_t prefix[2];

    start(&the_manager);
    for (uint64_t place = 0; fread(prefix, 1, sizeof prefix, stdin) == sizeof prefix; place++) {
        size_t length = (size_t)prefix[0] | (size_t)prefix[1] << 8;
        struct answer a;

        if (fread(record, 1, length, stdin) < length)
            break;
        a = receive(&the_manager, record, length, listeners, sizeof listeners, the_reply);
        if (a.word == MESSAGE)
            print_message(place, &a);
    }
    if (ferror(stdin) || fflush(stdout) != 0 || ferror(stdout)) {
        fputs("plain: input or output failed\n", stderr);
        return 1;
    }
    return 0;
}

/* The first rule that a PDU breaks in reading, by a second look at it. */
static const char *reading_rule(const uint8_t *bytes, size_t length)
{
    enum { CHARGES = 4 };
    struct cursor c = {bytes + 1, bytes + length};
    unsigned command, middle, id_width;
    uint32_t value, charge;

    if (length == 0)
        return "empty";
    if (length > PDU_MAX)
        return "long";
    command = bytes[0] >> 4;
    middle = bytes[0] >> 2 & 3;
    id_width = bytes[0] & 3;
    if (command < CREATE || command > CAPABILITIES)
        return "command";
    if (command == CAPABILITIES ? id_width != 0 : id_width == 3)
        return "cbid";
    if (command == DATA_FIRST && middle == 3)
        return "length-width";
    if (command == CAPABILITIES) {
        if (!take_number(&c, 0, &value))
            return "ended";
        if (value != 0)
            return "pad";
        if (!take_number(&c, 1, &value))
            return "ended";
        if (value < 1 || value > 3)
            return "version";
        for (int i = 0; value > 1 && i < CHARGES; i++)
            if (!take_number(&c, 1, &charge))
                return "ended";
    } else if (!take_number(&c, id_width, &value) || (command == DATA_FIRST && !take_number(&c, middle, &value))) {
        return "ended";
    }
    if (command == CREATE) {
        while (c.at < c.end && *c.at != 0)
            c.at++;
        if (c.at == c.end)
            return "ended";
        c.at++;
    }
    if (command != DATA_FIRST && command != DATA && c.at != c.end)
        return "left-over";
    return "none";
}

/* The rule of a refusal other than 13. */
static const char *rule_of(enum refusal refusal, const uint8_t *bytes, size_t length)
{
    switch (refusal) {
    case OUT_OF_TURN:
        return bytes[0] >> 4 == CAPABILITIES ? "ready-already" : "not-ready";
    case BAD_LIST:
        return "list";
    case ALREADY_OPEN:
        return "open-already";
    case NOT_OPEN:
        return "not-open";
    case FIRST_WHILE_JOINING:
        return "joining";
    case LENGTH_OVER:
        return "over-limit";
    case BLOCK_OVER:
        return "past-length";
    default:
        return reading_rule(bytes, length);
    }
}

/* What spoiled a channel. */
struct note {
    uint64_t place;
    uint32_t refusal;
};

static struct note the_notes[CHANNELS];

/* One PDU, and a note if it is what spoils a channel. */
static struct answer noted(uint64_t place, const uint8_t *bytes, size_t length)
{
    uint32_t number;
    struct channel *ch = block_number(bytes, length, &number) ? find(&the_manager, number) : NULL;
    bool was_good = ch != NULL && ch->stage != SPOILED;
    struct answer a = receive(&the_manager, bytes, length, listeners, sizeof listeners, the_reply);

    if (was_good && ch->stage == SPOILED)
        the_notes[ch - the_manager.channels] = (struct note){place, a.number};
    if (a.word == OPENED)
        the_notes[find(&the_manager, a.channel) - the_manager.channels] = (struct note){0};
    return a;
}

/* The answer to the PDU at a place, and why it was given. */
static int why(uint64_t sought, bool beyond)
{
    static uint8_t record[RECORD_MAX];
    uint8_t prefix[2];
    bool said = false;

    start(&the_manager);
    for (uint64_t place = 0; !beyond && !said && fread(prefix, 1, sizeof prefix, stdin) == sizeof prefix; place++) {
        size_t length = (size_t)prefix[0] | (size_t)prefix[1] << 8;
        struct answer a;

        if (fread(record, 1, length, stdin) < length)
            break;
        a = noted(place, record, length);
        said = place == sought;
        if (!said)
            continue;
        print_answer(&a);
        if (a.word == REFUSED && a.number == SPOILED_CHANNEL) {
            const struct note *note = &the_notes[find(&the_manager, a.channel) - the_manager.channels];

            printf(" spoiled at %llu by %lu", (unsigned long long)note->place, (unsigned long)note->refusal);
        } else if (a.word == REFUSED) {
            printf(" rule %s", rule_of((enum refusal)a.number, record, length));
        }
        putchar('\n');
    }
    if (!said && !ferror(stdin))
        puts("absent");
    if (ferror(stdin) || fflush(stdout) != 0 || ferror(stdout)) {
        fputs("plain: input or output failed\n", stderr);
        return 1;
    }
    return 0;
}

/* A whole file of at most FILE_MAX bytes. */
static bool read_file(const char *name, uint8_t *into, size_t *length)
{
    FILE *f = fopen(name, "rb");
    bool good;

    if (f == NULL)
        return false;
    *length = fread(into, 1, FILE_MAX, f);
    good = !ferror(f) && fgetc(f) == EOF;
    fclose(f);
    return good;
}

/* One round from Start, ended by closing what is open; a last record cut short is left out. */
static void one_round(const uint8_t *file, size_t length, uint64_t counts[WORDS], uint64_t *counted)
{
    size_t at = 0;

    start(&the_manager);
    while (length - at >= 2) {
        size_t n = (size_t)file[at] | (size_t)file[at + 1] << 8;
        struct answer a;

        at += 2;
        if (n > length - at)
            break;
        a = receive(&the_manager, file + at, n, listeners, sizeof listeners, the_reply);
        counts[a.word]++;
        at += n;
    }
    for (int i = 0; i < CHANNELS; i++)
        if (the_manager.channels[i].open) {
            *counted += the_manager.channels[i].count;
            counts[local_close(&the_manager, the_manager.channels[i].number, the_reply).word]++;
        }
}

static int bench(uint32_t rounds, const char *name)
{
    static uint8_t file[FILE_MAX];
    uint64_t counts[WORDS] = {0}, calls = 0, counted = 0;
    size_t length;

    if (!read_file(name, file, &length)) {
        puts("cannot read the file, or it is over 2 MiB");
        return 1;
    }
    for (uint32_t i = 0; i < rounds; i++)
        one_round(file, length, counts, &counted);
    for (int w = 0; w < WORDS; w++)
        calls += counts[w];
    printf("calls %llu\n", (unsigned long long)calls);
    for (int w = 0; w < WORDS; w++)
        printf("%s %llu\n", word_names[w], (unsigned long long)counts[w]);
    printf("counted %llu\n", (unsigned long long)counted);
    return 0;
}

/* Decimal digits that make a count below ROUNDS_END. */
static bool read_count(const char *s, uint32_t *count)
{
    if (*s == '\0')
        return false;
    for (*count = 0; *s != '\0'; s++) {
        if (*s < '0' || *s > '9' || *count >= ROUNDS_END / 10)
            return false;
        *count = 10 * *count + (uint32_t)(*s - '0');
    }
    return true;
}

/* A place: decimal digits, as many as there may be. 2^64 and more is beyond every place. */
static bool read_place(const char *s, uint64_t *place, bool *beyond)
{
    if (*s == '\0')
        return false;
    *beyond = false;
    for (*place = 0; *s != '\0'; s++) {
        unsigned digit = (unsigned)(*s - '0');

        if (*s < '0' || *s > '9')
            return false;
        if (*place > (UINT64_MAX - digit) / 10)
            *beyond = true;
        else
            *place = 10 * *place + digit;
    }
    return true;
}

int main(int argc, char **argv)
{
    uint32_t rounds;
    uint64_t place;
    bool beyond;

    if (argc == 2 && strcmp(argv[1], "walk") == 0)
        return walk(false);
    if (argc == 2 && strcmp(argv[1], "lamp") == 0)
        return walk(true);
    if (argc == 2 && strcmp(argv[1], "messages") == 0)
        return messages();
    if (argc == 3 && strcmp(argv[1], "why") == 0 && read_place(argv[2], &place, &beyond))
        return why(place, beyond);
    if (argc == 4 && strcmp(argv[1], "bench") == 0 && read_count(argv[2], &rounds))
        return bench(rounds, argv[3]);
    puts("usage: plain walk | plain messages | plain lamp | plain why PLACE | plain bench ROUNDS FILE");
    return 2;
}
