/* Pairs a terminal with a head through liblegacy_pairing.a, to the end, in four ways, and holds the outcome
 * to what document 01 says of fair runs. Has pairings fail, and holds what legacy_pairing_result says of them
 * to document 01. Holds c1 and s1 to the sample data of Core Specification Vol 3 Part H. Reaches every refusal
 * of the header, with the record and the buffers left as they were. Prints a line for each check, and exits
 * with 1 where one fails.
 *
 * `give`, and what it calls, is what a host needs: a step, its calls, and their answers. */

#include <stdbool.h>
#include <stdio.h>
#include <string.h>

#include "legacy_pairing.h"

static unsigned checks, failures;

static void check(bool right, const char *what)
{
    checks++;
    if (!right)
        failures++;
    printf("%-6s %s\n", right ? "right" : "WRONG", what);
}

/* ---- one end of the link */

enum { QUEUE = 256 };

/* An event that a call has asked for: not yet, now, or given already. */
enum due { NOT_DUE, DUE, HAD };

struct end {
    uint8_t role;
    uint8_t features[LEGACY_PAIRING_FEATURES_SIZE];
    /* link addresses: this end's and the peer's */
    uint8_t address[LEGACY_PAIRING_ADDRESS_SIZE];
    uint8_t peer[LEGACY_PAIRING_ADDRESS_SIZE];
    uint8_t identity[LEGACY_PAIRING_ADDRESS_SIZE]; /* this end's */
    bool identified;                               /* the peer's identity address has come */
    uint8_t machine[LEGACY_PAIRING_MACHINE_SIZE];
    /* packets to this end: a code, the payload's length and the payload each */
    uint8_t queue[QUEUE];
    size_t queue_start, queue_end;
    enum due passkey, oob, report;
    uint8_t encryption[LEGACY_PAIRING_CALL_ENABLE_ENCRYPTION_BODY_SIZE];
    unsigned encryptions;
    uint8_t complete[LEGACY_PAIRING_CALL_EVENT_PAIRING_COMPLETE_BODY_SIZE];
    /* a call that this host does not get done, and its verdict; kind 0 is none */
    uint8_t failing, verdict;
    /* the answer to CALL_ENABLE_BONDED_ENCRYPTION: whether there is a bond, and its level */
    uint8_t bonded, bonded_level;
};

/* Encryption key sizes: the largest, and a shorter one. */
enum { WHOLE_KEY = LEGACY_PAIRING_LARGEST_KEY_SIZE, SHORT_KEY = 9 };

static const uint8_t passkey[LEGACY_PAIRING_PASS_KEY_SIZE] = {0xe6, 0x1e, 0x03, 0x00}; /* 204518 */

static void fill(uint8_t *octets, size_t count, uint8_t first)
{
    for (size_t i = 0; i < count; i++)
        octets[i] = (uint8_t)(first + i);
}

/* Overwrites what has held keys. Volatile, since a compiler leaves out a memset that nothing reads. */
static void forget(void *held, size_t count)
{
    volatile uint8_t *octets = held;
    while (count > 0)
        octets[--count] = 0;
}

static void enqueue(struct end *to, uint8_t code, const uint8_t *payload, size_t size)
{
    to->queue[to->queue_end] = code;
    to->queue[to->queue_end + 1] = (uint8_t)size;
    memcpy(&to->queue[to->queue_end + 2], payload, size);
    to->queue_end += 2 + size;
}

/* Does what a call asks for. */
static void act(struct end *e, struct end *other, uint8_t kind, const uint8_t *body, size_t size)
{
    switch (kind) {
    case LEGACY_PAIRING_CALL_SEND_PAIRING_RESPONSE:
    case LEGACY_PAIRING_CALL_SEND_PAIRING_CONFIRM:
    case LEGACY_PAIRING_CALL_SEND_PAIRING_RANDOM:
    case LEGACY_PAIRING_CALL_SEND_ENCRYPTION_INFORMATION:
    case LEGACY_PAIRING_CALL_SEND_CENTRAL_IDENTIFICATION:
    case LEGACY_PAIRING_CALL_SEND_IDENTITY_INFORMATION:
    case LEGACY_PAIRING_CALL_SEND_IDENTITY_ADDRESS_INFORMATION:
        enqueue(other, kind, body, size);
        break;
    case LEGACY_PAIRING_CALL_EVENT_PASS_KEY_INPUT:
        e->passkey = DUE;
        break;
    case LEGACY_PAIRING_CALL_EVENT_OOB_REQUEST:
        e->oob = DUE;
        break;
    case LEGACY_PAIRING_CALL_EVENT_PAIRING_COMPLETE:
        memcpy(e->complete, body, size);
        break;
    case LEGACY_PAIRING_CALL_ENABLE_ENCRYPTION:
        memcpy(e->encryption, body, size);
        e->encryptions++;
        e->report = DUE;
        break;
    default: /* nothing that this host does */
        break;
    }
}

/* The bond that is held once encryption is called: the short-term key at its level, with the peer. */
static void short_term_bond(const struct end *e, const uint8_t *call, uint8_t *bond)
{
    memset(bond, 0, LEGACY_PAIRING_BOND_SIZE);
    memcpy(bond + LEGACY_PAIRING_BOND_LTK_OFFSET, call + LEGACY_PAIRING_CALL_ENABLE_ENCRYPTION_BODY_KEY_OFFSET,
           LEGACY_PAIRING_VALUE_SIZE);
    bond[LEGACY_PAIRING_BOND_LEVEL_OFFSET] = call[LEGACY_PAIRING_CALL_ENABLE_ENCRYPTION_BODY_LEVEL_OFFSET];
    memcpy(bond + LEGACY_PAIRING_BOND_ADDRESS_OFFSET, e->peer, LEGACY_PAIRING_ADDRESS_SIZE);
}

/* The answer to a call, behind its kind, and its size. */
static size_t answer(const struct end *e, uint8_t kind, const uint8_t *call, uint8_t *body)
{
    uint8_t verdict = kind == e->failing ? e->verdict : LEGACY_PAIRING_VERDICT_DONE;
    switch (kind) {
    case LEGACY_PAIRING_CALL_ASK_FIND_BOND:
        body[0] = LEGACY_PAIRING_NO;
        return LEGACY_PAIRING_CALL_ASK_FIND_BOND_ANSWER_SIZE;
    case LEGACY_PAIRING_CALL_ASK_LOCAL_IRK:
        fill(body, LEGACY_PAIRING_CALL_ASK_LOCAL_IRK_ANSWER_SIZE, e->role == LEGACY_PAIRING_HEAD ? 0xb0 : 0xa0);
        return LEGACY_PAIRING_CALL_ASK_LOCAL_IRK_ANSWER_SIZE;
    case LEGACY_PAIRING_CALL_ASK_IDENTITY_ADDRESS:
        body[LEGACY_PAIRING_VERDICT_OFFSET] = verdict;
        memcpy(body + LEGACY_PAIRING_CALL_ASK_IDENTITY_ADDRESS_ANSWER_ADDRESS_OFFSET, e->identity, sizeof e->identity);
        return LEGACY_PAIRING_CALL_ASK_IDENTITY_ADDRESS_ANSWER_SIZE;
    case LEGACY_PAIRING_CALL_ASK_BONDING_FLAG:
        body[0] = (e->features[LEGACY_PAIRING_FEATURES_AUTH_REQ_OFFSET] & LEGACY_PAIRING_AUTH_BONDING_MASK)
                          == LEGACY_PAIRING_AUTH_BONDING
                      ? LEGACY_PAIRING_YES
                      : LEGACY_PAIRING_NO;
        return LEGACY_PAIRING_CALL_ASK_BONDING_FLAG_ANSWER_SIZE;
    case LEGACY_PAIRING_CALL_ASK_OOB_AVAILABLE:
        body[0] = e->features[LEGACY_PAIRING_FEATURES_OOB_OFFSET];
        return LEGACY_PAIRING_CALL_ASK_OOB_AVAILABLE_ANSWER_SIZE;
    /* A host draws these. Here they are the same each time, and other ones at each end. */
    case LEGACY_PAIRING_CALL_DRAW_NONCE:
        fill(body, LEGACY_PAIRING_CALL_DRAW_NONCE_ANSWER_SIZE, e->role == LEGACY_PAIRING_HEAD ? 0x45 : 0x35);
        return LEGACY_PAIRING_CALL_DRAW_NONCE_ANSWER_SIZE;
    case LEGACY_PAIRING_CALL_DRAW_PASS_KEY:
        memcpy(body, passkey, sizeof passkey);
        return LEGACY_PAIRING_CALL_DRAW_PASS_KEY_ANSWER_SIZE;
    case LEGACY_PAIRING_CALL_DRAW_LTK:
        fill(body, LEGACY_PAIRING_CALL_DRAW_LTK_ANSWER_SIZE, e->role == LEGACY_PAIRING_HEAD ? 0x47 : 0x37);
        return LEGACY_PAIRING_CALL_DRAW_LTK_ANSWER_SIZE;
    case LEGACY_PAIRING_CALL_DRAW_EDIV:
        fill(body, LEGACY_PAIRING_CALL_DRAW_EDIV_ANSWER_SIZE, e->role == LEGACY_PAIRING_HEAD ? 0x58 : 0x50);
        return LEGACY_PAIRING_CALL_DRAW_EDIV_ANSWER_SIZE;
    case LEGACY_PAIRING_CALL_DRAW_RAND:
        fill(body, LEGACY_PAIRING_CALL_DRAW_RAND_ANSWER_SIZE, e->role == LEGACY_PAIRING_HEAD ? 0x68 : 0x60);
        return LEGACY_PAIRING_CALL_DRAW_RAND_ANSWER_SIZE;
    case LEGACY_PAIRING_CALL_ENABLE_ENCRYPTION:
        body[LEGACY_PAIRING_VERDICT_OFFSET] = verdict;
        short_term_bond(e, call, body + LEGACY_PAIRING_CALL_ENABLE_ENCRYPTION_ANSWER_BOND_OFFSET);
        return LEGACY_PAIRING_CALL_ENABLE_ENCRYPTION_ANSWER_SIZE;
    case LEGACY_PAIRING_CALL_ENABLE_BONDED_ENCRYPTION:
        memset(body, 0, LEGACY_PAIRING_CALL_ENABLE_BONDED_ENCRYPTION_ANSWER_SIZE);
        body[LEGACY_PAIRING_VERDICT_OFFSET] = verdict;
        body[LEGACY_PAIRING_CALL_ENABLE_BONDED_ENCRYPTION_ANSWER_PRESENT_OFFSET] = e->bonded;
        body[LEGACY_PAIRING_CALL_ENABLE_BONDED_ENCRYPTION_ANSWER_BOND_OFFSET + LEGACY_PAIRING_BOND_LEVEL_OFFSET]
            = e->bonded_level;
        return LEGACY_PAIRING_CALL_ENABLE_BONDED_ENCRYPTION_ANSWER_SIZE;
    default:
        body[LEGACY_PAIRING_VERDICT_OFFSET] = verdict;
        return LEGACY_PAIRING_VERDICT_SIZE;
    }
}

/* A step, run again with one answer more until it ends. */
static bool give(struct end *e, struct end *other, uint16_t input, const uint8_t *payload, size_t size)
{
    uint8_t answers[LEGACY_PAIRING_ANSWERS_SIZE], list[LEGACY_PAIRING_CALL_LIST_SIZE];
    uint8_t own[LEGACY_PAIRING_CALL_ENABLE_BONDED_ENCRYPTION_ANSWER_SIZE]; /* the longest answer */
    uint8_t kind = 0, outcome;
    size_t have = 0, known = 0, read, written, count, body, body_size;
    bool right;
    for (;;) {
        outcome = legacy_pairing_step(e->role, e->machine, sizeof e->machine, input, payload, size, answers, have, list,
                                      sizeof list, &read, &written);
        right = (outcome == LEGACY_PAIRING_DONE || outcome == LEGACY_PAIRING_WANTS) && read == have
                && legacy_pairing_count_calls(list, written, &count) == LEGACY_PAIRING_DONE;
        if (!right || outcome == LEGACY_PAIRING_DONE)
            break;
        /* The last call is new, and is answered now. Those before it are. */
        right = count == ++known
                && legacy_pairing_call_at(list, written, count - 1, &kind, &body, &body_size) == LEGACY_PAIRING_DONE;
        if (!right)
            break;
        act(e, other, kind, list + body, body_size);
        size_t own_size = answer(e, kind, list + body, own);
        if (have + 1 + own_size > sizeof answers) {
            right = false;
            break;
        }
        answers[have] = kind;
        memcpy(answers + have + 1, own, own_size);
        have += 1 + own_size;
    }
    forget(answers, sizeof answers);
    forget(list, sizeof list);
    forget(own, sizeof own);
    return right && count == known;
}

/* The next input of an end, if there is one: an event due, else the oldest packet. */
static bool take(struct end *e, struct end *other, bool *taken)
{
    static const uint8_t on[LEGACY_PAIRING_INPUT_LINK_ENCRYPTED_RESULT_SIZE] = {LEGACY_PAIRING_YES};
    uint8_t oob[LEGACY_PAIRING_INPUT_OOB_DATA_RECEIVED_SIZE];
    *taken = true;
    if (e->report == DUE) {
        e->report = HAD;
        return give(e, other, LEGACY_PAIRING_INPUT_LINK_ENCRYPTED_RESULT, on, sizeof on);
    }
    if (e->passkey == DUE) {
        e->passkey = HAD;
        return give(e, other, LEGACY_PAIRING_INPUT_PASS_KEY_INPUT, passkey, sizeof passkey);
    }
    if (e->oob == DUE && (e->role == LEGACY_PAIRING_HEAD || other->oob == HAD)) {
        e->oob = HAD;
        fill(oob, sizeof oob, 0x70);
        return give(e, other, LEGACY_PAIRING_INPUT_OOB_DATA_RECEIVED, oob, sizeof oob);
    }
    if (e->queue_start < e->queue_end) {
        const uint8_t *packet = &e->queue[e->queue_start];
        e->queue_start += 2 + packet[1];
        e->identified |= packet[0] == LEGACY_PAIRING_CALL_SEND_IDENTITY_ADDRESS_INFORMATION;
        return give(e, other, packet[0], packet + 2, packet[1]);
    }
    *taken = false;
    return true;
}

static bool begin(struct end *e, uint8_t role, const uint8_t *features)
{
    memset(e, 0, sizeof *e);
    e->role = role;
    memcpy(e->features, features, sizeof e->features);
    fill(e->address, sizeof e->address, role == LEGACY_PAIRING_HEAD ? 0x20 : 0x10);
    fill(e->peer, sizeof e->peer, role == LEGACY_PAIRING_HEAD ? 0x10 : 0x20);
    /* the terminal's address is public, the head's random */
    e->address[LEGACY_PAIRING_ADDRESS_KIND_OFFSET]
        = role == LEGACY_PAIRING_HEAD ? LEGACY_PAIRING_ADDRESS_RANDOM : LEGACY_PAIRING_ADDRESS_PUBLIC;
    e->peer[LEGACY_PAIRING_ADDRESS_KIND_OFFSET]
        = role == LEGACY_PAIRING_HEAD ? LEGACY_PAIRING_ADDRESS_PUBLIC : LEGACY_PAIRING_ADDRESS_RANDOM;
    /* an identity address differs from the link address in each octet, its kind too */
    fill(e->identity, sizeof e->identity, role == LEGACY_PAIRING_HEAD ? 0xd0 : 0xc0);
    e->identity[LEGACY_PAIRING_ADDRESS_KIND_OFFSET] = e->peer[LEGACY_PAIRING_ADDRESS_KIND_OFFSET];
    return legacy_pairing_new(role, e->address, sizeof e->address, e->peer, sizeof e->peer, e->features,
                              sizeof e->features, e->machine, sizeof e->machine)
           == LEGACY_PAIRING_DONE;
}

/* Whether a machine stands so. */
static bool stands(const struct end *e, uint8_t result, uint8_t error, uint8_t detail, uint8_t is_encrypted,
                   uint8_t level)
{
    uint8_t r = 0xee, k = 0xee, d = 0xee, i = 0xee, l = 0xee;
    return legacy_pairing_result(e->role, e->machine, sizeof e->machine, &r, &k, &d, &i, &l) == LEGACY_PAIRING_DONE
           && r == result && k == error && d == detail && i == is_encrypted && l == level;
}

static bool is_fresh(const struct end *e)
{
    return stands(e, LEGACY_PAIRING_PENDING, LEGACY_PAIRING_FAILURE_NONE, 0, LEGACY_PAIRING_NO,
                  LEGACY_PAIRING_LEVEL_NONE);
}

static bool succeeded(const struct end *e, uint8_t level)
{
    return stands(e, LEGACY_PAIRING_SUCCESS, LEGACY_PAIRING_FAILURE_NONE, 0, LEGACY_PAIRING_YES, level);
}

static bool failed(const struct end *e, uint8_t error, uint8_t detail)
{
    return stands(e, LEGACY_PAIRING_FAILED, error, detail, LEGACY_PAIRING_NO, LEGACY_PAIRING_LEVEL_NONE);
}

/* ---- whole pairings */

static const uint8_t *bond_of(const struct end *e)
{
    return e->machine + LEGACY_PAIRING_MACHINE_BOND_OFFSET;
}

/* Whether an end is encrypted from its report on, at the level of its call for encryption, and not before. */
static bool follows_report(const struct end *e)
{
    uint8_t result, error, detail, is_encrypted, level;
    const bool on = e->report == HAD;
    return legacy_pairing_result(e->role, e->machine, sizeof e->machine, &result, &error, &detail, &is_encrypted, &level)
               == LEGACY_PAIRING_DONE
           && is_encrypted == (on ? LEGACY_PAIRING_YES : LEGACY_PAIRING_NO)
           && level == (on ? e->encryption[LEGACY_PAIRING_CALL_ENABLE_ENCRYPTION_BODY_LEVEL_OFFSET] : LEGACY_PAIRING_LEVEL_NONE);
}

/* Whether an end holds the peer's link address until the identity address comes, then that. Its bond, if
 * any, has the same. */
static bool follows_identity(const struct end *e, const struct end *other)
{
    const uint8_t *wanted = e->identified ? other->identity : other->address;
    return memcmp(e->machine + LEGACY_PAIRING_MACHINE_PEER_ADDRESS_OFFSET, wanted, LEGACY_PAIRING_ADDRESS_SIZE) == 0
           && (e->machine[LEGACY_PAIRING_MACHINE_BOND_PRESENT_OFFSET] == LEGACY_PAIRING_NO
               || memcmp(bond_of(e) + LEGACY_PAIRING_BOND_ADDRESS_OFFSET, wanted, LEGACY_PAIRING_ADDRESS_SIZE) == 0);
}

/* Plays until neither end has an input left. `follow` says whether both followed their reports all along,
 * `address` the same of the identity addresses. */
static bool play(struct end *terminal, struct end *head, unsigned *inputs, bool *follow, bool *address)
{
    bool going = true, right = true;
    *follow = *address = true;
    enqueue(head, LEGACY_PAIRING_COMMAND_PAIRING_REQUEST, terminal->features, sizeof terminal->features);
    for (*inputs = 0; right && going && *inputs < 64; *inputs += going) {
        right = take(head, terminal, &going);
        if (right && !going)
            right = take(terminal, head, &going);
        *follow = *follow && follows_report(terminal) && follows_report(head);
        *address = *address && follows_identity(terminal, head) && follows_identity(head, terminal);
    }
    return right;
}

/* Whether an end's bond has the LTK that the head has drawn, cut to the key size, and its EDIV and Rand. */
static bool has_keys_of_head(const struct end *e, uint8_t key_size)
{
    uint8_t ltk[LEGACY_PAIRING_VALUE_SIZE], ediv[LEGACY_PAIRING_EDIV_SIZE], rand[LEGACY_PAIRING_RAND_SIZE];
    fill(ltk, sizeof ltk, 0x47);
    memset(ltk + key_size, 0, sizeof ltk - key_size);
    fill(ediv, sizeof ediv, 0x58);
    fill(rand, sizeof rand, 0x68);
    return e->machine[LEGACY_PAIRING_MACHINE_BOND_PRESENT_OFFSET] == LEGACY_PAIRING_YES
           && memcmp(bond_of(e) + LEGACY_PAIRING_BOND_LTK_OFFSET, ltk, sizeof ltk) == 0
           && memcmp(bond_of(e) + LEGACY_PAIRING_BOND_EDIV_OFFSET, ediv, sizeof ediv) == 0
           && memcmp(bond_of(e) + LEGACY_PAIRING_BOND_RAND_OFFSET, rand, sizeof rand) == 0
           && bond_of(e)[LEGACY_PAIRING_BOND_IS_BONDED_OFFSET] == LEGACY_PAIRING_YES;
}

/* Whether an end's bond has the other's IRK and identity address, and its machine that address. */
static bool has_identity(const struct end *e, const struct end *other)
{
    uint8_t irk[LEGACY_PAIRING_VALUE_SIZE];
    fill(irk, sizeof irk, other->role == LEGACY_PAIRING_HEAD ? 0xb0 : 0xa0);
    return memcmp(bond_of(e) + LEGACY_PAIRING_BOND_IRK_OFFSET, irk, sizeof irk) == 0
           && memcmp(bond_of(e) + LEGACY_PAIRING_BOND_ADDRESS_OFFSET, other->identity, sizeof other->identity) == 0
           && memcmp(e->machine + LEGACY_PAIRING_MACHINE_PEER_ADDRESS_OFFSET, other->identity, sizeof other->identity) == 0;
}

struct pairing {
    const char *name;
    const uint8_t *terminal, *head; /* features */
    unsigned inputs;
    uint8_t method, level, key_size;
    bool is_bonded, head_ends;
};

static void pair(const struct pairing *p)
{
    struct end terminal, head;
    unsigned inputs;
    bool follow, address;
    const uint8_t bonded = p->is_bonded ? LEGACY_PAIRING_YES : LEGACY_PAIRING_NO;
    printf("\n%s\n", p->name);
    check(begin(&terminal, LEGACY_PAIRING_TERMINAL, p->terminal) && begin(&head, LEGACY_PAIRING_HEAD, p->head),
          "both machines begin");
    check(is_fresh(&terminal) && is_fresh(&head), "both are pending, and not encrypted");
    check(play(&terminal, &head, &inputs, &follow, &address), "no step is refused");
    check(follow, "each is encrypted from its report on, at the level of its call, and not before");
    check(terminal.identified == p->is_bonded && head.identified == p->is_bonded,
          p->is_bonded ? "identity addresses pass both ways" : "no identity address passes");
    check(address, p->is_bonded ? "each holds the other's link address until its identity address comes, then that"
                                : "each holds the other's link address to the end");
    check(inputs == p->inputs, "as many inputs as document 01 says");
    check(succeeded(&terminal, p->level), "the terminal has succeeded, encrypted at the method's level");
    if (p->head_ends)
        check(succeeded(&head, p->level), "so has the head");
    else
        check(stands(&head, LEGACY_PAIRING_PENDING, LEGACY_PAIRING_FAILURE_NONE, 0, LEGACY_PAIRING_YES, p->level),
              "the head is encrypted too, and pending: it waits for the identity key");
    check(terminal.machine[LEGACY_PAIRING_MACHINE_METHOD_OFFSET] == p->method
              && head.machine[LEGACY_PAIRING_MACHINE_METHOD_OFFSET] == p->method,
          "the method is that of Part H's table at both ends");
    check(memcmp(terminal.machine + LEGACY_PAIRING_MACHINE_LOCAL_FEATURES_OFFSET, p->terminal, sizeof terminal.features) == 0
              && memcmp(head.machine + LEGACY_PAIRING_MACHINE_PEER_FEATURES_OFFSET, p->terminal, sizeof head.features) == 0
              && memcmp(head.machine + LEGACY_PAIRING_MACHINE_LOCAL_FEATURES_OFFSET,
                        terminal.machine + LEGACY_PAIRING_MACHINE_PEER_FEATURES_OFFSET, sizeof head.features) == 0,
          "both hold the request and the response");
    check(memcmp(terminal.machine + LEGACY_PAIRING_MACHINE_LOCAL_ADDRESS_OFFSET, terminal.address, sizeof terminal.address) == 0
              && memcmp(head.machine + LEGACY_PAIRING_MACHINE_LOCAL_ADDRESS_OFFSET, head.address, sizeof head.address) == 0,
          "each holds its own link address");
    check(terminal.encryptions == 1 && head.encryptions == 1, "encryption is called once at each end");
    check(memcmp(terminal.encryption, head.encryption, sizeof head.encryption) == 0
              && head.encryption[LEGACY_PAIRING_CALL_ENABLE_ENCRYPTION_BODY_LEVEL_OFFSET] == p->level
              && head.encryption[LEGACY_PAIRING_CALL_ENABLE_ENCRYPTION_BODY_KEY_SIZE_OFFSET] == p->key_size,
          "with one key, level and key size");
    check(terminal.complete[LEGACY_PAIRING_CALL_EVENT_PAIRING_COMPLETE_BODY_LEVEL_OFFSET] == p->level
              && terminal.complete[LEGACY_PAIRING_CALL_EVENT_PAIRING_COMPLETE_BODY_PRESENT_OFFSET] == bonded,
          "the terminal is told of the level, and of a bond where both bond");
    if (p->is_bonded) {
        check(has_keys_of_head(&terminal, p->key_size), "the terminal's bond has the head's LTK, cut, its EDIV and its Rand");
        check(has_keys_of_head(&head, p->key_size), "the head's bond has them too");
        check(has_identity(&head, &terminal), "and the terminal's IRK and identity address");
        check(has_identity(&terminal, &head), "the terminal's bond has the head's IRK and identity address");
        check(memcmp(terminal.complete + LEGACY_PAIRING_CALL_EVENT_PAIRING_COMPLETE_BODY_BOND_OFFSET, bond_of(&terminal),
                     LEGACY_PAIRING_BOND_SIZE) == 0,
              "which is the bond that its machine holds");
    }
    forget(&terminal, sizeof terminal);
    forget(&head, sizeof head);
}

/* ---- pairings that fail, and a link that an old bond encrypts */

static const uint8_t no_payload[1];

/* A head that has had a request, and waits for a passkey to be typed. */
static bool typing_head(struct end *head, struct end *terminal)
{
    static const uint8_t types[] = {LEGACY_PAIRING_IO_KEYBOARD_ONLY, LEGACY_PAIRING_NO, LEGACY_PAIRING_AUTH_MITM, WHOLE_KEY, 0, 0};
    static const uint8_t shows[] = {LEGACY_PAIRING_IO_DISPLAY_ONLY, LEGACY_PAIRING_NO, LEGACY_PAIRING_AUTH_MITM, WHOLE_KEY, 0, 0};
    bool right = begin(head, LEGACY_PAIRING_HEAD, types) && begin(terminal, LEGACY_PAIRING_TERMINAL, shows);
    return right && give(head, terminal, LEGACY_PAIRING_COMMAND_PAIRING_REQUEST, shows, sizeof shows)
           && head->passkey == DUE && is_fresh(head);
}

/* Document 01's whole example: the octets of the list and the answer, and the counts. */
static void whole_example(void)
{
    static const uint8_t calls[] = {LEGACY_PAIRING_CALL_EVENT_PAIRING_FAILED, LEGACY_PAIRING_FAILURE_SECURITY,
                                    LEGACY_PAIRING_REASON_PASSKEY_ENTRY_FAILED};
    static const uint8_t done[] = {LEGACY_PAIRING_CALL_EVENT_PAIRING_FAILED, LEGACY_PAIRING_VERDICT_DONE};
    struct end head, terminal;
    uint8_t list[LEGACY_PAIRING_CALL_LIST_SIZE];
    size_t read = 77, written = 77;
    bool right = typing_head(&head, &terminal);
    right &= legacy_pairing_step(head.role, head.machine, sizeof head.machine, LEGACY_PAIRING_INPUT_PASS_KEY_CANCEL,
                                 no_payload, LEGACY_PAIRING_INPUT_PASS_KEY_CANCEL_SIZE, done, 0, list, sizeof list, &read,
                                 &written)
             == LEGACY_PAIRING_WANTS;
    check(right && read == 0 && written == sizeof calls && memcmp(list, calls, sizeof calls) == 0 && is_fresh(&head),
          "a cancelled passkey: the step wants an answer to its call, and the machine is as it was");
    right = legacy_pairing_step(head.role, head.machine, sizeof head.machine, LEGACY_PAIRING_INPUT_PASS_KEY_CANCEL,
                                no_payload, LEGACY_PAIRING_INPUT_PASS_KEY_CANCEL_SIZE, done, sizeof done, list, sizeof list,
                                &read, &written)
            == LEGACY_PAIRING_DONE;
    check(right && read == sizeof done && written == sizeof calls && memcmp(list, calls, sizeof calls) == 0,
          "the same with the answer: the step ends");
    check(failed(&head, LEGACY_PAIRING_FAILURE_SECURITY, LEGACY_PAIRING_REASON_PASSKEY_ENTRY_FAILED),
          "and has failed: security, passkey entry failed");
}

static void failing(void)
{
    static const uint8_t request[] = {LEGACY_PAIRING_IO_NO_INPUT_NO_OUTPUT, LEGACY_PAIRING_NO, 0, WHOLE_KEY, 0, 0};
    static const uint8_t off[] = {LEGACY_PAIRING_NO}, on[] = {LEGACY_PAIRING_YES};
    static const uint8_t reason[] = {LEGACY_PAIRING_REASON_PAIRING_NOT_SUPPORTED};
    uint8_t confirm[LEGACY_PAIRING_VALUE_SIZE] = {0};
    struct end head = {0}, terminal = {0};
    unsigned inputs;
    bool right, follow, address;
    printf("\nPairings that fail\n");
    whole_example();

    right = begin(&head, LEGACY_PAIRING_HEAD, request)
            && give(&head, &terminal, LEGACY_PAIRING_INPUT_LINK_ENCRYPTED_RESULT, off, sizeof off);
    check(right && failed(&head, LEGACY_PAIRING_FAILURE_SECURITY, LEGACY_PAIRING_REASON_KEY_REJECTED),
          "encryption failed before a request: key rejected at the head");
    right = begin(&terminal, LEGACY_PAIRING_TERMINAL, request)
            && give(&terminal, &head, LEGACY_PAIRING_INPUT_LINK_ENCRYPTED_RESULT, off, sizeof off);
    check(right && failed(&terminal, LEGACY_PAIRING_FAILURE_INVALID_STATE, 0),
          "encryption failed before a response: invalid state at the terminal, no detail");
    right = typing_head(&head, &terminal)
            && give(&head, &terminal, LEGACY_PAIRING_CALL_SEND_PAIRING_CONFIRM, confirm, sizeof confirm - 1);
    check(right && failed(&head, LEGACY_PAIRING_FAILURE_INVALID_VALUE, 0),
          "a confirm value of 15 octets while a passkey is typed: invalid value, no detail");
    right = begin(&head, LEGACY_PAIRING_HEAD, request)
            && give(&head, &terminal, LEGACY_PAIRING_COMMAND_PAIRING_FAILED, reason, sizeof reason);
    check(right && failed(&head, LEGACY_PAIRING_FAILURE_SECURITY, LEGACY_PAIRING_REASON_PAIRING_NOT_SUPPORTED),
          "the peer says that it has failed: its reason");
    right = begin(&head, LEGACY_PAIRING_HEAD, request)
            && give(&head, &terminal, LEGACY_PAIRING_COMMAND_PAIRING_FAILED, no_payload, 0);
    check(right && failed(&head, LEGACY_PAIRING_FAILURE_SECURITY, LEGACY_PAIRING_REASON_UNSPECIFIED_REASON),
          "and gives no reason: unspecified");

    right = begin(&head, LEGACY_PAIRING_HEAD, request);
    head.failing = LEGACY_PAIRING_CALL_SEND_PAIRING_RESPONSE;
    head.verdict = LEGACY_PAIRING_VERDICT_OUT_OF_MEMORY;
    right = right && give(&head, &terminal, LEGACY_PAIRING_COMMAND_PAIRING_REQUEST, request, sizeof request);
    check(right && failed(&head, LEGACY_PAIRING_FAILURE_OUT_OF_MEMORY, 0),
          "the host has no memory for a packet: out of memory, no detail");
    right = begin(&head, LEGACY_PAIRING_HEAD, request);
    head.failing = LEGACY_PAIRING_CALL_SEND_PAIRING_RESPONSE;
    head.verdict = 0x3e;
    right = right && give(&head, &terminal, LEGACY_PAIRING_COMMAND_PAIRING_REQUEST, request, sizeof request);
    check(right && failed(&head, LEGACY_PAIRING_FAILURE_HOST, 0x3e), "the host has an error of its own: host, and the verdict");

    right = begin(&head, LEGACY_PAIRING_HEAD, request) && begin(&terminal, LEGACY_PAIRING_TERMINAL, request)
            && play(&terminal, &head, &inputs, &follow, &address) && succeeded(&head, LEGACY_PAIRING_LEVEL_ENCRYPTED)
            && give(&head, &terminal, LEGACY_PAIRING_COMMAND_PAIRING_FAILED, reason, sizeof reason);
    check(right && head.machine[LEGACY_PAIRING_MACHINE_BOND_PRESENT_OFFSET] == LEGACY_PAIRING_YES
              && failed(&head, LEGACY_PAIRING_FAILURE_SECURITY, LEGACY_PAIRING_REASON_PAIRING_NOT_SUPPORTED),
          "failed after it succeeded: not encrypted, no level, though it holds a bond");

    printf("\nAn old bond encrypts the link before any request\n");
    right = begin(&head, LEGACY_PAIRING_HEAD, request);
    head.bonded = LEGACY_PAIRING_YES;
    head.bonded_level = 0x77;
    right = right && give(&head, &terminal, LEGACY_PAIRING_INPUT_LINK_ENCRYPTED_RESULT, on, sizeof on);
    check(right && succeeded(&head, 0x77), "the host has the bond: encrypted, and the bond's level, the host's own, passed on");
    right = begin(&head, LEGACY_PAIRING_HEAD, request)
            && give(&head, &terminal, LEGACY_PAIRING_INPUT_LINK_ENCRYPTED_RESULT, on, sizeof on);
    check(right && succeeded(&head, LEGACY_PAIRING_LEVEL_NONE), "the host has none: encrypted, and no level");
}

/* ---- published samples */

static void reversed(const char *digits, uint8_t *out, size_t count)
{
    for (size_t i = 0; i < count; i++) {
        unsigned octet;
        sscanf(digits + 2 * i, "%2x", &octet);
        out[count - 1 - i] = (uint8_t)octet;
    }
}

/* Part H 2.2.3 and 2.2.4 write numbers most significant octet first. */
static void samples(void)
{
    enum { VALUE = LEGACY_PAIRING_VALUE_SIZE, PDU = LEGACY_PAIRING_PAIRING_PDU_SIZE, ADDRESS = LEGACY_PAIRING_ADDRESS_SIZE };
    uint8_t k[VALUE] = {0}, r[VALUE], preq[PDU], pres[PDU], ia[ADDRESS], ra[ADDRESS], value[VALUE], wanted[VALUE];
    uint8_t r1[VALUE], r2[VALUE];
    printf("\nSample data of Part H\n");
    reversed("5783D52156AD6F0E6388274EC6702EE0", r, VALUE);
    reversed("07071000000101", preq, PDU);
    reversed("05000800000302", pres, PDU);
    ia[LEGACY_PAIRING_ADDRESS_KIND_OFFSET] = LEGACY_PAIRING_ADDRESS_RANDOM;
    ra[LEGACY_PAIRING_ADDRESS_KIND_OFFSET] = LEGACY_PAIRING_ADDRESS_PUBLIC;
    reversed("A1A2A3A4A5A6", ia + LEGACY_PAIRING_ADDRESS_OCTETS_OFFSET, ADDRESS - LEGACY_PAIRING_ADDRESS_OCTETS_OFFSET);
    reversed("B1B2B3B4B5B6", ra + LEGACY_PAIRING_ADDRESS_OCTETS_OFFSET, ADDRESS - LEGACY_PAIRING_ADDRESS_OCTETS_OFFSET);
    reversed("1E1E3FEF878988EAD2A74DC5BEF13B86", wanted, VALUE);
    check(legacy_pairing_c1(k, VALUE, r, VALUE, preq, PDU, pres, PDU, ia, ADDRESS, ra, ADDRESS, value, VALUE)
                  == LEGACY_PAIRING_DONE
              && memcmp(value, wanted, VALUE) == 0,
          "c1 of 2.2.3");
    reversed("000F0E0D0C0B0A091122334455667788", r1, VALUE);
    reversed("010203040506070899AABBCCDDEEFF00", r2, VALUE);
    reversed("9A1FE1F0E8B0F49B5B4216AE796DA062", wanted, VALUE);
    check(legacy_pairing_s1(k, VALUE, r1, VALUE, r2, VALUE, value, VALUE) == LEGACY_PAIRING_DONE
              && memcmp(value, wanted, VALUE) == 0,
          "s1 of 2.2.4");
}

/* ---- refusals: the number, and that record and buffers are as they were; the counts are 0 by 1 to 3, else
 *      as they were */

/* Two octets of the record that no host looks at: the phase, and the first of the temporary key. */
enum { PHASE_OFFSET = 0, TK_OFFSET = 18 };

static const uint8_t request[LEGACY_PAIRING_FEATURES_SIZE]
    = {LEGACY_PAIRING_IO_NO_INPUT_NO_OUTPUT, LEGACY_PAIRING_NO, LEGACY_PAIRING_AUTH_BONDING, WHOLE_KEY,
       LEGACY_PAIRING_KEYS_ENCRYPTION | LEGACY_PAIRING_KEYS_IDENTITY, LEGACY_PAIRING_KEYS_ENCRYPTION | LEGACY_PAIRING_KEYS_IDENTITY};

/* One octet more than a record, for a length that is too great. */
static uint8_t machine[LEGACY_PAIRING_MACHINE_SIZE + 1];

/* The head's fresh machine, with one octet of its record changed. */
static bool changed(size_t place, uint8_t octet)
{
    struct end head;
    bool right = begin(&head, LEGACY_PAIRING_HEAD, request);
    memset(machine, 0, sizeof machine);
    memcpy(machine, head.machine, sizeof head.machine);
    machine[place] = octet;
    return right;
}

/* What is given to a step and to legacy_pairing_result. */
struct given {
    uint8_t role;
    size_t place;
    uint8_t octet;
    size_t machine_len;
    uint16_t input;
    size_t payload_len; /* of the request */
    const uint8_t *answers;
    size_t answers_len, list_len;
};

static const struct given fitting = {
    .role = LEGACY_PAIRING_HEAD,
    .machine_len = LEGACY_PAIRING_MACHINE_SIZE,
    .input = LEGACY_PAIRING_COMMAND_PAIRING_REQUEST,
    .payload_len = sizeof request,
    .answers = no_payload,
    .list_len = LEGACY_PAIRING_CALL_LIST_SIZE,
};

/* A step that is refused. Record and list are as they were behind it, and both counts are `counts`. */
static void refused_step(const char *what, uint8_t number, struct given g, size_t counts)
{
    uint8_t before[sizeof machine], list[LEGACY_PAIRING_CALL_LIST_SIZE], untouched[sizeof list];
    size_t read = 77, written = 77;
    bool right = changed(g.place, g.octet);
    memcpy(before, machine, sizeof before);
    memset(list, 0xee, sizeof list);
    memset(untouched, 0xee, sizeof untouched);
    right &= legacy_pairing_step(g.role, machine, g.machine_len, g.input, request, g.payload_len, g.answers, g.answers_len,
                                 list, g.list_len, &read, &written)
             == number;
    right &= memcmp(machine, before, sizeof before) == 0 && memcmp(list, untouched, sizeof list) == 0;
    check(right && read == counts && written == counts, what);
}

/* The same of legacy_pairing_result: nothing is written. */
static void refused_result(const char *what, uint8_t number, struct given g)
{
    uint8_t before[sizeof machine], r = 0xee, k = 0xee, d = 0xee, i = 0xee, l = 0xee;
    bool right = changed(g.place, g.octet);
    memcpy(before, machine, sizeof before);
    right &= legacy_pairing_result(g.role, machine, g.machine_len, &r, &k, &d, &i, &l) == number;
    right &= memcmp(machine, before, sizeof before) == 0;
    check(right && r == 0xee && k == 0xee && d == 0xee && i == 0xee && l == 0xee, what);
}

/* Those that step and result have alike: of the role and of the record. */
static void refused_both(const char *step, const char *result, uint8_t number, struct given g)
{
    refused_step(step, number, g, 77);
    refused_result(result, number, g);
}

static void refused_steps(void)
{
    static const uint8_t another[] = {LEGACY_PAIRING_CALL_ASK_LOCAL_IRK, 0}; /* the step asks ASK_FIND_BOND */
    struct given g;
    printf("\nRefusals of a step and of legacy_pairing_result, record and buffers left as they were\n");
    g = fitting;
    g.list_len--;
    refused_step("1 a list too short", LEGACY_PAIRING_E_LIST_TOO_SHORT, g, 0);
    g = fitting;
    g.input = LEGACY_PAIRING_COMMAND_MAX + 1;
    refused_step("2 no command", LEGACY_PAIRING_E_NO_COMMAND, g, 0);
    g.input = 0;
    refused_step("2 no command, 0", LEGACY_PAIRING_E_NO_COMMAND, g, 0);
    g = fitting;
    g.answers = another;
    g.answers_len = sizeof another;
    refused_step("3 an answer to another call", LEGACY_PAIRING_E_BAD_ANSWER, g, 0);
    g = fitting;
    g.machine_len++;
    refused_both("20 a record of another length", "20 the same", LEGACY_PAIRING_E_MACHINE_LENGTH, g);
    g.machine_len = LEGACY_PAIRING_MACHINE_SIZE - 1;
    refused_both("20 a record cut", "20 the same", LEGACY_PAIRING_E_MACHINE_LENGTH, g);
    g = fitting;
    g.place = PHASE_OFFSET;
    g.octet = 11;
    refused_both("21 no phase", "21 the same", LEGACY_PAIRING_E_MACHINE_PHASE, g);
    g.place = LEGACY_PAIRING_MACHINE_LOCAL_FEATURES_OFFSET + LEGACY_PAIRING_FEATURES_IO_OFFSET;
    g.octet = LEGACY_PAIRING_IO_KEYBOARD_DISPLAY + 1;
    refused_both("22 no features", "22 the same", LEGACY_PAIRING_E_MACHINE_FEATURES, g);
    g.place = LEGACY_PAIRING_MACHINE_METHOD_OFFSET;
    g.octet = LEGACY_PAIRING_METHOD_BOTH_DISPLAY + 1;
    refused_both("23 no method", "23 the same", LEGACY_PAIRING_E_MACHINE_METHOD, g);
    g.place = LEGACY_PAIRING_MACHINE_BOND_PRESENT_OFFSET;
    g.octet = LEGACY_PAIRING_YES + 1;
    refused_both("24 no bond", "24 the same", LEGACY_PAIRING_E_MACHINE_BOND, g);
    g.place = TK_OFFSET;
    g.octet = 1;
    refused_both("25 a temporary key that nothing holds", "25 the same", LEGACY_PAIRING_E_NOT_CANONICAL, g);
    g.place = LEGACY_PAIRING_MACHINE_BOND_OFFSET + LEGACY_PAIRING_BOND_LTK_OFFSET;
    refused_both("25 a key without a bond", "25 the same", LEGACY_PAIRING_E_NOT_CANONICAL, g);
    g = fitting;
    g.role = LEGACY_PAIRING_HEAD + 1;
    refused_both("26 no role", "26 the same", LEGACY_PAIRING_E_NO_ROLE, g);
    g.machine_len++;
    refused_both("26 no role, before 20", "26 the same", LEGACY_PAIRING_E_NO_ROLE, g);
    g = fitting;
    g.input = LEGACY_PAIRING_INPUT_OOB_DATA_RECEIVED + 1;
    refused_step("27 no input", LEGACY_PAIRING_E_NO_INPUT, g, 77);
    g.input = LEGACY_PAIRING_INPUT_PASS_KEY_INPUT;
    refused_step("28 an event's data, of another length", LEGACY_PAIRING_E_BAD_EVENT, g, 77);
    g.input = LEGACY_PAIRING_INPUT_LINK_ENCRYPTED_RESULT; /* the request's first octet is 3 */
    g.payload_len = LEGACY_PAIRING_INPUT_LINK_ENCRYPTED_RESULT_SIZE;
    refused_step("28 an event's data, neither yes nor no", LEGACY_PAIRING_E_BAD_EVENT, g, 77);
}

static void other_refusals(void)
{
    enum { VALUE = LEGACY_PAIRING_VALUE_SIZE, PDU = LEGACY_PAIRING_PAIRING_PDU_SIZE, ADDRESS = LEGACY_PAIRING_ADDRESS_SIZE };
    static const uint8_t cut[] = {LEGACY_PAIRING_CALL_SEND_PAIRING_RESPONSE}, whole[] = {LEGACY_PAIRING_CALL_ASK_LOCAL_IRK};
    static const uint8_t unknown[] = {LEGACY_PAIRING_COMMAND_PAIRING_REQUEST};
    uint8_t out[VALUE + 1], kept[sizeof out], kind = 7;
    size_t count = 7, body = 7, size = 7;
    printf("\nRefusals of the others\n");
    memset(out, 0xee, sizeof out);
    memset(kept, 0xee, sizeof kept);
    check(legacy_pairing_read_features(request, sizeof request - 1, out, sizeof request) == LEGACY_PAIRING_E_FEATURES_CUT
              && !memcmp(out, kept, sizeof out),
          "4 features cut");
    check(legacy_pairing_write_features(LEGACY_PAIRING_IO_KEYBOARD_DISPLAY + 1, LEGACY_PAIRING_NO, 0, WHOLE_KEY, 0, 0, out,
                                        sizeof request)
                  == LEGACY_PAIRING_E_BAD_FEATURES
              && !memcmp(out, kept, sizeof out),
          "5 features written");
    memcpy(machine, request, sizeof request);
    machine[LEGACY_PAIRING_FEATURES_KEY_SIZE_OFFSET] = LEGACY_PAIRING_LARGEST_KEY_SIZE + 1;
    check(legacy_pairing_read_features(machine, sizeof request, out, sizeof request) == LEGACY_PAIRING_E_BAD_FEATURES
              && !memcmp(out, kept, sizeof out),
          "5 features read");
    check(legacy_pairing_read_features(request, sizeof request, out, sizeof request + 1) == LEGACY_PAIRING_E_WRONG_LENGTH
              && !memcmp(out, kept, sizeof out),
          "29 fields");
    check(legacy_pairing_new(LEGACY_PAIRING_HEAD, kept, ADDRESS, kept, ADDRESS - 1, request, sizeof request, machine,
                             LEGACY_PAIRING_MACHINE_SIZE)
              == LEGACY_PAIRING_E_WRONG_LENGTH,
          "29 an address");
    check(legacy_pairing_c1(kept, VALUE, kept, VALUE, kept, PDU, kept, PDU - 1, kept, ADDRESS, kept, ADDRESS, out, VALUE)
                  == LEGACY_PAIRING_E_WRONG_LENGTH
              && !memcmp(out, kept, sizeof out),
          "29 c1");
    check(legacy_pairing_s1(kept, VALUE, kept, VALUE, kept, VALUE, out, VALUE + 1) == LEGACY_PAIRING_E_WRONG_LENGTH
              && !memcmp(out, kept, sizeof out),
          "29 s1");
    check(legacy_pairing_count_calls(cut, sizeof cut, &count) == LEGACY_PAIRING_E_BAD_CALL_LIST && count == 7,
          "6 a call list cut");
    check(legacy_pairing_count_calls(unknown, sizeof unknown, &count) == LEGACY_PAIRING_E_BAD_CALL_LIST && count == 7,
          "6 a kind that no call has");
    check(legacy_pairing_call_at(whole, sizeof whole, 1, &kind, &body, &size) == LEGACY_PAIRING_E_NO_CALL && kind == 7
              && body == 7 && size == 7,
          "30 no such call");
}

int main(void)
{
    enum { BOTH = LEGACY_PAIRING_KEYS_ENCRYPTION | LEGACY_PAIRING_KEYS_IDENTITY,
           BONDS = LEGACY_PAIRING_AUTH_BONDING | LEGACY_PAIRING_AUTH_MITM };
    static const uint8_t bonding[] = {LEGACY_PAIRING_IO_NO_INPUT_NO_OUTPUT, LEGACY_PAIRING_NO, LEGACY_PAIRING_AUTH_BONDING,
                                      WHOLE_KEY, BOTH, BOTH};
    static const uint8_t alone[] = {LEGACY_PAIRING_IO_NO_INPUT_NO_OUTPUT, LEGACY_PAIRING_NO, 0, WHOLE_KEY, 0, BOTH};
    static const uint8_t shows[] = {LEGACY_PAIRING_IO_DISPLAY_ONLY, LEGACY_PAIRING_NO, BONDS, WHOLE_KEY, BOTH, BOTH};
    static const uint8_t types[] = {LEGACY_PAIRING_IO_KEYBOARD_ONLY, LEGACY_PAIRING_NO, BONDS, SHORT_KEY, BOTH, BOTH};
    static const uint8_t oob[] = {LEGACY_PAIRING_IO_NO_INPUT_NO_OUTPUT, LEGACY_PAIRING_YES, BONDS, WHOLE_KEY, BOTH, BOTH};
    static const struct pairing pairings[] = {
        {"Just Works, both bond: 8 + 2 * 4 inputs", bonding, bonding, 16, LEGACY_PAIRING_METHOD_JUST_WORKS,
         LEGACY_PAIRING_LEVEL_ENCRYPTED, WHOLE_KEY, true, true},
        {"The terminal shows, the head types: 8 + 1 + 2 * 4 inputs", shows, types, 17,
         LEGACY_PAIRING_METHOD_TERMINAL_DISPLAYS, LEGACY_PAIRING_LEVEL_AUTHENTICATED, SHORT_KEY, true, true},
        {"Out of band: 8 + 2 + 2 * 4 inputs", oob, oob, 18, LEGACY_PAIRING_METHOD_OUT_OF_BAND,
         LEGACY_PAIRING_LEVEL_AUTHENTICATED, WHOLE_KEY, true, true},
        {"The head does not bond, the request names the identity key: 8 inputs", bonding, alone, 8,
         LEGACY_PAIRING_METHOD_JUST_WORKS, LEGACY_PAIRING_LEVEL_ENCRYPTED, WHOLE_KEY, false, false},
    };
    check(legacy_pairing_version() == LEGACY_PAIRING_VERSION, "the library is of the header's version");
    for (size_t i = 0; i < sizeof pairings / sizeof *pairings; i++)
        pair(&pairings[i]);
    failing();
    samples();
    refused_steps();
    other_refusals();
    printf("\n%u of %u checks right\n", checks - failures, checks);
    return failures != 0;
}
